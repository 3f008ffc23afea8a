//! Where fields lie in accepted bytes, for the readers of [`Book`](crate::Book) and [`Image`](crate::Image) that the
//! library has no call for. Only bytes that the library has accepted are read with these.

pub(crate) const TRAILER: usize = 12;
pub(crate) const STATE: usize = 4;
pub(crate) const EDGE: usize = 4;
pub(crate) const PLACE: usize = 14;

pub(crate) fn number16(bytes: &[u8], offset: usize) -> u16 {
    u16::from_le_bytes([bytes[offset], bytes[offset + 1]])
}

/// An edge: the event, and the state or place that it leads to.
#[derive(Clone, Copy, PartialEq, Eq, Hash, Debug)]
pub struct Edge {
    /// The event.
    pub event: u8,
    /// A state in a book, a place in an image.
    pub target: u32,
}

/// The edges of one state or place, by rising event.
#[derive(Clone, Debug)]
pub struct Edges<'a> {
    records: std::slice::ChunksExact<'a, u8>,
}

impl<'a> Edges<'a> {
    /// `count` edge records of a table, from number `first` on.
    pub(crate) fn of(table: &'a [u8], first: usize, count: usize) -> Edges<'a> {
        Edges { records: table[EDGE * first..EDGE * (first + count)].chunks_exact(EDGE) }
    }
}

impl Iterator for Edges<'_> {
    type Item = Edge;

    fn next(&mut self) -> Option<Edge> {
        let record = self.records.next()?;
        Some(Edge { event: record[0], target: u32::from(number16(record, 2)) })
    }

    fn size_hint(&self) -> (usize, Option<usize>) {
        self.records.size_hint()
    }
}

impl ExactSizeIterator for Edges<'_> {}
impl std::iter::FusedIterator for Edges<'_> {}
