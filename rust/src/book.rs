//! Books: checked bytes, and their compile.

use crate::layout::{number16, EDGE, STATE, TRAILER};
use crate::{face, narrow, Edges, ImageBuf, Refusal, IMAGE_MOST};

/// A book of signatures: bytes that were checked and not refused.
///
/// ```
/// use gusemrak::Book;
///
/// let bytes = std::fs::read("../examples/sample/book.sb")?;
/// let book = Book::check(&bytes)?;
/// assert_eq!((book.states(), book.edges()), (5, 5));
/// let image = book.compile()?;
/// assert_eq!((image.as_bytes().len(), image.image().places(), image.image().edges()), (120, 6, 6));
/// # Ok::<(), Box<dyn std::error::Error>>(())
/// ```
#[derive(Clone, Copy, PartialEq, Eq, Debug)]
pub struct Book<'a> {
    bytes: &'a [u8],
    states: u32,
    edges: u32,
}

/// What a compile into a lent buffer answers.
#[derive(Clone, Copy, PartialEq, Eq, Debug)]
pub struct Compiled {
    /// The length of the image: so many bytes of the buffer were written.
    pub length: usize,
    /// The image's places.
    pub places: u32,
    /// The image's edges.
    pub edges: u32,
}

impl<'a> Book<'a> {
    /// The book in these bytes. Refused by 1 to 13.
    ///
    /// A place tells where the fault is. Here edge 1, at 4S + 4 = 24, has no event above that of edge 0:
    ///
    /// ```
    /// use gusemrak::{Book, Refusal};
    ///
    /// let mut bytes = std::fs::read("../examples/sample/book.sb")?;
    /// bytes[24] = 0x21;
    /// assert_eq!(Book::check(&bytes), Err(Refusal { number: 9, place: 24 }));
    /// # Ok::<(), Box<dyn std::error::Error>>(())
    /// ```
    pub fn check(bytes: &'a [u8]) -> Result<Book<'a>, Refusal> {
        let [states, edges, ..] = face::check_book(bytes)?;
        Ok(Book { bytes, states: narrow(states), edges: narrow(edges) })
    }

    /// How many states the book has, the start counted: 1 to 512.
    pub fn states(&self) -> u32 {
        self.states
    }

    /// How many edges the book has: 0 to 2,048.
    pub fn edges(&self) -> u32 {
        self.edges
    }

    /// The bytes that were checked, the maker's note included.
    pub fn as_bytes(&self) -> &'a [u8] {
        self.bytes
    }

    /// Compiles the book. Refused by 14 or 15 where its image would be too large; the book itself has been checked.
    pub fn compile(&self) -> Result<ImageBuf, Refusal> {
        let mut bytes = vec![0; IMAGE_MOST];
        let compiled = self.compile_into(&mut bytes)?;
        bytes.truncate(compiled.length);
        bytes.shrink_to_fit();
        // An image is had only by opening it. The library accepts what it compiles.
        ImageBuf::open(bytes)
    }

    /// Compiles the book into a lent buffer. Refused by 14 to 16, and then the buffer is unchanged; otherwise the bytes
    /// past the image are. [`IMAGE_MOST`] bytes are enough for every image.
    ///
    /// ```
    /// # use gusemrak::{Book, Refusal};
    /// # let bytes = std::fs::read("../examples/sample/book.sb")?;
    /// # let book = Book::check(&bytes)?;
    /// let mut buffer = [0; 128];
    /// assert_eq!(book.compile_into(&mut buffer)?.length, 120);
    /// assert_eq!(book.compile_into(&mut buffer[..119]), Err(Refusal { number: 16, place: 0 }));
    /// # Ok::<(), Box<dyn std::error::Error>>(())
    /// ```
    pub fn compile_into(&self, out: &mut [u8]) -> Result<Compiled, Refusal> {
        let [length, places, edges, _] = face::compile(self.bytes, out)?;
        Ok(Compiled { length: narrow(length), places: narrow(places), edges: narrow(edges) })
    }
}

/// What a book says, read by this crate from the checked bytes. The library has no calls for these.
impl<'a> Book<'a> {
    /// The maker's note: what stands before the state table. It has no meaning.
    pub fn note(&self) -> &'a [u8] {
        &self.bytes[..self.table_start()]
    }

    /// The mark of a state: 1 to 255, 0 where it is unmarked. None where there is no such state.
    pub fn mark(&self, state: u32) -> Option<u8> {
        self.state_records().nth(state as usize).map(|record| record[0])
    }

    /// The edges of a state, by rising event. None where there is no such state.
    ///
    /// ```
    /// # use gusemrak::{Book, Edge};
    /// # let bytes = std::fs::read("../examples/sample/book.sb")?;
    /// # let book = Book::check(&bytes)?;
    /// let edges: Vec<Edge> = book.edges_of(0).unwrap().collect();
    /// assert_eq!(edges, [Edge { event: 0x21, target: 1 }, Edge { event: 0x31, target: 2 }]);
    /// # Ok::<(), Box<dyn std::error::Error>>(())
    /// ```
    pub fn edges_of(&self, state: u32) -> Option<Edges<'a>> {
        let count = |record: &[u8]| usize::from(number16(record, 2));
        let own = self.state_records().nth(state as usize).map(count)?;
        let first = self.state_records().take(state as usize).map(count).sum();
        Some(Edges::of(&self.bytes[self.table_start() + STATE * self.states as usize..], first, own))
    }

    fn table_start(&self) -> usize {
        self.bytes.len() - TRAILER - EDGE * self.edges as usize - STATE * self.states as usize
    }

    fn state_records(&self) -> impl Iterator<Item = &'a [u8]> {
        self.bytes[self.table_start()..].chunks_exact(STATE).take(self.states as usize)
    }
}
