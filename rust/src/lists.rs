//! Records: one at a time from a log, as lists of bytes, the short list, the part that a record names.

use crate::{face, narrow, Image, Refusal, EVENT_RECORDS_MOST, RECORD};
use std::iter::FusedIterator;

/// A signature that ended.
///
/// ```
/// use gusemrak::Record;
///
/// let record = Record { end: 4, length: 3, mark: 5 };
/// assert_eq!(record.to_bytes(), [4, 0, 0, 0, 3, 0, 5, 0]);
/// assert_eq!(Record::from_bytes(record.to_bytes()), record);
/// ```
#[derive(Clone, Copy, PartialEq, Eq, Hash, Debug)]
pub struct Record {
    /// The event it ended at, counted from 1: base plus events taken.
    pub end: u32,
    /// The length of the shortest ending that is this signature.
    pub length: u16,
    /// The signature's class, 1 to 255.
    pub mark: u8,
}

impl Record {
    /// A record from its bytes. The last byte has no meaning here.
    pub fn from_bytes(bytes: [u8; RECORD]) -> Record {
        let [end0, end1, end2, end3, length0, length1, mark, _] = bytes;
        let end = u32::from_le_bytes([end0, end1, end2, end3]);
        Record { end, length: u16::from_le_bytes([length0, length1]), mark }
    }

    /// A record's bytes.
    pub fn to_bytes(self) -> [u8; RECORD] {
        let ([end0, end1, end2, end3], [length0, length1]) = (self.end.to_le_bytes(), self.length.to_le_bytes());
        [end0, end1, end2, end3, length0, length1, self.mark, 0]
    }
}

/// The records in a list's bytes. Refused by 22 where these are not whole records.
pub fn read_list(list: &[u8]) -> Result<impl ExactSizeIterator<Item = Record> + '_, Refusal> {
    let records = list.chunks_exact(RECORD);
    if !records.remainder().is_empty() {
        return Err(Refusal { number: 22, place: 0 });
    }
    Ok(records.map(|bytes| Record::from_bytes(bytes.try_into().expect("a chunk has that length"))))
}

/// A list's bytes.
pub fn write_list(list: &[Record]) -> Vec<u8> {
    list.iter().flat_map(|record| record.to_bytes()).collect()
}

/// So many records are read from the log at a time. With room for [`EVENT_RECORDS_MOST`] a run takes at least one
/// event, so reading always moves on; more only makes the calls fewer.
const ROOM: usize = 4096;
const _: () = assert!(ROOM >= EVENT_RECORDS_MOST);

/// The records of a log, in order: by rising end, and longest first where several end at one event.
///
/// Made by [`Image::records`] and [`Image::records_from`]. It reads the log in parts through a buffer of its own, so a
/// list of any length takes no more memory than that. Once it has given its last record the whole log is read, and
/// [`place`](Records::place) and [`steps`](Records::steps) are those of the whole log:
///
/// ```
/// # use gusemrak::Book;
/// # let bytes = std::fs::read("../examples/sample/book.sb")?;
/// # let compiled = Book::check(&bytes)?.compile()?;
/// # let image = compiled.image();
/// let mut records = image.records(&[0x21, 0x31, 0x22, 0x41])?;
/// assert_eq!(records.by_ref().count(), 1);
/// assert_eq!((records.taken(), records.place(), records.steps()), (4, 5, 1));
/// # Ok::<(), Box<dyn std::error::Error>>(())
/// ```
#[derive(Clone, Debug)]
pub struct Records<'i, 'l> {
    image: Image<'i>,
    log: &'l [u8],
    base: u32,
    taken: usize,
    place: u32,
    steps: u64,
    buffer: Box<[u8]>,
    /// Offsets in the buffer: the records from `next` up to `filled` have not been given yet.
    next: usize,
    filled: usize,
}

impl<'i, 'l> Records<'i, 'l> {
    pub(crate) fn begin(image: Image<'i>, place: u32, base: u32, log: &'l [u8]) -> Result<Records<'i, 'l>, Refusal> {
        let buffer = vec![0; ROOM * RECORD].into_boxed_slice();
        let mut records = Records { image, log, base, taken: 0, place, steps: 0, buffer, next: 0, filled: 0 };
        // The first part is read here, so that a wrong place or a log too long is refused before anything is given.
        records.read_part()?;
        Ok(records)
    }

    fn read_part(&mut self) -> Result<(), Refusal> {
        // Base plus the whole log's length is judged by the first part, so no end overflows here.
        let base = self.base.wrapping_add(self.taken as u32);
        let ran = self.image.run(self.place, base, &self.log[self.taken..], &mut self.buffer)?;
        self.taken += ran.taken;
        self.place = ran.place;
        self.steps += ran.steps;
        self.next = 0;
        self.filled = RECORD * ran.records;
        Ok(())
    }

    /// The events read so far. They are the whole log once the last record has been given.
    pub fn taken(&self) -> usize {
        self.taken
    }

    /// The place after the events read so far: where the records of a log that goes on begin.
    pub fn place(&self) -> u32 {
        self.place
    }

    /// The failure steps of the events read so far.
    pub fn steps(&self) -> u64 {
        self.steps
    }
}

impl Iterator for Records<'_, '_> {
    type Item = Record;

    fn next(&mut self) -> Option<Record> {
        while self.next == self.filled {
            if self.taken == self.log.len() {
                return None;
            }
            self.read_part().expect("a run that goes on from a run's own answer is not refused");
        }
        let bytes = &self.buffer[self.next..self.next + RECORD];
        self.next += RECORD;
        Some(Record::from_bytes(bytes.try_into().expect("a record has that length")))
    }

    fn size_hint(&self) -> (usize, Option<usize>) {
        let here = (self.filled - self.next) / RECORD;
        (here, (self.taken == self.log.len()).then_some(here))
    }
}

impl FusedIterator for Records<'_, '_> {}

/// The short list of a full list: one record for each event where something ended, the first of those there. It is
/// drawn from the full list, so that both tell of one reading of the log.
///
/// ```
/// use gusemrak::{short_list, Record};
///
/// let full = [Record { end: 3, length: 3, mark: 5 }, Record { end: 3, length: 2, mark: 3 }];
/// assert_eq!(short_list(&full), full[..1]);
/// ```
pub fn short_list(list: &[Record]) -> Vec<Record> {
    let list = write_list(list);
    let mut out = vec![0; list.len()];
    let kept = short_list_into(&list, &mut out).expect("whole records, and room for all of them");
    read_list(&out[..RECORD * kept]).expect("whole records").collect()
}

/// The short list of a full list that is kept as bytes, written to a lent buffer; answers the records kept. Refused by
/// 22 where the list is not whole records, by 23 where the short list is longer than the buffer.
///
/// ```
/// use gusemrak::{short_list_into, Refusal};
///
/// let full = [3, 0, 0, 0, 3, 0, 5, 0, 3, 0, 0, 0, 2, 0, 3, 0];
/// let mut buffer = [0; 16];
/// assert_eq!(short_list_into(&full, &mut buffer)?, 1);
/// assert_eq!(buffer, [3, 0, 0, 0, 3, 0, 5, 0, 0, 0, 0, 0, 0, 0, 0, 0]);
/// assert_eq!(short_list_into(&full[1..], &mut buffer), Err(Refusal { number: 22, place: 0 }));
/// # Ok::<(), Refusal>(())
/// ```
pub fn short_list_into(list: &[u8], out: &mut [u8]) -> Result<usize, Refusal> {
    face::short_list(list, out).map(|[kept, ..]| narrow(kept))
}

/// The part of a log that a record names: the events of the signature. `log` and `base` are those that the record came
/// with. Refused by 21 where base plus the log's length is over 4,294,967,295, then by 24 where the record does not
/// name a part of this log. A part is never empty.
///
/// ```
/// use gusemrak::{part, Record, Refusal};
///
/// let log = [0x21, 0x31, 0x22, 0x41];
/// assert_eq!(part(&log, 0, Record { end: 4, length: 3, mark: 5 })?, [0x31, 0x22, 0x41]);
/// assert_eq!(part(&log, 0, Record { end: 5, length: 3, mark: 5 }), Err(Refusal { number: 24, place: 0 }));
/// # Ok::<(), Refusal>(())
/// ```
pub fn part(log: &[u8], base: u32, record: Record) -> Result<&[u8], Refusal> {
    let [offset, length, ..] = face::part(log, base, record.end, u32::from(record.length))?;
    let offset: usize = narrow(offset);
    Ok(&log[offset..offset + narrow::<usize>(length)])
}

/// The group letter of an event: S system, M measuring, C calibration, D diagnosis, W storing, R reserved.
///
/// ```
/// assert_eq!(gusemrak::group(0x41), 'W');
/// ```
pub fn group(event: u8) -> char {
    char::from(face::group(event))
}
