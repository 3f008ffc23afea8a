//! Images: the open image, what is asked of it, the walk.

use crate::layout::{number16, PLACE};
use crate::{face, narrow, Edges, Records, Refusal};

/// An open image: bytes that were checked and not refused, with their counts.
///
/// A place stands for what a log has led to so far. Place 0 is where a log begins. Places are numbers below
/// [`places`](Image::places); a call that is given another is refused by 20.
///
/// The library takes any bytes at each call, so **each question and each step checks the whole image again**. That
/// costs about what [`Image::open`] costs, linear in the length of the image. For more than a few events use
/// [`records`](Image::records) or [`run`](Image::run), which check it once for many events.
#[derive(Clone, Copy, PartialEq, Eq, Debug)]
pub struct Image<'a> {
    bytes: &'a [u8],
    places: u32,
    edges: u32,
}

/// An open image that owns its bytes: what [`Book::compile`](crate::Book::compile) gives, and what to keep.
///
/// ```
/// use gusemrak::{Book, ImageBuf};
///
/// let bytes = std::fs::read("../examples/sample/book.sb")?;
/// let image = Book::check(&bytes)?.compile()?;
/// assert_eq!(image.image().places(), 6);
/// // Kept as bytes and opened again, it is the same image.
/// assert_eq!(ImageBuf::open(image.as_bytes().to_vec())?, image);
/// # Ok::<(), Box<dyn std::error::Error>>(())
/// ```
#[derive(Clone, PartialEq, Eq, Debug)]
pub struct ImageBuf {
    bytes: Vec<u8>,
    places: u32,
    edges: u32,
}

/// Where a walk is after an event.
#[derive(Clone, Copy, PartialEq, Eq, Debug)]
pub struct Walk {
    /// The place after the event.
    pub place: u32,
    /// The level of that place.
    pub level: u16,
    /// The failure steps of this one event: the fallbacks taken until an edge was found, or place 0 reached.
    pub steps: u64,
}

/// What a run answers.
#[derive(Clone, Copy, PartialEq, Eq, Debug)]
pub struct Ran {
    /// The events taken: fewer than the log has where the records of the next event did not fit.
    pub taken: usize,
    /// The place after them.
    pub place: u32,
    /// The records written, 8 bytes each.
    pub records: usize,
    /// The failure steps of all events taken.
    pub steps: u64,
}

/// A book state that is alive, and its reach: the length of the shortest ending that leads to it.
#[derive(Clone, Copy, PartialEq, Eq, Hash, Debug)]
pub struct Live {
    /// The book state.
    pub state: u32,
    /// Its reach.
    pub reach: u16,
}

impl ImageBuf {
    /// Opens an image and keeps its bytes. Refused by 17 to 19.
    pub fn open(bytes: Vec<u8>) -> Result<ImageBuf, Refusal> {
        let Image { places, edges, .. } = Image::open(&bytes)?;
        Ok(ImageBuf { bytes, places, edges })
    }

    /// The open image. Nothing is checked again.
    pub fn image(&self) -> Image<'_> {
        Image { bytes: &self.bytes, places: self.places, edges: self.edges }
    }

    /// The image's bytes, as a file would have them.
    pub fn as_bytes(&self) -> &[u8] {
        &self.bytes
    }

    /// The image's bytes, to keep elsewhere.
    pub fn into_bytes(self) -> Vec<u8> {
        self.bytes
    }
}

impl<'a> Image<'a> {
    /// Opens an image. Refused by 17 to 19.
    ///
    /// ```
    /// use gusemrak::{Book, Image, Refusal};
    ///
    /// let book = std::fs::read("../examples/sample/book.sb")?;
    /// let kept = Book::check(&book)?.compile()?.into_bytes();
    /// let image = Image::open(&kept)?;
    /// assert_eq!((image.places(), image.edges()), (6, 6));
    /// // A book is no image.
    /// assert_eq!(Image::open(&book), Err(Refusal { number: 17, place: 0 }));
    /// # Ok::<(), Box<dyn std::error::Error>>(())
    /// ```
    pub fn open(bytes: &'a [u8]) -> Result<Image<'a>, Refusal> {
        let [places, edges, ..] = face::check_image(bytes)?;
        Ok(Image { bytes, places: narrow(places), edges: narrow(edges) })
    }

    /// How many places the image has: 1 to 1,024.
    pub fn places(&self) -> u32 {
        self.places
    }

    /// How many edges the image has: 0 to 4,096.
    pub fn edges(&self) -> u32 {
        self.edges
    }

    /// The image's bytes.
    pub fn as_bytes(&self) -> &'a [u8] {
        self.bytes
    }

    /// The fallback of a place: the place of its chain without the head. Place 0 is its own.
    pub fn fallback(&self, place: u32) -> Result<u32, Refusal> {
        face::fallback(self.bytes, place).map(|[fallback, ..]| narrow(fallback))
    }

    /// The level of a place: the reach of its head; 0 at place 0.
    pub fn level(&self, place: u32) -> Result<u16, Refusal> {
        face::level(self.bytes, place).map(|[level, ..]| narrow(level))
    }

    /// The mark of a place's head, 1 to 255; 0 where it is unmarked.
    ///
    /// An unmarked place is not a quiet one: a place among its fallbacks may be marked.
    pub fn mark(&self, place: u32) -> Result<u8, Refusal> {
        face::mark(self.bytes, place).map(|[mark, ..]| narrow(mark))
    }

    /// The target of a place's own edge on an event, if it has one. Fallbacks are not tried; that is what
    /// [`step`](Image::step) does.
    ///
    /// ```
    /// # use gusemrak::Book;
    /// # let bytes = std::fs::read("../examples/sample/book.sb")?;
    /// # let compiled = Book::check(&bytes)?.compile()?;
    /// # let image = compiled.image();
    /// assert_eq!(image.edge(3, 0x41)?, Some(5));
    /// assert_eq!(image.edge(3, 0x22)?, None);
    /// assert_eq!(image.edge(6, 0x22).unwrap_err().number, 20);
    /// # Ok::<(), Box<dyn std::error::Error>>(())
    /// ```
    pub fn edge(&self, place: u32, event: u8) -> Result<Option<u32>, Refusal> {
        let [there, target, ..] = face::edge(self.bytes, place, event)?;
        Ok((there == 1).then(|| narrow(target)))
    }

    /// One event of a walk. A walk begins at place 0.
    ///
    /// ```
    /// # use gusemrak::{Book, Walk};
    /// # let bytes = std::fs::read("../examples/sample/book.sb")?;
    /// # let compiled = Book::check(&bytes)?.compile()?;
    /// # let image = compiled.image();
    /// let mut place = 0;
    /// for event in [0x21, 0x31] {
    ///     place = image.step(place, event)?.place;
    /// }
    /// // 22 has no edge at place 3, and one at its fallback, place 2.
    /// assert_eq!(place, 3);
    /// assert_eq!(image.step(place, 0x22)?, Walk { place: 4, level: 2, steps: 1 });
    /// # Ok::<(), Box<dyn std::error::Error>>(())
    /// ```
    pub fn step(&self, place: u32, event: u8) -> Result<Walk, Refusal> {
        let [place, level, steps, _] = face::step(self.bytes, place, event)?;
        Ok(Walk { place: narrow(place), level: narrow(level), steps })
    }

    /// Reads a log from a place on and writes its records to a lent buffer, as far as they fit. `base` is how many
    /// events came before this log. Refused by 20 for the place, then by 21.
    ///
    /// The run stops before the first event whose records do not all fit; to read on, go on from [`Ran::place`] with
    /// the rest of the log and `base` plus the events taken. [`records`](Image::records) does that.
    ///
    /// ```
    /// use gusemrak::{read_list, Ran, Record};
    /// # use gusemrak::Book;
    /// # let bytes = std::fs::read("../examples/sample/book.sb")?;
    /// # let compiled = Book::check(&bytes)?.compile()?;
    /// # let image = compiled.image();
    ///
    /// let mut buffer = [0; 64];
    /// let ran = image.run(0, 0, &[0x21, 0x31, 0x22, 0x41], &mut buffer)?;
    /// assert_eq!(ran, Ran { taken: 4, place: 5, records: 1, steps: 1 });
    /// let list: Vec<Record> = read_list(&buffer[..8 * ran.records])?.collect();
    /// assert_eq!(list, [Record { end: 4, length: 3, mark: 5 }]);
    /// # Ok::<(), Box<dyn std::error::Error>>(())
    /// ```
    pub fn run(&self, place: u32, base: u32, log: &[u8], out: &mut [u8]) -> Result<Ran, Refusal> {
        let [taken, place, records, steps] = face::run(self.bytes, place, base, log, out)?;
        Ok(Ran { taken: narrow(taken), place: narrow(place), records: narrow(records), steps })
    }

    /// The records of a whole log, read from place 0 with base 0. Refused by 21 where the log is over 4,294,967,295
    /// events.
    ///
    /// ```
    /// use gusemrak::{Book, Record};
    ///
    /// let bytes = std::fs::read("../examples/sample/book.sb")?;
    /// let image = Book::check(&bytes)?.compile()?;
    /// let log = std::fs::read("../examples/sample/log.ev")?;
    /// let full: Vec<Record> = image.image().records(&log)?.collect();
    /// assert_eq!(full, [Record { end: 4, length: 3, mark: 5 }]);
    /// # Ok::<(), Box<dyn std::error::Error>>(())
    /// ```
    pub fn records<'l>(&self, log: &'l [u8]) -> Result<Records<'a, 'l>, Refusal> {
        self.records_from(0, 0, log)
    }

    /// The records of a log that goes on where another ended: from its place, with the events before it as base.
    /// Refused by 20 for the place, then by 21.
    pub fn records_from<'l>(&self, place: u32, base: u32, log: &'l [u8]) -> Result<Records<'a, 'l>, Refusal> {
        Records::begin(*self, place, base, log)
    }
}

/// What an image says, read by this crate from the accepted bytes. The library has no calls for these.
impl<'a> Image<'a> {
    /// The head of a place: the first book state of its chain; 0 at place 0. Refused by 20.
    pub fn head(&self, place: u32) -> Result<u32, Refusal> {
        self.place_record(place).map(|record| u32::from(number16(record, 8)))
    }

    /// The edges of a place, by rising event. Refused by 20.
    pub fn edges_of(&self, place: u32) -> Result<Edges<'a>, Refusal> {
        let record = self.place_record(place)?;
        let (first, count) = (number16(record, 0), number16(record, 2));
        Ok(Edges::of(&self.bytes[PLACE * self.places as usize..], usize::from(first), usize::from(count)))
    }

    /// The chain of a place: the live book states with their reaches, greatest first. Refused by 20.
    ///
    /// ```
    /// # use gusemrak::{Book, Live};
    /// # let bytes = std::fs::read("../examples/sample/book.sb")?;
    /// # let compiled = Book::check(&bytes)?.compile()?;
    /// # let image = compiled.image();
    /// assert_eq!(image.chain(3)?, [Live { state: 3, reach: 2 }, Live { state: 2, reach: 1 }]);
    /// assert_eq!(image.chain(4)?, [Live { state: 3, reach: 2 }]);
    /// # Ok::<(), Box<dyn std::error::Error>>(())
    /// ```
    pub fn chain(&self, place: u32) -> Result<Vec<Live>, Refusal> {
        let mut chain = Vec::new();
        let mut place = place;
        let mut record = self.place_record(place)?;
        // A fallback is a lower place, so place 0 is reached.
        while place != 0 {
            chain.push(Live { state: u32::from(number16(record, 8)), reach: number16(record, 6) });
            place = u32::from(number16(record, 4));
            record = self.place_record(place)?;
        }
        Ok(chain)
    }

    fn place_record(&self, place: u32) -> Result<&'a [u8], Refusal> {
        if place >= self.places {
            return Err(Refusal { number: 20, place: 0 });
        }
        Ok(&self.bytes[PLACE * place as usize..PLACE * (place as usize + 1)])
    }
}
