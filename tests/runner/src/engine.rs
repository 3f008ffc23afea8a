//! What a case is run on: one method for each public function. `None` means that the engine does not have the
//! function yet; its cases are then skipped and counted as skipped.

pub use oracle::Answer;

pub trait Engine {
    fn name(&self) -> &'static str;
    /// a states, b edges.
    fn check_book(&self, book: &[u8]) -> Option<Answer>;
    /// a length, b places, c edges.
    fn compile(&self, book: &[u8], out: &mut [u8]) -> Option<Answer>;
    /// a places, b edges.
    fn check_image(&self, image: &[u8]) -> Option<Answer>;
    /// a the fallback.
    fn fallback(&self, image: &[u8], place: u32) -> Option<Answer>;
    /// a the level.
    fn level(&self, image: &[u8], place: u32) -> Option<Answer>;
    /// a the mark.
    fn mark(&self, image: &[u8], place: u32) -> Option<Answer>;
    /// a is 1 where there is an edge, b its target.
    fn edge(&self, image: &[u8], place: u32, event: u8) -> Option<Answer>;
    /// a place, b level, c steps of this event.
    fn step(&self, image: &[u8], place: u32, event: u8) -> Option<Answer>;
    /// a taken, b place, c records, d steps.
    fn run(&self, image: &[u8], place: u32, base: u32, log: &[u8], out: &mut [u8]) -> Option<Answer>;
    /// a records kept.
    fn short_list(&self, list: &[u8], out: &mut [u8]) -> Option<Answer>;
    /// a offset in the log, b length.
    fn part(&self, log: &[u8], base: u32, end: u32, length: u32) -> Option<Answer>;
    fn group(&self, event: u8) -> Option<u8>;
    /// What the program `list` prints for these two files; empty ones stand for missing ones too. It is no function
    /// of the library, but a program above it.
    fn listing(&self, book: &[u8], log: &[u8]) -> Option<String>;
}

/// The oracle has every function.
pub struct Oracle;

impl Engine for Oracle {
    fn name(&self) -> &'static str {
        "oracle"
    }
    fn check_book(&self, book: &[u8]) -> Option<Answer> {
        Some(oracle::answers::check_book(book))
    }
    fn compile(&self, book: &[u8], out: &mut [u8]) -> Option<Answer> {
        Some(oracle::answers::compile(book, out))
    }
    fn check_image(&self, image: &[u8]) -> Option<Answer> {
        Some(oracle::answers::check_image(image))
    }
    fn fallback(&self, image: &[u8], place: u32) -> Option<Answer> {
        Some(oracle::answers::fallback(image, place))
    }
    fn level(&self, image: &[u8], place: u32) -> Option<Answer> {
        Some(oracle::answers::level(image, place))
    }
    fn mark(&self, image: &[u8], place: u32) -> Option<Answer> {
        Some(oracle::answers::mark(image, place))
    }
    fn edge(&self, image: &[u8], place: u32, event: u8) -> Option<Answer> {
        Some(oracle::answers::edge(image, place, event))
    }
    fn step(&self, image: &[u8], place: u32, event: u8) -> Option<Answer> {
        Some(oracle::answers::step(image, place, event))
    }
    fn run(&self, image: &[u8], place: u32, base: u32, log: &[u8], out: &mut [u8]) -> Option<Answer> {
        Some(oracle::answers::run(image, place, base, log, out))
    }
    fn short_list(&self, list: &[u8], out: &mut [u8]) -> Option<Answer> {
        Some(oracle::answers::short_list(list, out))
    }
    fn part(&self, log: &[u8], base: u32, end: u32, length: u32) -> Option<Answer> {
        Some(oracle::answers::part(log, base, end, length))
    }
    fn group(&self, event: u8) -> Option<u8> {
        Some(oracle::answers::group(event))
    }
    fn listing(&self, book: &[u8], log: &[u8]) -> Option<String> {
        Some(oracle::listing::listing(book, log))
    }
}

/// The proved library, where this build has it.
pub fn proved() -> Option<Box<dyn Engine>> {
    linked(false)
}

/// The same, given a null pointer for every slice that is empty.
pub fn proved_with_null() -> Option<Box<dyn Engine>> {
    linked(true)
}

fn linked(null_when_empty: bool) -> Option<Box<dyn Engine>> {
    #[cfg(feature = "proved")]
    return Some(Box::new(crate::proved::Proved { null_when_empty }));
    #[cfg(not(feature = "proved"))]
    {
        let _ = null_when_empty;
        return None;
    }
}

/// Every engine of this build, the oracle first.
pub fn engines() -> Vec<Box<dyn Engine>> {
    let oracle: Box<dyn Engine> = Box::new(Oracle);
    std::iter::once(oracle).chain(proved()).collect()
}
