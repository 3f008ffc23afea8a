//! An engine that is given every slice in memory that tells. It answers what the engine below it answers, and nothing
//! at all where a call left a mark that it must not leave; what was wrong is then printed.

use crate::pages::Pages;
use crate::watch;
use runner::engine::{Answer, Engine};
use std::cell::{Cell, RefCell};
use std::ptr::NonNull;
use std::rc::Rc;

/// Where slices stand.
#[derive(Clone, Copy, PartialEq, Eq, Debug)]
pub enum Stand {
    /// The byte after the last cannot be touched.
    Ending,
    /// The byte before the first cannot be touched.
    Beginning,
    /// The first byte has an odd address.
    Odd,
    /// A block of the heap, just as long as the slice, with nothing beside it: for memcheck.
    Block,
}

impl Stand {
    pub fn name(self) -> &'static str {
        match self {
            Stand::Ending => "ending at a page that cannot be touched",
            Stand::Beginning => "beginning at a page that cannot be touched",
            Stand::Odd => "at odd addresses",
            Stand::Block => "in blocks of their own",
        }
    }
}

/// What an empty slice is given as. A call with an empty slice is made in every way; all must come out alike.
#[derive(Clone, Copy, PartialEq, Eq, Debug)]
enum Way {
    /// The address of a page that cannot be touched.
    Untouchable,
    /// The address 1, as Rust has it.
    Dangling,
    Null,
}

const WAYS: [Way; 3] = [Way::Untouchable, Way::Dangling, Way::Null];

/// How many calls had an empty slice. Each of them was made in every way.
pub type Empties = Rc<Cell<u64>>;

/// Bytes on the open sides of a slice that must be as they were.
const MARGIN: usize = 64;

/// Memory for one slice of a call.
struct Spot {
    stand: Stand,
    pages: Pages,
    block: Vec<u8>,
    /// Offset of the slice in the pages, and its length.
    from: usize,
    length: usize,
    /// The margins' first byte, their end, and what they must hold.
    margins: (usize, usize),
    pattern: u8,
}

impl Spot {
    fn new(stand: Stand) -> Spot {
        let pages = Pages::new(1 << 16);
        Spot { stand, pages, block: Vec::new(), from: 0, length: 0, margins: (0, 0), pattern: 0 }
    }

    /// Copies the bytes to where they are to stand.
    fn put(&mut self, bytes: &[u8], turn: usize) {
        self.length = bytes.len();
        if self.stand == Stand::Block {
            // Exactly as long: a capacity above the length would hide what memcheck is to see.
            self.block = Vec::with_capacity(bytes.len());
            self.block.extend_from_slice(bytes);
            self.block.shrink_to_fit();
            return;
        }
        let needed = bytes.len() + 3 * MARGIN;
        if self.pages.len() < needed {
            self.pages = Pages::new(2 * needed);
        }
        self.from = match self.stand {
            Stand::Ending => self.pages.len() - bytes.len(),
            Stand::Beginning => 0,
            // Pages begin at even addresses; every odd offset within 16 comes in its turn.
            _ => MARGIN + 1 + 2 * (turn % 8),
        };
        let end = self.from + bytes.len();
        self.margins = (self.from.saturating_sub(MARGIN), (end + MARGIN).min(self.pages.len()));
        self.pattern = self.pattern.wrapping_add(77);
        // SAFETY: inside the pages, which nothing else looks at now.
        unsafe {
            let (first, end) = self.margins;
            std::ptr::write_bytes(self.pages.at(first), self.pattern, end - first);
            std::ptr::copy_nonoverlapping(bytes.as_ptr(), self.pages.at(self.from), bytes.len());
        }
    }

    fn address(&mut self, way: Way) -> *mut u8 {
        match (self.length, way) {
            (0, Way::Untouchable) => self.pages.at(self.pages.len()),
            // The engine that gives null does so by itself.
            (0, _) => NonNull::dangling().as_ptr(),
            _ if self.stand == Stand::Block => self.block.as_mut_ptr(),
            _ => self.pages.at(self.from),
        }
    }

    /// The bytes as they are now.
    fn now(&self) -> &[u8] {
        if self.stand == Stand::Block {
            return &self.block;
        }
        // SAFETY: inside the pages, written by `put`.
        unsafe { std::slice::from_raw_parts(self.pages.at(self.from), self.length) }
    }

    /// What was to be read only: nothing can be written to it until `open`.
    fn close(&self) {
        if self.stand != Stand::Block {
            self.pages.close(self.from, self.length);
        }
    }

    fn open(&self) {
        if self.stand != Stand::Block {
            self.pages.open(self.from, self.length);
        }
    }

    /// The first byte of a margin that is not as it was, counted from the slice's first.
    fn touched(&self) -> Option<i64> {
        if self.stand == Stand::Block {
            return None;
        }
        let (first, end) = self.margins;
        let slice = self.from..self.from + self.length;
        (first..end)
            .filter(|at| !slice.contains(at))
            // SAFETY: inside the pages, written by `put`.
            .find(|at| unsafe { *self.pages.at(*at) } != self.pattern)
            .map(|at| at as i64 - self.from as i64)
    }
}

pub struct Guarded {
    engine: Box<dyn Engine>,
    /// The same engine, given null for what is empty.
    with_null: Box<dyn Engine>,
    stand: Stand,
    spots: RefCell<[Spot; 3]>,
    empties: Empties,
}

/// The lent buffer's spot; those before it are for what is only read.
const LENT: usize = 2;

impl Guarded {
    pub fn new(engine: Box<dyn Engine>, with_null: Box<dyn Engine>, stand: Stand, empties: Empties) -> Guarded {
        let spots = RefCell::new([Spot::new(stand), Spot::new(stand), Spot::new(stand)]);
        Guarded { engine, with_null, stand, spots, empties }
    }

    fn call(
        &self,
        given: [&[u8]; 2],
        lent: Option<&mut [u8]>,
        ask: impl Fn(&dyn Engine, [&[u8]; 2], &mut [u8]) -> Option<Answer>,
    ) -> Option<Answer> {
        let mut spots = self.spots.borrow_mut();
        // Which odd address it is hangs on the call alone, so that a call made again is the same call.
        let turn = given[0].len() + 3 * given[1].len() + lent.as_ref().map_or(0, |lent| 5 * lent.len());
        let empty = given.iter().any(|bytes| bytes.is_empty()) || lent.as_ref().is_some_and(|lent| lent.is_empty());
        let before: &[u8] = lent.as_deref().unwrap_or(&[]);
        let mut first: Option<(Option<Answer>, Vec<u8>)> = None;
        for way in if empty { &WAYS[..] } else { &WAYS[..1] } {
            spots[0].put(given[0], turn);
            spots[1].put(given[1], turn + 1);
            spots[LENT].put(before, turn + 2);
            let at: Vec<*mut u8> = spots.iter_mut().map(|spot| spot.address(*way)).collect();
            for (number, spot) in spots.iter().enumerate() {
                watch::slice(number, at[number], spot.length);
            }
            let engine = if *way == Way::Null { &self.with_null } else { &self.engine };
            spots[0].close();
            spots[1].close();
            // SAFETY: the spots hold these bytes until the next `put`; an empty slice may stand at any address but 0.
            let came = unsafe {
                let read = |number: usize| std::slice::from_raw_parts(at[number], given[number].len());
                let out = std::slice::from_raw_parts_mut(at[LENT], before.len());
                ask(engine.as_ref(), [read(0), read(1)], out)
            };
            spots[0].open();
            spots[1].open();
            if let Some(fault) = fault(&spots, given) {
                println!("    slices {}: {fault}", self.stand.name());
                return None;
            }
            let came = (came, spots[LENT].now().to_vec());
            match &first {
                None => first = Some(came),
                Some(first) if *first == came => {}
                Some((answer, _)) => {
                    let other = came.0;
                    println!("    an empty slice as {:?}: {answer:?}, as {way:?}: {other:?} or other bytes", WAYS[0]);
                    return None;
                }
            }
        }
        let (answer, bytes) = first.expect("one call at the least");
        if empty && answer.is_some() {
            self.empties.set(self.empties.get() + 1);
        }
        if let Some(lent) = lent {
            lent.copy_from_slice(&bytes);
        }
        answer
    }

    /// A call that is given one slice and lent nothing.
    fn asked(&self, bytes: &[u8], ask: impl Fn(&dyn Engine, &[u8]) -> Option<Answer>) -> Option<Answer> {
        // The second slice is not given to the call; a byte keeps it from counting as empty.
        self.call([bytes, &[0]], None, |engine, [bytes, _], _| ask(engine, bytes))
    }
}

fn fault(spots: &[Spot; 3], given: [&[u8]; 2]) -> Option<String> {
    for (number, bytes) in given.iter().enumerate() {
        if spots[number].now() != *bytes {
            return Some("bytes that were to be read only have changed".to_string());
        }
    }
    spots.iter().find_map(Spot::touched).map(|at| format!("byte {at} of a slice, beside it, has changed"))
}

impl Engine for Guarded {
    fn name(&self) -> &'static str {
        self.engine.name()
    }
    fn check_book(&self, book: &[u8]) -> Option<Answer> {
        self.asked(book, |engine, book| engine.check_book(book))
    }
    fn compile(&self, book: &[u8], out: &mut [u8]) -> Option<Answer> {
        self.call([book, &[0]], Some(out), |engine, [book, _], out| engine.compile(book, out))
    }
    fn check_image(&self, image: &[u8]) -> Option<Answer> {
        self.asked(image, |engine, image| engine.check_image(image))
    }
    fn fallback(&self, image: &[u8], place: u32) -> Option<Answer> {
        self.asked(image, |engine, image| engine.fallback(image, place))
    }
    fn level(&self, image: &[u8], place: u32) -> Option<Answer> {
        self.asked(image, |engine, image| engine.level(image, place))
    }
    fn mark(&self, image: &[u8], place: u32) -> Option<Answer> {
        self.asked(image, |engine, image| engine.mark(image, place))
    }
    fn edge(&self, image: &[u8], place: u32, event: u8) -> Option<Answer> {
        self.asked(image, |engine, image| engine.edge(image, place, event))
    }
    fn step(&self, image: &[u8], place: u32, event: u8) -> Option<Answer> {
        self.asked(image, |engine, image| engine.step(image, place, event))
    }
    fn run(&self, image: &[u8], place: u32, base: u32, log: &[u8], out: &mut [u8]) -> Option<Answer> {
        self.call([image, log], Some(out), |engine, [image, log], out| engine.run(image, place, base, log, out))
    }
    fn short_list(&self, list: &[u8], out: &mut [u8]) -> Option<Answer> {
        self.call([list, &[0]], Some(out), |engine, [list, _], out| engine.short_list(list, out))
    }
    fn part(&self, log: &[u8], base: u32, end: u32, length: u32) -> Option<Answer> {
        self.asked(log, |engine, log| engine.part(log, base, end, length))
    }
    fn group(&self, event: u8) -> Option<u8> {
        self.engine.group(event)
    }
    fn listing(&self, _: &[u8], _: &[u8]) -> Option<String> {
        // A program of its own: none of its memory is lent from here.
        None
    }
}
