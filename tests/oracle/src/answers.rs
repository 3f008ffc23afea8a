//! The face: each public function over plain bytes, answering what the library's C face answers.
//!
//! Document 01, "Refusal numbers", below the table: a refused call returns number and place, every other number in
//! its answer is 0 and all lent memory is unchanged; a success leaves bytes past what it wrote unchanged.

use crate::refusal::Refusal;
use crate::{book, compile, image, lists, run, walk};

/// What a call answers. `number` 0 means not refused; what `a` to `d` mean is said at each function.
#[derive(Clone, Copy, PartialEq, Eq, Debug, Default)]
pub struct Answer {
    pub number: u32,
    pub place: u32,
    pub a: u64,
    pub b: u64,
    pub c: u64,
    pub d: u64,
}

impl Answer {
    pub fn refused(number: u32, place: u32) -> Answer {
        Answer { number, place, ..Answer::default() }
    }

    pub fn numbers(a: u64, b: u64, c: u64, d: u64) -> Answer {
        Answer { number: 0, place: 0, a, b, c, d }
    }
}

fn answer(judged: Result<[u64; 4], Refusal>) -> Answer {
    match judged {
        Ok([a, b, c, d]) => Answer::numbers(a, b, c, d),
        Err(refusal) => Answer::refused(refusal.number, refusal.place),
    }
}

/// a states, b edges.
pub fn check_book(book: &[u8]) -> Answer {
    answer(book::read(book).map(|book| [book.states.len() as u64, book.edge_count() as u64, 0, 0]))
}

/// a length, b places, c edges.
pub fn compile(book: &[u8], out: &mut [u8]) -> Answer {
    answer(compile::compiled_within(book, out.len()).map(|compiled| {
        out[..compiled.image.len()].copy_from_slice(&compiled.image);
        [compiled.image.len() as u64, compiled.places as u64, compiled.edges as u64, 0]
    }))
}

/// a places, b edges.
pub fn check_image(image: &[u8]) -> Answer {
    answer(image::open(image).map(|image| [image.place_count() as u64, image.edge_count() as u64, 0, 0]))
}

fn question(image: &[u8], place: u32, ask: impl Fn(&image::Place) -> [u64; 4]) -> Answer {
    answer(image::open(image).and_then(|image| image.place(u64::from(place)).map(ask)))
}

/// a the fallback.
pub fn fallback(image: &[u8], place: u32) -> Answer {
    question(image, place, |place| [place.fallback as u64, 0, 0, 0])
}

/// a the level.
pub fn level(image: &[u8], place: u32) -> Answer {
    question(image, place, |place| [place.level as u64, 0, 0, 0])
}

/// a the mark.
pub fn mark(image: &[u8], place: u32) -> Answer {
    question(image, place, |place| [u64::from(place.mark), 0, 0, 0])
}

/// a is 1 where there is an edge and b its target; both 0 where there is none.
pub fn edge(image: &[u8], place: u32, event: u8) -> Answer {
    question(image, place, |place| match place.edges.iter().find(|edge| edge.0 == event) {
        Some((_, target)) => [1, *target as u64, 0, 0],
        None => [0, 0, 0, 0],
    })
}

/// a place, b level, c the failure steps of this event.
pub fn step(image: &[u8], place: u32, event: u8) -> Answer {
    answer(image::open(image).and_then(|image| {
        image.place(u64::from(place))?;
        let walked = walk::step(&image, place as usize, event);
        Ok([walked.place as u64, image.level(walked.place) as u64, walked.steps, 0])
    }))
}

/// a events taken, b place, c records, d failure steps.
pub fn run(image: &[u8], place: u32, base: u32, log: &[u8], out: &mut [u8]) -> Answer {
    answer(image::open(image).and_then(|image| {
        let ran = run::run(&image, place, base, log, out.len() / run::RECORD)?;
        let bytes = run::record_bytes(&ran.records);
        out[..bytes.len()].copy_from_slice(&bytes);
        Ok([ran.taken as u64, ran.place as u64, ran.records.len() as u64, ran.steps])
    }))
}

/// a records kept.
pub fn short_list(list: &[u8], out: &mut [u8]) -> Answer {
    answer(lists::short_list(list, out.len()).map(|kept| {
        out[..kept.len()].copy_from_slice(&kept);
        [(kept.len() / run::RECORD) as u64, 0, 0, 0]
    }))
}

/// a offset in the log, b length.
pub fn part(log: &[u8], base: u32, end: u32, length: u32) -> Answer {
    answer(lists::part(log, base, end, length).map(|part| [part.start as u64, part.len() as u64, 0, 0]))
}

/// The group letter of an event.
pub fn group(event: u8) -> u8 {
    lists::group(event)
}
