//! Document 01, "Runs and lists": the run over a log, its records and its room, with refusals 20 and 21.
//!
//! Records are found by walking all fallbacks of the place reached, never by the image's links.

use crate::bytes::{put16, put32};
use crate::image::Image;
use crate::refusal::{refused, Refusal};
use crate::walk::step;

pub const RECORD: usize = 8;
pub const GREATEST_END: u64 = 4_294_967_295;

#[derive(Clone, Copy, PartialEq, Eq, Debug)]
pub struct Record {
    pub end: u64,
    pub length: usize,
    pub mark: u8,
}

#[derive(Clone, PartialEq, Eq, Debug)]
pub struct Ran {
    pub taken: usize,
    pub place: usize,
    pub records: Vec<Record>,
    pub steps: u64,
}

/// Refusal 21, for a run and for a part alike.
pub fn base_fits(base: u32, log: &[u8]) -> Result<(), Refusal> {
    if u64::from(base) + log.len() as u64 > GREATEST_END {
        return Err(refused(21));
    }
    Ok(())
}

/// A run with room for so many whole records.
pub fn run(image: &Image, place: u32, base: u32, log: &[u8], room: usize) -> Result<Ran, Refusal> {
    image.place(u64::from(place))?;
    base_fits(base, log)?;
    let mut ran = Ran { taken: 0, place: place as usize, records: Vec::new(), steps: 0 };
    for event in log {
        let walked = step(image, ran.place, *event);
        let end = u64::from(base) + ran.taken as u64 + 1;
        let found: Vec<Record> = image
            .chain(walked.place)
            .into_iter()
            .filter(|place| image.mark(*place) != 0)
            .map(|place| Record { end, length: image.level(place), mark: image.mark(place) })
            .collect();
        if ran.records.len() + found.len() > room {
            // Not taken: no record of it, no step of it, and the place stays.
            break;
        }
        ran.records.extend(found);
        ran.taken += 1;
        ran.place = walked.place;
        ran.steps += walked.steps;
    }
    Ok(ran)
}

pub fn record_bytes(records: &[Record]) -> Vec<u8> {
    let mut bytes = Vec::new();
    for record in records {
        put32(&mut bytes, record.end);
        put16(&mut bytes, record.length);
        bytes.push(record.mark);
        bytes.push(0);
    }
    bytes
}
