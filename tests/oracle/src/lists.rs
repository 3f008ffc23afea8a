//! Document 01, "Runs and lists": the short list (22, 23), the part that a record names (21, 24), the event groups.

use crate::bytes::number32;
use crate::refusal::{refused, Refusal};
use crate::run::{base_fits, RECORD};
use std::ops::Range;

/// The short list of a list, as bytes: kept records are copied as they stand, whatever their other bytes say.
pub fn short_list(list: &[u8], room: usize) -> Result<Vec<u8>, Refusal> {
    if list.len() % RECORD != 0 {
        return Err(refused(22));
    }
    let mut kept = Vec::new();
    let mut end_before: Option<u64> = None;
    for record in list.chunks(RECORD) {
        let end = number32(record, 0);
        if end_before != Some(end) {
            kept.extend_from_slice(record);
        }
        end_before = Some(end);
    }
    if kept.len() > room {
        return Err(refused(23));
    }
    Ok(kept)
}

/// Where in the log the part lies that a record with this end and length names.
pub fn part(log: &[u8], base: u32, end: u32, length: u32) -> Result<Range<usize>, Refusal> {
    base_fits(base, log)?;
    if length == 0 || length > end {
        return Err(refused(24));
    }
    // Both ends are counted from base. Signed and wide, so that an end before the base shows as negative.
    let from = i128::from(end) - i128::from(length) - i128::from(base);
    let to = i128::from(end) - i128::from(base);
    if from < 0 || to > log.len() as i128 {
        return Err(refused(24));
    }
    Ok(from as usize..to as usize)
}

/// The group letter of an event.
pub fn group(event: u8) -> u8 {
    match event / 16 {
        0 => b'S',
        1 => b'M',
        2 => b'C',
        3 => b'D',
        4 => b'W',
        _ => b'R',
    }
}
