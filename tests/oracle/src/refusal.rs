//! Document 01, "Refusal numbers": a refusal is a number and a place, and nothing else.

#[derive(Clone, Copy, PartialEq, Eq, Debug)]
pub struct Refusal {
    pub number: u32,
    pub place: u32,
}

/// A refusal that names a record, by the record's offset from the state table.
pub fn refused_at(number: u32, place: usize) -> Refusal {
    Refusal { number, place: u32::try_from(place).expect("offsets of records are small") }
}

/// A refusal for which no record is named: its place is 0.
pub fn refused(number: u32) -> Refusal {
    refused_at(number, 0)
}
