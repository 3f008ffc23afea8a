//! Document 01, "The book" and refusals 1 to 13 of "Refusal numbers".
//!
//! The order of the table is kept literally: each number is judged over the whole book before the next one is looked
//! at (open point A1), so each rule is a function of its own and the rules run one after another.

use crate::bytes::{number16, trailer, TRAILER};
use crate::refusal::{refused, refused_at, Refusal};
use std::collections::BTreeMap;

pub const MOST_STATES: usize = 512;
pub const MOST_EDGES: usize = 2_048;
pub const MOST_BYTES: usize = 65_536;

/// A state of an accepted book: its mark, 0 for none, and its edges by rising event.
#[derive(Clone, PartialEq, Eq, Debug)]
pub struct State {
    pub mark: u8,
    pub edges: BTreeMap<u8, usize>,
}

/// An accepted book. State 0 is the start.
#[derive(Clone, PartialEq, Eq, Debug)]
pub struct Book {
    pub states: Vec<State>,
}

impl Book {
    pub fn edge_count(&self) -> usize {
        self.states.iter().map(|state| state.edges.len()).sum()
    }

    /// The edge of a state on an event, if it has one.
    pub fn target(&self, state: usize, event: u8) -> Option<usize> {
        self.states[state].edges.get(&event).copied()
    }

    pub fn marked(&self, state: usize) -> bool {
        self.states[state].mark != 0
    }

    /// Where a text leads when read from state 0, if it leads anywhere.
    pub fn read(&self, text: &[u8]) -> Option<usize> {
        text.iter().try_fold(0, |state, event| self.target(state, *event))
    }
}

/// A state record, as it stands in the table.
struct StateRecord {
    mark: u8,
    zero: u8,
    edge_count: usize,
}

/// An edge record, as it stands in the table.
struct EdgeRecord {
    event: u8,
    zero: u8,
    target: usize,
}

/// The two tables of a book whose first six rules hold: every record lies inside the file.
struct Tables {
    states: Vec<StateRecord>,
    edges: Vec<EdgeRecord>,
}

impl Tables {
    fn state_offset(&self, state: usize) -> usize {
        4 * state
    }

    fn edge_offset(&self, edge: usize) -> usize {
        4 * self.states.len() + 4 * edge
    }

    /// The numbers of the edges that belong to a state: they follow those of all lower states. To be asked only once
    /// the counts are known to add up (8).
    fn edges_of(&self, state: usize) -> std::ops::Range<usize> {
        let first: usize = self.states[..state].iter().map(|record| record.edge_count).sum();
        first..first + self.states[state].edge_count
    }
}

/// The book in these bytes, or the refusal that is theirs.
pub fn read(file: &[u8]) -> Result<Book, Refusal> {
    let tables = tables(file)?;
    zero_bytes(&tables)?;
    counts(&tables)?;
    events_rise(&tables)?;
    targets(&tables)?;
    start_unmarked(&tables)?;
    edge_in(&tables)?;
    marked_or_edge_out(&tables)?;
    Ok(decoded(&tables))
}

/// Refusals 1 to 6: size and trailer.
fn tables(file: &[u8]) -> Result<Tables, Refusal> {
    if file.len() < TRAILER {
        return Err(refused(1));
    }
    if file.len() > MOST_BYTES {
        return Err(refused(2));
    }
    let trailer = trailer(file);
    if trailer.letters != *b"SB" {
        return Err(refused(3));
    }
    if trailer.form != 1 {
        return Err(refused(4));
    }
    let (state_count, edge_count) = (trailer.first_count, trailer.edge_count);
    if state_count < 1 || state_count > MOST_STATES || edge_count > MOST_EDGES {
        return Err(refused(5));
    }
    let distance = 4 * state_count + 4 * edge_count + TRAILER;
    if trailer.distance != distance as u64 || distance > file.len() {
        return Err(refused(6));
    }
    // What stands before the state table is the maker's note.
    let table = &file[file.len() - distance..];
    let record = |number: usize| &table[4 * number..4 * number + 4];
    let states = (0..state_count)
        .map(record)
        .map(|bytes| StateRecord { mark: bytes[0], zero: bytes[1], edge_count: number16(bytes, 2) })
        .collect();
    let edges = (0..edge_count)
        .map(|edge| record(state_count + edge))
        .map(|bytes| EdgeRecord { event: bytes[0], zero: bytes[1], target: number16(bytes, 2) })
        .collect();
    Ok(Tables { states, edges })
}

/// Refusal 7. All states stand before all edges, and all E edge records are looked at, whatever the counts say.
fn zero_bytes(tables: &Tables) -> Result<(), Refusal> {
    for (state, record) in tables.states.iter().enumerate() {
        if record.zero != 0 {
            return Err(refused_at(7, tables.state_offset(state)));
        }
    }
    for (edge, record) in tables.edges.iter().enumerate() {
        if record.zero != 0 {
            return Err(refused_at(7, tables.edge_offset(edge)));
        }
    }
    Ok(())
}

/// Refusal 8.
fn counts(tables: &Tables) -> Result<(), Refusal> {
    let sum: usize = tables.states.iter().map(|record| record.edge_count).sum();
    if sum != tables.edges.len() {
        return Err(refused(8));
    }
    Ok(())
}

/// Refusal 9. The first edge of a state has none before it.
fn events_rise(tables: &Tables) -> Result<(), Refusal> {
    for state in 0..tables.states.len() {
        for edge in tables.edges_of(state).skip(1) {
            if tables.edges[edge].event <= tables.edges[edge - 1].event {
                return Err(refused_at(9, tables.edge_offset(edge)));
            }
        }
    }
    Ok(())
}

/// Refusal 10.
fn targets(tables: &Tables) -> Result<(), Refusal> {
    for state in 0..tables.states.len() {
        for edge in tables.edges_of(state) {
            let target = tables.edges[edge].target;
            if target <= state || target >= tables.states.len() {
                return Err(refused_at(10, tables.edge_offset(edge)));
            }
        }
    }
    Ok(())
}

/// Refusal 11.
fn start_unmarked(tables: &Tables) -> Result<(), Refusal> {
    if tables.states[0].mark != 0 {
        return Err(refused(11));
    }
    Ok(())
}

/// Refusal 12.
fn edge_in(tables: &Tables) -> Result<(), Refusal> {
    for state in 1..tables.states.len() {
        if !tables.edges.iter().any(|record| record.target == state) {
            return Err(refused_at(12, tables.state_offset(state)));
        }
    }
    Ok(())
}

/// Refusal 13.
fn marked_or_edge_out(tables: &Tables) -> Result<(), Refusal> {
    for state in 1..tables.states.len() {
        if tables.states[state].mark == 0 && tables.states[state].edge_count == 0 {
            return Err(refused_at(13, tables.state_offset(state)));
        }
    }
    Ok(())
}

fn decoded(tables: &Tables) -> Book {
    let states = (0..tables.states.len())
        .map(|state| State {
            mark: tables.states[state].mark,
            edges: tables.edges_of(state).map(|edge| (tables.edges[edge].event, tables.edges[edge].target)).collect(),
        })
        .collect();
    Book { states }
}
