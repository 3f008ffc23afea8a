//! make_book OUT: writes book A, made from its states. docs/MAKING-A-BOOK.md says how the states were found.

use gusemrak::Book;
use std::error::Error;

/// A state: its mark, 0 for none, and its edges, each an event and the state it leads to.
struct State {
    mark: u8,
    edges: &'static [(u8, u16)],
}

/// The states in the order of their numbers, the edges of each by rising event.
const BOOK_A: [State; 5] = [
    State { mark: 0, edges: &[(0x21, 1), (0x31, 2)] },
    State { mark: 0, edges: &[(0x31, 3)] },
    State { mark: 0, edges: &[(0x22, 3)] },
    State { mark: 0, edges: &[(0x41, 4)] },
    State { mark: 5, edges: &[] },
];

/// The state table, the edge table, the trailer.
fn book(states: &[State]) -> Vec<u8> {
    let mut bytes = Vec::new();
    for state in states {
        bytes.extend([state.mark, 0]);
        bytes.extend((state.edges.len() as u16).to_le_bytes());
    }
    let mut edges = 0u16;
    for (event, target) in states.iter().flat_map(|state| state.edges) {
        bytes.extend([*event, 0]);
        bytes.extend(target.to_le_bytes());
        edges += 1;
    }
    let distance = bytes.len() as u32 + 12;
    bytes.extend(distance.to_le_bytes());
    bytes.extend((states.len() as u16).to_le_bytes());
    bytes.extend(edges.to_le_bytes());
    bytes.extend(1u16.to_le_bytes()); // the form
    bytes.extend(b"SB");
    bytes
}

fn main() -> Result<(), Box<dyn Error>> {
    let names: Vec<String> = std::env::args().skip(1).collect();
    let [out] = &names[..] else { panic!("usage: make_book OUT") };
    let bytes = book(&BOOK_A);
    let checked = Book::check(&bytes)?;
    std::fs::write(out, &bytes)?;
    println!("{} bytes, {} states, {} edges", bytes.len(), checked.states(), checked.edges());
    Ok(())
}
