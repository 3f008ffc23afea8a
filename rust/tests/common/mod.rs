//! Books written from their states, as document 01 writes them.
// Each test file is a program of its own and uses what it needs of these.
#![allow(dead_code)]

/// A state: its mark, and its edges as event and target.
pub type State = (u8, Vec<(u8, u16)>);

/// The bytes of a book. Nothing is checked or sorted.
pub fn book(states: &[State]) -> Vec<u8> {
    let edges: Vec<(u8, u16)> = states.iter().flat_map(|(_, edges)| edges.clone()).collect();
    let mut bytes = Vec::new();
    for (mark, edges) in states {
        bytes.extend([*mark, 0]);
        bytes.extend((edges.len() as u16).to_le_bytes());
    }
    for (event, target) in &edges {
        bytes.extend([*event, 0]);
        bytes.extend(target.to_le_bytes());
    }
    let distance = bytes.len() as u32 + 12;
    bytes.extend(distance.to_le_bytes());
    bytes.extend((states.len() as u16).to_le_bytes());
    bytes.extend((edges.len() as u16).to_le_bytes());
    bytes.extend([1, 0, b'S', b'B']);
    bytes
}

pub fn book_a() -> Vec<u8> {
    book(&[
        (0, vec![(0x21, 1), (0x31, 2)]),
        (0, vec![(0x31, 3)]),
        (0, vec![(0x22, 3)]),
        (0, vec![(0x41, 4)]),
        (5, vec![]),
    ])
}

pub fn book_b() -> Vec<u8> {
    book(&[(0, vec![(0x21, 1), (0x31, 2)]), (0, vec![(0x31, 2)]), (3, vec![])])
}

pub fn book_c() -> Vec<u8> {
    book(&[
        (0, vec![(0x21, 1), (0x31, 2)]),
        (0, vec![(0x31, 3)]),
        (0, vec![(0x41, 4)]),
        (0, vec![(0x41, 5)]),
        (3, vec![]),
        (5, vec![]),
    ])
}

pub fn book_d() -> Vec<u8> {
    book(&[(0, vec![(0x21, 1), (0x31, 2)]), (0, vec![(0x22, 2)]), (3, vec![])])
}

/// Start by 21 to state 1; states 1 to n each by these events to the next; the last marked.
pub fn family(n: u16, events: std::ops::RangeInclusive<u8>) -> Vec<u8> {
    let mut states: Vec<State> = vec![(0, vec![(0x21, 1)])];
    states.extend((1..=n).map(|state| (0, events.clone().map(|event| (event, state + 1)).collect())));
    states.push((1, vec![]));
    book(&states)
}

/// An image that no compile makes: place p falls back to p - 1 and leads by 21 to p + 1, and every place but 0 is
/// marked, so a log of 21s has as many records at an event as the chain is long, up to `places` - 1.
pub fn tower(places: u16) -> Vec<u8> {
    let mut bytes = Vec::new();
    for place in 0..places {
        let count = u16::from(place + 1 < places);
        let mark = u8::from(place > 0);
        for number in [place, count, place.saturating_sub(1), place, u16::from(place > 0), place] {
            bytes.extend(number.to_le_bytes());
        }
        bytes.extend([mark, 0]);
    }
    for target in 1..places {
        bytes.extend([0x21, 0]);
        bytes.extend(target.to_le_bytes());
    }
    let distance = bytes.len() as u32 + 12;
    bytes.extend(distance.to_le_bytes());
    bytes.extend(places.to_le_bytes());
    bytes.extend((places - 1).to_le_bytes());
    bytes.extend([1, 0, b'S', b'M']);
    bytes
}
