//! Books and images as they are spoken of, and their bytes (document 01, "The book" and "The image"). Nothing is
//! checked: a book that is to be refused is described like any other.

use oracle::bytes::{put16, put_trailer, Trailer};

/// A state: its mark and its edges, in the order in which they are to stand.
#[derive(Clone, Default, Debug)]
pub struct State {
    pub mark: u8,
    pub edges: Vec<(u8, usize)>,
}

#[derive(Clone, Default, Debug)]
pub struct Book {
    pub note: Vec<u8>,
    pub states: Vec<State>,
}

impl Book {
    pub fn edge_count(&self) -> usize {
        self.states.iter().map(|state| state.edges.len()).sum()
    }

    pub fn bytes(&self) -> Vec<u8> {
        let mut bytes = self.note.clone();
        for state in &self.states {
            bytes.push(state.mark);
            bytes.push(0);
            put16(&mut bytes, state.edges.len());
        }
        for (event, target) in self.states.iter().flat_map(|state| &state.edges) {
            bytes.push(*event);
            bytes.push(0);
            put16(&mut bytes, *target);
        }
        let (states, edges) = (self.states.len(), self.edge_count());
        let distance = (4 * states + 4 * edges + 12) as u64;
        let trailer = Trailer { distance, first_count: states, edge_count: edges, form: 1, letters: *b"SB" };
        put_trailer(&mut bytes, &trailer);
        bytes
    }
}

/// A place of an image. First edges and links are not described: they follow from the rest.
#[derive(Clone, Default, Debug)]
pub struct Place {
    pub fallback: usize,
    pub level: usize,
    pub head: usize,
    pub mark: u8,
    pub edges: Vec<(u8, usize)>,
}

#[derive(Clone, Default, Debug)]
pub struct Image {
    pub places: Vec<Place>,
}

impl Image {
    pub fn edge_count(&self) -> usize {
        self.places.iter().map(|place| place.edges.len()).sum()
    }

    fn link(&self, place: usize) -> usize {
        let mut at = place;
        // A described fallback may be anything; only lower ones are followed.
        while at != 0 && self.places[at].mark == 0 {
            if self.places[at].fallback >= at {
                return 0;
            }
            at = self.places[at].fallback;
        }
        at
    }

    pub fn bytes(&self) -> Vec<u8> {
        let mut bytes = Vec::new();
        let mut first_edge = 0;
        for (number, place) in self.places.iter().enumerate() {
            let link = self.link(number);
            for field in [first_edge, place.edges.len(), place.fallback, place.level, place.head, link] {
                put16(&mut bytes, field);
            }
            bytes.push(place.mark);
            bytes.push(0);
            first_edge += place.edges.len();
        }
        for (event, target) in self.places.iter().flat_map(|place| &place.edges) {
            bytes.push(*event);
            bytes.push(0);
            put16(&mut bytes, *target);
        }
        let distance = (14 * self.places.len() + 4 * first_edge + 12) as u64;
        let trailer =
            Trailer { distance, first_count: self.places.len(), edge_count: first_edge, form: 1, letters: *b"SM" };
        put_trailer(&mut bytes, &trailer);
        bytes
    }
}

/// A list of records: end, length, mark, zero.
pub fn list_bytes(records: &[(u32, u16, u8, u8)]) -> Vec<u8> {
    let mut bytes = Vec::new();
    for (end, length, mark, zero) in records {
        bytes.extend_from_slice(&end.to_le_bytes());
        bytes.extend_from_slice(&length.to_le_bytes());
        bytes.push(*mark);
        bytes.push(*zero);
    }
    bytes
}
