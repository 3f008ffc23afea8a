//! Document 01, "Chains and places" (places, their numbers, their edges) and "The image" (what is written), with
//! refusals 14, 15 and 16.
//!
//! Whole chains are kept and compared whole. Nothing here relies on a place being known by less than its chain.

use crate::book::Book;
use crate::bytes::{put16, put_trailer, Trailer, TRAILER};
use crate::chains::{after, Chain};
use crate::refusal::{refused, Refusal};
use std::collections::HashMap;

pub const MOST_PLACES: usize = 1_024;
pub const MOST_EDGES: usize = 4_096;
pub const PLACE_RECORD: usize = 14;
pub const EDGE_RECORD: usize = 4;

/// A place: the chain it stands for, and its edges with places as targets, by rising event.
#[derive(Clone, PartialEq, Eq, Debug)]
pub struct Place {
    pub chain: Chain,
    pub fallback: usize,
    pub edges: Vec<(u8, usize)>,
}

impl Place {
    /// The first state of the chain, 0 for the empty chain.
    pub fn head(&self) -> usize {
        self.chain.first().map_or(0, |live| usize::from(live.state))
    }

    /// The head's reach, 0 for the empty chain.
    pub fn level(&self) -> usize {
        self.chain.first().map_or(0, |live| usize::from(live.reach))
    }
}

pub fn image_length(places: usize, edges: usize) -> usize {
    PLACE_RECORD * places + EDGE_RECORD * edges + TRAILER
}

/// All places of a book, or refusal 14 or 15. 14 is the lower number, so the places are searched to their end, or to
/// the 1,025th, however many edges have been met on the way.
pub fn places(book: &Book) -> Result<Vec<Place>, Refusal> {
    let mut numbers: HashMap<Chain, usize> = HashMap::new();
    let mut places: Vec<Place> = Vec::new();
    numbers.insert(Chain::new(), 0);
    places.push(Place { chain: Chain::new(), fallback: 0, edges: Vec::new() });

    // Breadth first: lower places first, their events rising, each chain numbered when first met.
    let mut source = 0;
    while source < places.len() {
        let chain = places[source].chain.clone();
        for event in book.states[places[source].head()].edges.keys() {
            let next = after(book, &chain, *event);
            let target = match numbers.get(&next) {
                Some(known) => *known,
                None => {
                    let new = places.len();
                    if new == MOST_PLACES {
                        return Err(refused(14));
                    }
                    numbers.insert(next.clone(), new);
                    places.push(Place { chain: next, fallback: 0, edges: Vec::new() });
                    new
                }
            };
            places[source].edges.push((*event, target));
        }
        source += 1;
    }
    if places.iter().map(|place| place.edges.len()).sum::<usize>() > MOST_EDGES {
        return Err(refused(15));
    }

    // A chain without its head is the chain of a shorter text, so it has a place too (document 000, theorem 1).
    for place in places.iter_mut().skip(1) {
        place.fallback = *numbers.get(&place.chain[1..]).expect("the chain without its head has a place");
    }
    Ok(places)
}

/// The image of a book's places.
pub fn image_bytes(book: &Book, places: &[Place]) -> Vec<u8> {
    let mut bytes = Vec::new();
    let mut first_edge = 0;
    let mut links: Vec<usize> = Vec::new();
    for (number, place) in places.iter().enumerate() {
        let mark = book.states[place.head()].mark;
        let link = if mark != 0 {
            number
        } else if number == 0 {
            0
        } else {
            links[place.fallback]
        };
        links.push(link);
        for field in [first_edge, place.edges.len(), place.fallback, place.level(), place.head(), link] {
            put16(&mut bytes, field);
        }
        bytes.push(mark);
        bytes.push(0);
        first_edge += place.edges.len();
    }
    for (event, target) in places.iter().flat_map(|place| &place.edges) {
        bytes.push(*event);
        bytes.push(0);
        put16(&mut bytes, *target);
    }
    let distance = image_length(places.len(), first_edge) as u64;
    let trailer = Trailer { distance, first_count: places.len(), edge_count: first_edge, form: 1, letters: *b"SM" };
    put_trailer(&mut bytes, &trailer);
    bytes
}

/// A compiled book: its image with the numbers a compile answers.
pub struct Compiled {
    pub image: Vec<u8>,
    pub places: usize,
    pub edges: usize,
}

/// The compile without its buffer: every refusal but 16.
pub fn compiled(file: &[u8]) -> Result<Compiled, Refusal> {
    let book = crate::book::read(file)?;
    let places = places(&book)?;
    let edges = places.iter().map(|place| place.edges.len()).sum();
    Ok(Compiled { image: image_bytes(&book, &places), places: places.len(), edges })
}

/// The compile into a lent buffer of so many bytes.
pub fn compiled_within(file: &[u8], room: usize) -> Result<Compiled, Refusal> {
    let compiled = compiled(file)?;
    if room < compiled.image.len() {
        return Err(refused(16));
    }
    Ok(compiled)
}
