//! Small accepted books and images, and logs that follow them, drawn from a seed.

use crate::describe::{Book, Image, Place, State};
use crate::random::Random;
use std::collections::BTreeMap;

/// A few events to draw from, none twice: with few of them texts meet states again and again.
pub fn alphabet(random: &mut Random, most: usize) -> Vec<u8> {
    let count = random.between(1, most);
    let mut events: Vec<u8> = Vec::new();
    while events.len() < count {
        let event = random.byte();
        if !events.contains(&event) {
            events.push(event);
        }
    }
    events.sort_unstable();
    events
}

/// A book's edges while it is drawn: by state and event, so that no state has an event twice.
pub struct Edges {
    pub of: Vec<BTreeMap<u8, usize>>,
}

impl Edges {
    pub fn new(states: usize) -> Edges {
        Edges { of: vec![BTreeMap::new(); states] }
    }

    pub fn count(&self) -> usize {
        self.of.iter().map(BTreeMap::len).sum()
    }

    /// An edge from `source`, on one of `events` if one is free there and on any other free event if not.
    pub fn add(&mut self, random: &mut Random, source: usize, events: &[u8], target: usize) {
        let free: Vec<u8> = events.iter().copied().filter(|event| !self.of[source].contains_key(event)).collect();
        if !free.is_empty() {
            let event = *random.pick(&free);
            self.of[source].insert(event, target);
            return;
        }
        let start = random.byte();
        for offset in 0..=255u8 {
            let event = start.wrapping_add(offset);
            if let std::collections::btree_map::Entry::Vacant(entry) = self.of[source].entry(event) {
                entry.insert(target);
                return;
            }
        }
    }

    /// The book of these edges. A state without an edge out is marked, any other but the start once in `seldom`.
    pub fn book(&self, random: &mut Random, seldom: usize) -> Book {
        let mut states = Vec::new();
        for (number, edges) in self.of.iter().enumerate() {
            let must = number != 0 && edges.is_empty();
            let may = number != 0 && random.once_in(seldom);
            let mark = if must || may { random.between(1, 255) as u8 } else { 0 };
            states.push(State { mark, edges: edges.iter().map(|(event, target)| (*event, *target)).collect() });
        }
        Book { note: Vec::new(), states }
    }
}

/// A small accepted book: each state has an edge in from a lower one, then some edges more.
pub fn small_book(random: &mut Random, most_states: usize, events: &[u8]) -> Book {
    let states = random.between(1, most_states);
    let mut edges = Edges::new(states);
    for target in 1..states {
        let source = random.below(target);
        edges.add(random, source, events, target);
    }
    if states > 1 {
        for _ in 0..random.below(2 * states) {
            let source = random.below(states - 1);
            let target = random.between(source + 1, states - 1);
            let event = *random.pick(events);
            edges.of[source].entry(event).or_insert(target);
        }
        // Where `or_insert` kept an older edge nothing is lost: every target still has the edge in that it was given.
    }
    edges.book(random, 3)
}

/// An accepted image that no compile need have made: fallbacks, levels, heads and marks as they come.
pub fn small_image(random: &mut Random, most_places: usize, events: &[u8]) -> Image {
    let count = random.between(1, most_places);
    let mut places: Vec<Place> = vec![Place::default()];
    for number in 1..count {
        let fallback = random.below(number);
        let above = if random.once_in(6) { random.between(1, 5) } else { 1 };
        let level = places[fallback].level + above;
        let head = if random.once_in(8) { random.between(1, 511) } else { random.between(1, 4) };
        let mark = if random.once_in(2) { random.between(1, 255) as u8 } else { 0 };
        places.push(Place { fallback, level, head, mark, edges: Vec::new() });
    }
    for source in 0..count {
        for event in events {
            if random.once_in(3) {
                continue;
            }
            let level = places[source].level;
            let targets: Vec<usize> = (1..count).filter(|target| places[*target].level <= level + 1).collect();
            if !targets.is_empty() {
                let target = *random.pick(&targets);
                places[source].edges.push((*event, target));
            }
        }
    }
    Image { places }
}

/// A log that follows the image from a place: most events have an edge at the place or at one of its fallbacks.
pub fn log(random: &mut Random, image: &oracle::image::Image, place: usize, length: usize) -> Vec<u8> {
    let mut at = place;
    let mut log = Vec::with_capacity(length);
    for _ in 0..length {
        let mut chain = image.chain(at);
        chain.push(0);
        // Mostly the head, else any place of the chain.
        let from = if random.once_in(3) { *random.pick(&chain) } else { chain[0] };
        let edges = &image.place(from as u64).expect("a place of this image").edges;
        let event = if edges.is_empty() || random.once_in(12) { random.byte() } else { random.pick(edges).0 };
        at = oracle::walk::step(image, at, event).place;
        log.push(event);
    }
    log
}
