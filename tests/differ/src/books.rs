//! Drawn books. All of them are accepted; many compile, and some are meant not to.

use runner::describe::Book;
use runner::draw::{alphabet, small_book, Edges};
use runner::random::Random;

/// A kind of book that is drawn, by what makes it hard.
#[derive(Clone, Copy, PartialEq, Eq, Debug)]
pub enum Kind {
    /// A handful of states.
    Tiny,
    /// Layers of states, each edge to the next layer: a state has one reach, chains differ in their states.
    Layered,
    /// Edges to any of the next few states: a state has many reaches.
    Shared,
    /// Few states with many events each.
    Dense,
    /// Long words, with long chains below them.
    Deep,
    /// The families of document 01, disturbed: about 2 to the n places.
    Family,
    /// 512 states or 2,048 edges or 65,536 bytes, or all three.
    Limits,
}

pub const KINDS: [Kind; 7] =
    [Kind::Tiny, Kind::Layered, Kind::Shared, Kind::Dense, Kind::Deep, Kind::Family, Kind::Limits];

pub fn book(random: &mut Random, kind: Kind) -> Book {
    let mut book = match kind {
        Kind::Tiny => tiny(random),
        Kind::Layered => layered(random),
        Kind::Shared => shared(random),
        Kind::Dense => dense(random),
        Kind::Deep => deep(random),
        Kind::Family => {
            let n = random.between(4, 9);
            family(random, n)
        }
        Kind::Limits => limits(random),
    };
    if random.once_in(8) {
        let longest = 65_536 - book.bytes().len();
        let length = if random.once_in(40) { longest } else { random.below(longest.min(64) + 1) };
        book.note = random.bytes(length);
    }
    book
}

fn tiny(random: &mut Random) -> Book {
    let events = alphabet(random, 3);
    small_book(random, 7, &events)
}

/// Gives each state that has no edge into it one from a lower state, not below `lowest_source`.
fn edges_in(random: &mut Random, edges: &mut Edges, events: &[u8], lowest_source: impl Fn(usize) -> usize) {
    let states = edges.of.len();
    let mut has_one = vec![false; states];
    for targets in &edges.of {
        for target in targets.values() {
            has_one[*target] = true;
        }
    }
    for target in 1..states {
        if !has_one[target] {
            let source = random.between(lowest_source(target), target - 1);
            edges.add(random, source, events, target);
        }
    }
}

fn layered(random: &mut Random) -> Book {
    let events = alphabet(random, 4);
    let mut layers: Vec<Vec<usize>> = vec![vec![0]];
    let mut states = 1;
    for _ in 0..random.between(2, 9) {
        let width = random.between(1, 9);
        layers.push((states..states + width).collect());
        states += width;
    }
    let mut edges = Edges::new(states);
    for pair in layers.windows(2) {
        for source in &pair[0] {
            for event in &events {
                if !random.once_in(4) {
                    let target = *random.pick(&pair[1]);
                    edges.of[*source].insert(*event, target);
                }
            }
        }
        for target in &pair[1] {
            if !pair[0].iter().any(|source| edges.of[*source].values().any(|to| to == target)) {
                let source = *random.pick(&pair[0]);
                edges.add(random, source, &events, *target);
            }
        }
    }
    // An edge that found no free event went to another one, but one that was overwritten may have been the last into
    // its state: the rest get theirs from any lower state.
    edges_in(random, &mut edges, &events, |_| 0);
    edges.book(random, 3)
}

fn shared(random: &mut Random) -> Book {
    let events = alphabet(random, 3);
    let states = random.between(6, 40);
    let ahead = random.between(1, 3);
    let mut edges = Edges::new(states);
    for source in 0..states - 1 {
        for event in &events {
            if !random.once_in(3) {
                let target = (source + random.between(1, ahead)).min(states - 1);
                edges.of[source].insert(*event, target);
            }
        }
    }
    edges_in(random, &mut edges, &events, |target| target.saturating_sub(4));
    edges.book(random, 4)
}

fn dense(random: &mut Random) -> Book {
    let states = random.between(2, 6);
    let mut edges = Edges::new(states);
    for source in 0..states - 1 {
        let seldom = random.between(1, 6);
        for event in 0..=255u8 {
            if random.once_in(seldom) && edges.count() < 2_000 {
                let target = random.between(source + 1, states - 1);
                edges.of[source].insert(event, target);
            }
        }
    }
    edges_in(random, &mut edges, &[0x21], |_| 0);
    edges.book(random, 3)
}

fn deep(random: &mut Random) -> Book {
    let events = alphabet(random, 2);
    let longest = if random.once_in(3) { 512 } else { 120 };
    let states = random.between(20, longest);
    let mut edges = Edges::new(states);
    for source in 0..states - 1 {
        let event = if random.once_in(5) { *random.pick(&events) } else { events[0] };
        edges.of[source].insert(event, source + 1);
    }
    // A few ways to skip, on an event of their own or on one that is about.
    for _ in 0..random.below(4) {
        let source = random.below(states - 1);
        let target = random.between(source + 1, states - 1);
        let event = if random.once_in(2) { random.byte() } else { *random.pick(&events) };
        edges.of[source].entry(event).or_insert(target);
    }
    let seldom = random.between(1, 40);
    edges.book(random, seldom)
}

/// The start by one event to state 1, states 1 to n by some events to the next: with `n` the places double.
pub fn family(random: &mut Random, n: usize) -> Book {
    let events = alphabet(random, 6);
    let first = *random.pick(&events);
    let extra = random.below(4);
    let states = n + 2 + extra;
    let mut edges = Edges::new(states);
    edges.of[0].insert(first, 1);
    for source in 1..=n {
        for event in &events {
            if *event == first || !random.once_in(4) {
                edges.of[source].insert(*event, source + 1);
            }
        }
        let other = random.byte();
        edges.of[source].entry(other).or_insert(source + 1);
    }
    // Some further words, which share states with the family or not.
    for target in n + 2..states {
        let source = random.below(target);
        let event = random.byte();
        edges.add(random, source, &[event], target);
    }
    edges.book(random, 4)
}

fn limits(random: &mut Random) -> Book {
    let most_states = if random.once_in(3) { 512 } else { random.between(300, 512) };
    let most_edges = if random.once_in(2) { 2_048 } else { random.between(most_states, 2_048) };
    // Layers again: with one reach for each state the places stay about as many as the states.
    let width = random.between(1, 12);
    let layer = |state: usize| if state == 0 { 0 } else { (state - 1) / width + 1 };
    let mut edges = Edges::new(most_states);
    let events = random.bytes(24);
    for target in 1..most_states {
        let before: Vec<usize> =
            (0..target).rev().take(2 * width + 1).filter(|s| layer(*s) + 1 == layer(target)).collect();
        let source = *random.pick(&before);
        edges.add(random, source, &events, target);
    }
    while edges.count() < most_edges {
        let source = random.below(most_states - 1);
        let after: Vec<usize> =
            (source + 1..most_states).take(2 * width + 1).filter(|t| layer(source) + 1 == layer(*t)).collect();
        if after.is_empty() || edges.of[source].len() == 256 {
            continue;
        }
        let target = *random.pick(&after);
        edges.add(random, source, &events, target);
    }
    let mut book = edges.book(random, 5);
    if random.once_in(2) {
        let length = 65_536 - book.bytes().len();
        book.note = random.bytes(length);
    }
    book
}

/// A book with over 1,024 chains: refused 14, however many edges there are.
pub fn too_many_places(random: &mut Random) -> Book {
    let n = random.between(10, 14);
    if random.once_in(5) {
        // Wide: over 4,096 edges are met long before the 1,025th place.
        let mut edges = Edges::new(n + 2);
        let high = random.between(40, 120) as u8;
        edges.of[0].insert(random.below(usize::from(high)) as u8, 1);
        for source in 1..=n {
            for event in 0..high {
                edges.of[source].insert(event, source + 1);
            }
        }
        return edges.book(random, 4);
    }
    family(random, n)
}

/// A book with few chains and over 4,096 edges among their places: refused 15.
pub fn too_many_edges(random: &mut Random) -> Book {
    let n = *random.pick(&[5, 5, 5, 5, 5, 6, 6, 7]);
    let mut edges = Edges::new(n + 2);
    let first = random.byte();
    edges.of[0].insert(first, 1);
    for source in 1..=n {
        let all = source > 2 || random.once_in(2);
        for event in 0..=255u8 {
            if all || event == first || random.once_in(2) {
                edges.of[source].insert(event, source + 1);
            }
        }
    }
    edges.book(random, 4)
}
