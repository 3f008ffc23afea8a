//! Damage: an accepted book or image changed so that it is refused, if possible by one given number. Which number it
//! is in the end is the oracle's to say; the counts show whether enough of each came out.

use runner::describe::{Book, Image, Place};
use runner::random::Random;

/// A value that is not `old`: the limits and the neighbours of the old value as often as any other.
fn other16(random: &mut Random, old: usize, near: &[usize]) -> usize {
    loop {
        let new = match random.below(6) {
            0 => old.wrapping_sub(1) & 0xffff,
            1 => (old + 1) & 0xffff,
            2 => *random.pick(&[0, 1, 255, 256, 511, 512, 1_023, 1_024, 0x7fff, 0x8000, 0xffff]),
            3 if !near.is_empty() => *random.pick(near),
            4 => random.below(8),
            _ => random.below(65_536),
        };
        if new != old {
            return new;
        }
    }
}

fn other8(random: &mut Random, old: u8) -> u8 {
    old ^ random.between(1, 255) as u8
}

fn get16(bytes: &[u8], at: usize) -> usize {
    usize::from(bytes[at]) | usize::from(bytes[at + 1]) << 8
}

fn set16(bytes: &mut [u8], at: usize, value: usize) {
    bytes[at] = value as u8;
    bytes[at + 1] = (value >> 8) as u8;
}

/// A book as bytes with the offsets of its records, so that any byte of it can be spoilt.
struct Open {
    bytes: Vec<u8>,
    table: usize,
    states: usize,
    edges: usize,
    /// The state to which each edge of the table belongs.
    sources: Vec<usize>,
}

impl Open {
    fn new(book: &Book) -> Open {
        let bytes = book.bytes();
        let of_state = |(state, edges): (usize, usize)| std::iter::repeat(state).take(edges);
        let counts = book.states.iter().map(|state| state.edges.len());
        let sources: Vec<usize> = counts.enumerate().flat_map(of_state).collect();
        Open { bytes, table: book.note.len(), states: book.states.len(), edges: sources.len(), sources }
    }
    fn state(&self, state: usize) -> usize {
        self.table + 4 * state
    }
    fn edge(&self, edge: usize) -> usize {
        self.table + 4 * self.states + 4 * edge
    }
    fn trailer(&self) -> usize {
        self.edge(self.edges)
    }
}

/// A book refused by `number`, from 1 to 13, or none where this book cannot be made so. Numbers above it may be broken
/// as well, so that an engine which judges them first is found out.
pub fn book(random: &mut Random, book: &Book, number: u32) -> Option<Vec<u8>> {
    let mut open = Open::new(book);
    let trailer = open.trailer();
    match number {
        1 => {
            let keep = random.below(12);
            if random.once_in(2) {
                return Some(random.bytes(keep));
            }
            let from = open.bytes.len() - keep;
            return Some(open.bytes.split_off(from));
        }
        2 => {
            let over = if random.once_in(2) { 1 } else { random.between(1, 4_000) };
            let fill = 65_536 + over - open.bytes.len();
            let mut long = vec![random.byte(); fill];
            long.append(&mut open.bytes);
            return Some(long);
        }
        3 => {
            let at = trailer + 10 + random.below(2);
            open.bytes[at] = if random.once_in(3) { b'M' } else { other8(random, open.bytes[at]) };
            if random.once_in(4) {
                open.bytes[trailer + 8] = random.byte();
            }
        }
        4 => {
            let form = other16(random, 1, &[2, 3]);
            set16(&mut open.bytes, trailer + 8, form);
            if random.once_in(4) {
                set16(&mut open.bytes, trailer + 4, 0);
            }
        }
        5 => match random.below(3) {
            0 => set16(&mut open.bytes, trailer + 4, 0),
            1 => {
                let states = if random.once_in(2) { 513 } else { random.between(513, 65_535) };
                set16(&mut open.bytes, trailer + 4, states);
            }
            _ => {
                let edges = if random.once_in(2) { 2_049 } else { random.between(2_049, 65_535) };
                set16(&mut open.bytes, trailer + 6, edges);
            }
        },
        6 => match random.below(4) {
            0 => {
                let at = trailer + random.below(4);
                open.bytes[at] = other8(random, open.bytes[at]);
            }
            1 => {
                let gone = open.table + random.between(1, trailer - open.table);
                open.bytes.drain(..gone);
            }
            2 => {
                let states = random.between(1, 512);
                set16(&mut open.bytes, trailer + 4, states);
            }
            _ => {
                let edges = random.below(2_049);
                set16(&mut open.bytes, trailer + 6, edges);
            }
        },
        7 => {
            for _ in 0..random.between(1, 3) {
                let record = random.below(open.states + open.edges);
                let at = open.table + 4 * record + 1;
                open.bytes[at] = random.between(1, 255) as u8;
            }
            spoil_above(random, &mut open, 7);
        }
        8 if open.states > 1 && random.once_in(6) => {
            // Two counts that together are 65,536 too many: right to a sum of 16 bits.
            let one = random.below(open.states - 1);
            let other = random.between(one + 1, open.states - 1);
            let more = random.between(1, 65_535 - book.states[one].edges.len());
            if book.states[other].edges.len() < more {
                set16(&mut open.bytes, open.table + 4 * one + 2, book.states[one].edges.len() + more);
                set16(&mut open.bytes, open.table + 4 * other + 2, book.states[other].edges.len() + 65_536 - more);
            }
        }
        8 => {
            for _ in 0..random.between(1, 3) {
                let at = open.state(random.below(open.states)) + 2;
                let count = other16(random, get16(&open.bytes, at), &[open.edges]);
                set16(&mut open.bytes, at, count);
            }
            spoil_above(random, &mut open, 8);
        }
        9 => {
            let states: Vec<usize> = (0..open.states).filter(|state| book.states[*state].edges.len() > 1).collect();
            if states.is_empty() {
                return None;
            }
            for _ in 0..random.between(1, 2) {
                let state = *random.pick(&states);
                let later = random.between(1, book.states[state].edges.len() - 1);
                let before = book.states[state].edges[later - 1].0;
                let first = open.sources.iter().position(|source| *source == state).expect("it has edges");
                let at = open.edge(first + later);
                open.bytes[at] = if random.once_in(2) { before } else { random.below(usize::from(before) + 1) as u8 };
            }
            spoil_above(random, &mut open, 9);
        }
        10 => {
            if open.edges == 0 {
                return None;
            }
            for _ in 0..random.between(1, 2) {
                let edge = random.below(open.edges);
                spoil_target(random, &mut open, edge);
            }
            spoil_above(random, &mut open, 10);
        }
        11 => {
            let at = open.state(0);
            open.bytes[at] = random.between(1, 255) as u8;
            spoil_above(random, &mut open, 11);
        }
        12 => {
            // All edges into one state are led elsewhere, where there is an elsewhere.
            let lost = random.between(1, open.states.max(2) - 1);
            for edge in 0..open.edges {
                let at = open.edge(edge) + 2;
                if get16(&open.bytes, at) == lost {
                    let source = open.sources[edge];
                    let elsewhere: Vec<usize> = (source + 1..open.states).filter(|to| *to != lost).collect();
                    if elsewhere.is_empty() {
                        return None;
                    }
                    let target = *random.pick(&elsewhere);
                    set16(&mut open.bytes, at, target);
                }
            }
            spoil_above(random, &mut open, 12);
        }
        13 => {
            let leaves: Vec<usize> = (1..open.states).filter(|state| book.states[*state].edges.is_empty()).collect();
            if leaves.is_empty() {
                return None;
            }
            for _ in 0..random.between(1, 3) {
                let at = open.state(*random.pick(&leaves));
                open.bytes[at] = 0;
            }
        }
        _ => unreachable!("books are refused by 1 to 13"),
    }
    Some(open.bytes)
}

fn spoil_target(random: &mut Random, open: &mut Open, edge: usize) {
    let source = open.sources[edge];
    let target = match random.below(4) {
        0 => random.below(source + 1),
        1 => source,
        2 => open.states,
        _ => random.between(open.states, 65_535),
    };
    let at = open.edge(edge) + 2;
    set16(&mut open.bytes, at, target);
}

/// Now and then breaks a rule or two of a number above the given one, which must not be noticed.
fn spoil_above(random: &mut Random, open: &mut Open, number: u32) {
    if !random.once_in(2) {
        return;
    }
    if number < 8 && random.once_in(3) {
        let at = open.state(random.below(open.states)) + 2;
        let count = random.below(4);
        set16(&mut open.bytes, at, count);
    }
    if number < 9 && open.edges > 0 && random.once_in(3) {
        let at = open.edge(random.below(open.edges));
        open.bytes[at] = random.byte();
    }
    if number < 10 && open.edges > 0 && random.once_in(2) {
        let edge = random.below(open.edges);
        spoil_target(random, open, edge);
    }
    if number < 11 && random.once_in(3) {
        let at = open.state(0);
        open.bytes[at] = random.byte();
    }
    if number < 13 && random.once_in(2) {
        let at = open.state(random.below(open.states));
        if at != open.state(0) {
            open.bytes[at] = 0;
        }
    }
}

/// An image refused by `number`, from 17 to 19, or by none where the change happens to be right.
pub fn image(random: &mut Random, image: &[u8], number: u32) -> Vec<u8> {
    let mut bytes = image.to_vec();
    let trailer = bytes.len() - 12;
    let places = get16(&bytes, trailer + 4);
    let edges = get16(&bytes, trailer + 6);
    match number {
        17 => match random.below(9) {
            0 => bytes.truncate(random.below(bytes.len())),
            1 => {
                let gone = random.between(1, bytes.len());
                bytes.drain(..gone);
            }
            2 => {
                let more = random.between(1, 20);
                bytes.splice(..0, random.bytes(more));
            }
            3 => {
                let more = random.between(1, 20);
                bytes.extend(random.bytes(more));
            }
            4 => {
                let at = trailer + random.below(4);
                bytes[at] = other8(random, bytes[at]);
            }
            5 => {
                let new = other16(random, places, &[0, 1_024, 1_025]);
                set16(&mut bytes, trailer + 4, new);
            }
            6 => {
                let new = other16(random, edges, &[4_096, 4_097]);
                set16(&mut bytes, trailer + 6, new);
            }
            7 => {
                let new = other16(random, 1, &[2, 3]);
                set16(&mut bytes, trailer + 8, new);
            }
            _ => {
                let at = trailer + 10 + random.below(2);
                bytes[at] = if random.once_in(3) { b'B' } else { other8(random, bytes[at]) };
            }
        },
        18 if places > 1 && random.once_in(8) => {
            // Two counts that together are 65,536 too many, and first edges that are right to a sum of 16 bits.
            let one = random.below(places - 1);
            let other = random.between(one + 1, places - 1);
            let (one_count, other_count) = (get16(&bytes, 14 * one + 2), get16(&bytes, 14 * other + 2));
            let more = random.between(1, 65_535 - one_count);
            if other_count < more {
                set16(&mut bytes, 14 * one + 2, one_count + more);
                set16(&mut bytes, 14 * other + 2, other_count + 65_536 - more);
                for between in one + 1..=other {
                    let first = (get16(&bytes, 14 * between) + more) & 0xffff;
                    set16(&mut bytes, 14 * between, first);
                }
            }
        }
        18 => {
            for _ in 0..random.between(1, 2) {
                let place = random.below(places);
                let at = 14 * place;
                let near = [place, place + 1, places - 1, places, edges];
                match random.below(8) {
                    6 => bytes[at + 12] = other8(random, bytes[at + 12]),
                    7 => bytes[at + 13] = random.between(1, 255) as u8,
                    field => {
                        let new = other16(random, get16(&bytes, at + 2 * field), &near);
                        set16(&mut bytes, at + 2 * field, new);
                    }
                }
            }
            if edges > 0 && random.once_in(3) {
                let at = 14 * places + 4 * random.below(edges) + 1;
                bytes[at] = random.byte();
            }
        }
        19 => {
            if edges == 0 {
                return bytes;
            }
            for _ in 0..random.between(1, 2) {
                let at = 14 * places + 4 * random.below(edges);
                match random.below(4) {
                    0 => bytes[at] = other8(random, bytes[at]),
                    1 => bytes[at + 1] = random.between(1, 255) as u8,
                    2 => {
                        let new = *random.pick(&[0, places, places + 1, 0xffff, 256]);
                        set16(&mut bytes, at + 2, new);
                    }
                    _ => {
                        let new = random.below(places);
                        set16(&mut bytes, at + 2, new);
                    }
                }
            }
        }
        _ => unreachable!("images are refused by 17 to 19"),
    }
    bytes
}

/// Any table with a right book trailer: random records, so that refusals 7 to 13 come as they come.
pub fn any_book_table(random: &mut Random) -> Vec<u8> {
    let states = random.between(1, 6);
    let edges = random.below(8);
    let mut bytes = Vec::new();
    for _ in 0..states {
        let count = if random.once_in(8) { random.byte() } else { random.below(4) as u8 };
        let zero = if random.once_in(40) { random.byte() } else { 0 };
        bytes.extend([if random.once_in(2) { 0 } else { random.byte() }, zero, count, 0]);
    }
    for edge in 0..edges {
        let zero = if random.once_in(40) { random.byte() } else { 0 };
        let event = if random.once_in(3) { random.byte() } else { 0x20 + edge as u8 };
        bytes.extend([event, zero, random.below(states + 1) as u8, 0]);
    }
    let distance = (4 * states + 4 * edges + 12) as u32;
    bytes.extend(distance.to_le_bytes());
    bytes.extend([states as u8, 0, edges as u8, 0, 1, 0, b'S', b'B']);
    bytes
}

/// Any records with a right image trailer.
pub fn any_image_table(random: &mut Random) -> Vec<u8> {
    let places = random.between(1, 4);
    let edges = random.below(4);
    let mut bytes = Vec::new();
    for place in 0..places {
        for _ in 0..5 {
            bytes.extend([if place == 0 || random.once_in(3) { 0 } else { random.below(4) as u8 }, 0]);
        }
        bytes.extend([0, 0, 0, 0]);
    }
    for _ in 0..edges {
        bytes.extend([random.byte(), 0, random.below(places + 1) as u8, 0]);
    }
    let distance = (14 * places + 4 * edges + 12) as u32;
    bytes.extend(distance.to_le_bytes());
    bytes.extend([places as u8, 0, edges as u8, 0, 1, 0, b'S', b'M']);
    bytes
}

/// An accepted image that no compile would make: levels up to 65,535, places out of reach, equal heads with unequal
/// marks, equal chains twice, edges to lower levels and to the place itself.
pub fn wild_image(random: &mut Random) -> Vec<u8> {
    let most = match random.below(20) {
        0 => 1_024,
        1..=4 => 150,
        _ => 24,
    };
    let count = random.between(1, most);
    let steep = random.once_in(3);
    let few_heads = random.once_in(2);
    let mut places = vec![Place::default()];
    for number in 1..count {
        // Mostly the newest places as fallbacks, so that chains are long.
        let fallback = if random.once_in(2) { number - 1 } else { random.below(number) };
        let below = places[fallback].level;
        let (fallback, below) = if below == 65_535 { (0, 0) } else { (fallback, below) };
        let level = match random.below(6) {
            0 if steep => random.between(below + 1, 65_535),
            1 if steep => 65_535,
            2 => (below + random.between(1, 9)).min(65_535),
            _ => below + 1,
        };
        let head = if few_heads { random.between(1, 3) } else { random.between(1, 511) };
        let mark = if random.once_in(3) { random.between(1, 255) as u8 } else { 0 };
        places.push(Place { fallback, level, head, mark, edges: Vec::new() });
    }
    let events = runner::draw::alphabet(random, 5);
    let mut left = 4_096;
    for source in 0..count {
        let level = places[source].level;
        let wide = random.once_in(60);
        let all: Vec<u8> = if wide { (0..=255).collect() } else { events.clone() };
        for event in all {
            // A few tries at a target low enough; where none is met the place goes without.
            let target = (0..4).map(|_| random.below(count)).find(|to| *to != 0 && places[*to].level <= level + 1);
            if let (Some(target), true, true) = (target, left > 0, wide || !random.once_in(3)) {
                places[source].edges.push((event, target));
                left -= 1;
            }
        }
    }
    Image { places }.bytes()
}
