//! Document 01, "Chains and places": the chain of a text, found twice and by unlike ways.
//!
//! `by_endings` is the definition itself: every ending of the text is read from state 0. `after` and `stepwise` go
//! event by event as document 000, section 5 does, (5.6) with the optional cons (5.3), reaches added. That the two
//! agree is tested, not assumed.

use crate::book::Book;

/// A live state with its reach.
#[derive(Clone, Copy, PartialEq, Eq, Hash, Debug)]
pub struct Live {
    pub state: u16,
    pub reach: u16,
}

/// The live states of a text, greatest reach first.
pub type Chain = Vec<Live>;

fn live(state: usize, reach: usize) -> Live {
    // Books have no loops: no text that leads anywhere is longer than 511 events.
    Live { state: state as u16, reach: u16::try_from(reach).expect("a reach is below the state count") }
}

/// The chain of a text by its definition, from all endings of the text.
pub fn by_endings(book: &Book, text: &[u8]) -> Chain {
    let mut chain = Chain::new();
    for state in 1..book.states.len() {
        // All lengths of endings that lead to this state; its reach is the least of them.
        let lengths = (1..=text.len()).filter(|length| book.read(&text[text.len() - length..]) == Some(state));
        if let Some(reach) = lengths.min() {
            chain.push(live(state, reach));
        }
    }
    chain.sort_by(|one, other| other.reach.cmp(&one.reach));
    chain
}

/// The chain after one more event. Built from its end: what the start gives, then each live state's target in front
/// of it, shortest reach first. A target found anywhere in the rest is dropped, as it was reached by less.
pub fn after(book: &Book, chain: &[Live], event: u8) -> Chain {
    let mut found = vec![false; book.states.len()];
    let mut shortest_first = Chain::new();
    let start = live(0, 0);
    for source in std::iter::once(&start).chain(chain.iter().rev()) {
        if let Some(target) = book.target(usize::from(source.state), event) {
            if !found[target] {
                found[target] = true;
                shortest_first.push(live(target, usize::from(source.reach) + 1));
            }
        }
    }
    shortest_first.reverse();
    shortest_first
}

/// The chain of a text, event by event from the empty chain.
pub fn stepwise(book: &Book, text: &[u8]) -> Chain {
    text.iter().fold(Chain::new(), |chain, event| after(book, &chain, *event))
}
