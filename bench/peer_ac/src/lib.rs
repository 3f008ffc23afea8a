//! ac-nfa and ac-dfa: aho-corasick's overlapping iteration, which gives every match end, as records.

use aho_corasick::{AhoCorasick, AhoCorasickBuilder};
use std::os::raw::c_void;
use std::slice;

/// `word` of contest.h.
#[repr(C)]
pub struct Word {
    events: *const u8,
    length: u16,
    mark: u8,
    state: u16,
}

pub struct Peer {
    automaton: AhoCorasick,
    /// Length and mark of each word, where a record has them.
    record: Vec<u64>,
}

type Drain = Option<extern "C" fn(*mut c_void, *const u8, usize)>;

#[no_mangle]
pub unsafe extern "C" fn peer_ac_build(words: *const Word, count: usize, dfa: u32) -> *mut Peer {
    let words = slice::from_raw_parts(words, count);
    let events: Vec<&[u8]> = words.iter().map(|w| slice::from_raw_parts(w.events, w.length as usize)).collect();
    let automaton = AhoCorasickBuilder::new().dfa(dfa != 0).build(&events);
    let record = words.iter().map(|w| (w.length as u64) << 32 | (w.mark as u64) << 48).collect();
    Box::into_raw(Box::new(Peer { automaton, record }))
}

#[no_mangle]
pub unsafe extern "C" fn peer_ac_memory(peer: *const Peer) -> usize {
    (*peer).automaton.heap_bytes() + 8 * (*peer).record.len()
}

#[no_mangle]
pub unsafe extern "C" fn peer_ac_drop(peer: *mut Peer) {
    drop(Box::from_raw(peer))
}

#[no_mangle]
pub unsafe extern "C" fn peer_ac_walk(
    peer: *const Peer,
    log: *const u8,
    nlog: usize,
    list: *mut u8,
    room: usize,
    drain: Drain,
    to: *mut c_void,
) -> u64 {
    let peer = &*peer;
    let log = slice::from_raw_parts(log, nlog);
    let list = slice::from_raw_parts_mut(list as *mut u64, room / 8);
    let (mut at, mut total) = (0usize, 0u64);
    for found in peer.automaton.find_overlapping_iter(log) {
        if at == list.len() {
            if let Some(drain) = drain {
                drain(to, list.as_ptr() as *const u8, at)
            }
            total += at as u64;
            at = 0;
        }
        list[at] = found.end() as u64 | peer.record[found.pattern()];
        at += 1;
    }
    if let Some(drain) = drain {
        drain(to, list.as_ptr() as *const u8, at)
    }
    total + at as u64
}
