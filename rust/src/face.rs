//! The calls of `include/gusemrak.h`, each as a safe function on slices. All unsafe code of the crate is here.
//!
//! Nothing checks these declarations against the library, so they keep the header's order and widths.

use crate::Refusal;

/// `gusemrak_answer`.
#[repr(C)]
struct Answer {
    number: u32,
    place: u32,
    a: u64,
    b: u64,
    c: u64,
    d: u64,
}

// The library is for x86-64: there a `usize` holds every number of an answer, and is C's `size_t`.
const _: () = assert!(usize::BITS == 64);

/// The numbers a, b, c and d of an answer that is not refused.
pub(crate) type Numbers = [u64; 4];

impl Answer {
    fn judged(self) -> Result<Numbers, Refusal> {
        match self.number {
            0 => Ok([self.a, self.b, self.c, self.d]),
            number => Err(Refusal { number, place: self.place }),
        }
    }
}

extern "C" {
    fn gusemrak_check_book(book: *const u8, n: usize) -> Answer;
    fn gusemrak_compile(book: *const u8, n: usize, out: *mut u8, room: usize) -> Answer;
    fn gusemrak_check_image(image: *const u8, n: usize) -> Answer;
    fn gusemrak_fallback(image: *const u8, n: usize, place: u32) -> Answer;
    fn gusemrak_level(image: *const u8, n: usize, place: u32) -> Answer;
    fn gusemrak_mark(image: *const u8, n: usize, place: u32) -> Answer;
    fn gusemrak_edge(image: *const u8, n: usize, place: u32, event: u8) -> Answer;
    fn gusemrak_step(image: *const u8, n: usize, place: u32, event: u8) -> Answer;
    fn gusemrak_run(
        image: *const u8,
        n: usize,
        place: u32,
        base: u32,
        log: *const u8,
        nlog: usize,
        out: *mut u8,
        room: usize,
    ) -> Answer;
    fn gusemrak_short_list(list: *const u8, n: usize, out: *mut u8, room: usize) -> Answer;
    fn gusemrak_part(log: *const u8, nlog: usize, base: u32, end: u32, length: u32) -> Answer;
    fn gusemrak_group(event: u8) -> u8;
}

// SAFETY, of every call below: each pointer and length are those of one slice that lives through the call, and a slice
// lent for writing overlaps no other, as `&mut` has it. The library takes any bytes and any numbers, reads and writes
// inside these lengths only, and keeps nothing.

pub(crate) fn check_book(book: &[u8]) -> Result<Numbers, Refusal> {
    unsafe { gusemrak_check_book(book.as_ptr(), book.len()) }.judged()
}

pub(crate) fn compile(book: &[u8], out: &mut [u8]) -> Result<Numbers, Refusal> {
    unsafe { gusemrak_compile(book.as_ptr(), book.len(), out.as_mut_ptr(), out.len()) }.judged()
}

pub(crate) fn check_image(image: &[u8]) -> Result<Numbers, Refusal> {
    unsafe { gusemrak_check_image(image.as_ptr(), image.len()) }.judged()
}

pub(crate) fn fallback(image: &[u8], place: u32) -> Result<Numbers, Refusal> {
    unsafe { gusemrak_fallback(image.as_ptr(), image.len(), place) }.judged()
}

pub(crate) fn level(image: &[u8], place: u32) -> Result<Numbers, Refusal> {
    unsafe { gusemrak_level(image.as_ptr(), image.len(), place) }.judged()
}

pub(crate) fn mark(image: &[u8], place: u32) -> Result<Numbers, Refusal> {
    unsafe { gusemrak_mark(image.as_ptr(), image.len(), place) }.judged()
}

pub(crate) fn edge(image: &[u8], place: u32, event: u8) -> Result<Numbers, Refusal> {
    unsafe { gusemrak_edge(image.as_ptr(), image.len(), place, event) }.judged()
}

pub(crate) fn step(image: &[u8], place: u32, event: u8) -> Result<Numbers, Refusal> {
    unsafe { gusemrak_step(image.as_ptr(), image.len(), place, event) }.judged()
}

pub(crate) fn run(image: &[u8], place: u32, base: u32, log: &[u8], out: &mut [u8]) -> Result<Numbers, Refusal> {
    let (n, nlog, room) = (image.len(), log.len(), out.len());
    unsafe { gusemrak_run(image.as_ptr(), n, place, base, log.as_ptr(), nlog, out.as_mut_ptr(), room) }.judged()
}

pub(crate) fn short_list(list: &[u8], out: &mut [u8]) -> Result<Numbers, Refusal> {
    unsafe { gusemrak_short_list(list.as_ptr(), list.len(), out.as_mut_ptr(), out.len()) }.judged()
}

pub(crate) fn part(log: &[u8], base: u32, end: u32, length: u32) -> Result<Numbers, Refusal> {
    unsafe { gusemrak_part(log.as_ptr(), log.len(), base, end, length) }.judged()
}

pub(crate) fn group(event: u8) -> u8 {
    unsafe { gusemrak_group(event) }
}
