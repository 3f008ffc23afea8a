//! A call that touches a page it must not touch, runs out of stack or does not come back ends the program. What the
//! call was is printed first, so that such a failure has a reproducer like any other.
//!
//! The handler allocates and prints, which a handler must not do in general. Here it may: the signal comes out of the
//! watched call, and the proved library takes no lock and allocates nothing. Layouts and constants are those of Linux
//! on 64 bits.

use std::ffi::{c_int, c_uint, c_void};
use std::ptr::null_mut;
use std::sync::atomic::{AtomicPtr, AtomicUsize, Ordering::SeqCst};

#[repr(C)]
struct SigAction {
    handler: usize,
    mask: [u64; 16],
    flags: c_int,
    restorer: usize,
}

#[repr(C)]
struct SigStack {
    at: *mut c_void,
    flags: c_int,
    length: usize,
}

#[repr(C)]
struct SigInfo {
    signal: c_int,
    error: c_int,
    code: c_int,
    address: usize,
}

extern "C" {
    fn sigaction(signal: c_int, new: *const SigAction, old: *mut SigAction) -> c_int;
    fn sigaltstack(new: *const SigStack, old: *mut SigStack) -> c_int;
    fn alarm(seconds: c_uint) -> c_uint;
    fn write(file: c_int, bytes: *const c_void, length: usize) -> isize;
    fn _exit(status: c_int) -> !;
}

const ILLEGAL: c_int = 4;
const TRAP: c_int = 5;
const ABORT: c_int = 6;
const BUS: c_int = 7;
const ARITHMETIC: c_int = 8;
const SEGMENT: c_int = 11;
const ALARM: c_int = 14;
const WITH_INFO: c_int = 4;
const ON_ITS_STACK: c_int = 0x0800_0000;
const ONCE: c_int = 0x8000_0000_u32 as c_int;

/// Every call ends; one that takes so long has not. The slowest takes far less than a second.
const LONGEST: c_uint = 60;

/// The text of the call under way: a `&dyn Fn() -> String` that lives on the stack of `during`.
static CALL: AtomicPtr<c_void> = AtomicPtr::new(null_mut());

/// Addresses and lengths of the slices given to the call under way, as far as somebody has said.
const SLICES: usize = 3;
static ADDRESSES: [AtomicUsize; SLICES] = [const { AtomicUsize::new(0) }; SLICES];
static LENGTHS: [AtomicUsize; SLICES] = [const { AtomicUsize::new(0) }; SLICES];

/// Makes the call. `text` says what it is, and is asked only where the call goes wrong.
pub fn during<T>(text: &dyn Fn() -> String, call: impl FnOnce() -> T) -> T {
    CALL.store(std::ptr::from_ref(&text).cast_mut().cast(), SeqCst);
    // SAFETY: sets a clock, nothing else.
    unsafe { alarm(LONGEST) };
    let came = call();
    // SAFETY: as above.
    unsafe { alarm(0) };
    CALL.store(null_mut(), SeqCst);
    for address in &ADDRESSES {
        address.store(0, SeqCst);
    }
    came
}

/// Where a slice of the call under way stands, for the report.
pub fn slice(number: usize, address: *const u8, length: usize) {
    ADDRESSES[number].store(address as usize, SeqCst);
    LENGTHS[number].store(length, SeqCst);
}

/// The slice that a touched address belongs to: the nearest one.
fn touched(address: usize) -> String {
    let far = |number: &usize| {
        let from = ADDRESSES[*number].load(SeqCst);
        let end = from + LENGTHS[*number].load(SeqCst);
        if address < from {
            from - address
        } else {
            address.saturating_sub(end)
        }
    };
    let known = (0..SLICES).filter(|number| ADDRESSES[*number].load(SeqCst) > 1).min_by_key(far);
    match known {
        Some(number) if far(&number) < 1 << 20 => {
            let from = ADDRESSES[number].load(SeqCst);
            let at = address as i128 - from as i128;
            format!("byte {at} of a slice of {} bytes was touched", LENGTHS[number].load(SeqCst))
        }
        _ => format!("address {address:#x} was touched"),
    }
}

extern "C" fn caught(signal: c_int, info: *const SigInfo, _: *mut c_void) {
    let call = CALL.swap(null_mut(), SeqCst);
    let what = if call.is_null() {
        "outside of a watched call".to_string()
    } else {
        // SAFETY: `during` has not come back, so what it stored is still on its stack.
        let text = unsafe { *call.cast::<&dyn Fn() -> String>() };
        text()
    };
    let why = match signal {
        // SAFETY: the system gives a handler with WITH_INFO this pointer.
        SEGMENT | BUS => touched(unsafe { (*info).address }),
        ALARM => format!("no answer after {LONGEST} seconds"),
        _ => "the call was stopped".to_string(),
    };
    let text = format!("FAILED signal {signal}, {why}: {what}\n0 passed, 1 failed\n");
    let mut rest = text.as_bytes();
    while !rest.is_empty() {
        // SAFETY: pointer and length of one slice. Not `print`, whose lock the stopped program may hold.
        let wrote = unsafe { write(1, rest.as_ptr().cast(), rest.len()) };
        match usize::try_from(wrote) {
            Ok(wrote) if wrote > 0 => rest = &rest[wrote..],
            _ => break,
        }
    }
    // SAFETY: ends the program.
    unsafe { _exit(1) }
}

/// To be called once, before the first call that is watched.
pub fn begin() {
    // A stack of its own: where the call has used up its stack, the handler has none left there.
    let stack = Box::leak(vec![0_u8; 1 << 18].into_boxed_slice());
    let stack = SigStack { at: stack.as_mut_ptr().cast(), flags: 0, length: stack.len() };
    let handler = caught as extern "C" fn(c_int, *const SigInfo, *mut c_void) as usize;
    let action = SigAction { handler, mask: [0; 16], flags: WITH_INFO | ON_ITS_STACK | ONCE, restorer: 0 };
    // SAFETY: the stack lives to the end of the program, and the handler has the form that the flags name.
    unsafe {
        assert_eq!(sigaltstack(&stack, null_mut()), 0, "a stack for the handler");
        for signal in [ILLEGAL, TRAP, ABORT, BUS, ARITHMETIC, SEGMENT, ALARM] {
            assert_eq!(sigaction(signal, &action, null_mut()), 0, "a handler for signal {signal}");
        }
    }
}
