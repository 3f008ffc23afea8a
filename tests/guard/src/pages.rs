//! Pages between two pages that cannot be touched. The constants are those of Linux.

use std::ffi::{c_int, c_void};

extern "C" {
    fn mmap(at: *mut c_void, length: usize, protection: c_int, flags: c_int, file: c_int, offset: i64) -> *mut c_void;
    fn mprotect(at: *mut c_void, length: usize, protection: c_int) -> c_int;
    fn munmap(at: *mut c_void, length: usize) -> c_int;
    fn getpagesize() -> c_int;
}

const NOT_AT_ALL: c_int = 0;
const READ: c_int = 1;
const READ_AND_WRITE: c_int = 1 | 2;
const PRIVATE_WITHOUT_FILE: c_int = 0x02 | 0x20;

/// Some bytes that can be touched, with a page on either side that cannot.
pub struct Pages {
    /// The first page, which cannot be touched.
    start: *mut u8,
    page: usize,
    length: usize,
}

impl Pages {
    /// At least so many bytes between the two.
    pub fn new(least: usize) -> Pages {
        // SAFETY: a new mapping; what it answers is looked at before it is used.
        unsafe {
            let page = usize::try_from(getpagesize()).expect("a page has a length");
            let length = least.max(1).div_ceil(page) * page;
            let whole = length + 2 * page;
            let start = mmap(std::ptr::null_mut(), whole, NOT_AT_ALL, PRIVATE_WITHOUT_FILE, -1, 0).cast::<u8>();
            assert!(start as isize != -1, "{whole} bytes cannot be mapped");
            let pages = Pages { start, page, length };
            pages.protect(0, length, READ_AND_WRITE);
            pages
        }
    }

    pub fn len(&self) -> usize {
        self.length
    }

    pub fn is_empty(&self) -> bool {
        self.length == 0
    }

    /// The address of a byte that can be touched, or of the first past them all: that one cannot.
    pub fn at(&self, offset: usize) -> *mut u8 {
        assert!(offset <= self.length);
        // SAFETY: inside the mapping, its last page included.
        unsafe { self.start.add(self.page + offset) }
    }

    /// Every page that holds one of these bytes.
    fn protect(&self, from: usize, length: usize, protection: c_int) {
        let first = from / self.page * self.page;
        let end = (from + length).div_ceil(self.page) * self.page;
        assert!(end <= self.length);
        if first < end {
            // SAFETY: whole pages of this mapping, never the first or the last of it.
            let failed = unsafe { mprotect(self.at(first).cast(), end - first, protection) };
            assert_eq!(failed, 0, "pages cannot be protected");
        }
    }

    /// From now on the pages of these bytes can only be read.
    pub fn close(&self, from: usize, length: usize) {
        self.protect(from, length, READ);
    }

    /// They can be written again.
    pub fn open(&self, from: usize, length: usize) {
        self.protect(from, length, READ_AND_WRITE);
    }
}

impl Drop for Pages {
    fn drop(&mut self) {
        // SAFETY: the whole mapping, which nothing borrows any more.
        unsafe { munmap(self.start.cast(), self.length + 2 * self.page) };
    }
}
