//! Memory between two guard pages. A call that reads or writes beyond its buffer on that
//! side is stopped by a signal; a write beyond the other side spoils the marks there.

use std::ptr::{copy_nonoverlapping, null_mut, write_bytes};
use std::slice::from_raw_parts;

extern "C" {
    fn mmap(at: *mut u8, len: usize, prot: i32, flags: i32, file: i32, offset: i64) -> *mut u8;
    fn mprotect(at: *mut u8, len: usize, prot: i32) -> i32;
}

const PROT_NONE: i32 = 0;
const PROT_READ_WRITE: i32 = 3;
const MAP_PRIVATE_ANONYMOUS: i32 = 0x22;
const PAGE: usize = 4096;
const SPAN: usize = 1 << 16;
const MARK: u8 = 0xC5;
const MARKS: usize = 64;

/// Where a buffer lies: so many bytes after the page before it, or before the page after it.
/// An empty one may be NULL.
#[derive(Clone, Copy, PartialEq)]
pub enum Place {
    Front(usize),
    Back(usize),
    Null,
}

/// Room for one buffer of a call.
pub struct Ground {
    start: *mut u8,
}

impl Default for Ground {
    fn default() -> Ground {
        let whole = SPAN + 2 * PAGE;
        // SAFETY: new pages, which nothing else uses.
        unsafe {
            let base = mmap(null_mut(), whole, PROT_NONE, MAP_PRIVATE_ANONYMOUS, -1, 0);
            assert!(base as isize != -1, "no memory");
            let start = base.add(PAGE);
            assert!(mprotect(start, SPAN, PROT_READ_WRITE) == 0, "no memory");
            write_bytes(start, MARK, SPAN);
            Ground { start }
        }
    }
}

impl Ground {
    fn offset(place: Place, len: usize) -> usize {
        match place {
            Place::Front(gap) => gap,
            Place::Back(gap) => SPAN - len - gap,
            Place::Null => SPAN - len,
        }
    }

    /// Puts a copy of the bytes at the place.
    pub fn lend(&mut self, place: Place, bytes: &[u8]) -> *mut u8 {
        if place == Place::Null && bytes.is_empty() {
            return null_mut();
        }
        assert!(bytes.len() + 2 * MARKS <= SPAN, "a buffer too long to test");
        // SAFETY: place and bytes lie within the span.
        unsafe {
            let at = self.start.add(Ground::offset(place, bytes.len()));
            copy_nonoverlapping(bytes.as_ptr(), at, bytes.len());
            at
        }
    }

    /// The bytes there now, and whether the marks around them are whole. Marks them again.
    pub fn take_back(&mut self, place: Place, len: usize) -> (Vec<u8>, bool) {
        let at = Ground::offset(place, len);
        let (from, to) = (at.saturating_sub(MARKS), (at + len + MARKS).min(SPAN));
        // SAFETY: all within the span.
        unsafe {
            let around = from_raw_parts(self.start.add(from), to - from);
            let (before, rest) = around.split_at(at - from);
            let (bytes, after) = rest.split_at(len);
            let whole = before.iter().chain(after).all(|byte| *byte == MARK);
            let bytes = bytes.to_vec();
            write_bytes(self.start.add(from), MARK, to - from);
            (bytes, whole)
        }
    }
}
