//! Read and Plan of `include/hutplan.h` for a unit's program in Rust: without the standard library, a heap or an
//! operating system. All lists are the caller's, and have the header's sizes, so that none is ever too short.
//!
//! The crate is a library of one file. Link it with the chip's `libhutplan.a`.
#![no_std]

extern "C" {
    fn hutplan_release(answer: *mut u8, answer_len: u64) -> u32;
    fn hutplan_read(
        sheet: *const u8, sheet_len: u64,
        table: *mut u8, table_len: u64,
        answer: *mut u8, answer_len: u64,
    ) -> u32;
    fn hutplan_plan(
        table: *const u8, table_len: u64,
        demands: *const u8, demands_len: u64,
        grants: *mut u8, grants_len: u64,
        caps: *mut u8, caps_len: u64,
        headroom: *mut u8, headroom_len: u64,
        held: *mut u8, held_len: u64,
        answer: *mut u8, answer_len: u64,
    ) -> u32;
}

/// The release that this file was written for, as the header's `HUTPLAN_RELEASE`.
pub const RELEASE: u64 = 2;

/// The lists of a plan, as bytes, four a word, low byte first. `Hut::new` is good for a `static`.
pub struct Hut {
    pub table: [u8; 22540],
    pub demands: [u8; 2048],
    pub grants: [u8; 4096],
    pub caps: [u8; 2048],
    pub headroom: [u8; 4096],
    pub held: [u8; 4096],
}

/// Why an input was turned back, and where; `hutplan.h` lists the numbers and their places.
#[derive(Clone, Copy, Debug, PartialEq)]
pub struct Refusal {
    pub number: u64,
    pub place: u64,
}

/// A number of an answer, at its place among them.
fn number_at(answer: &[u8], place: usize) -> u64 {
    answer[8 * place..8 * place + 8].iter().rev().fold(0, |number, byte| 256 * number + u64::from(*byte))
}

fn figure(answer: &[u8; 16]) -> Result<u64, Refusal> {
    match number_at(answer, 0) {
        0 => Ok(number_at(answer, 1)),
        number => Err(Refusal { number, place: number_at(answer, 1) }),
    }
}

/// Whether the archive is of the release that this file was written for. To be asked once, at the start.
pub fn right_release() -> bool {
    let mut answer = [0; 24];
    // SAFETY: the pointer is valid for the length given with it, and the buffer is this call's alone.
    unsafe { hutplan_release(answer.as_mut_ptr(), answer.len() as u64) };
    number_at(&answer, 1) == RELEASE
}

impl Hut {
    pub const fn new() -> Hut {
        Hut {
            table: [0; 22540],
            demands: [0; 2048],
            grants: [0; 4096],
            caps: [0; 2048],
            headroom: [0; 4096],
            held: [0; 4096],
        }
    }

    /// Puts a server's demand in watts into its list, servers counted from 0.
    pub fn ask(&mut self, server: usize, watts: u32) {
        self.demands[4 * server..4 * server + 4].copy_from_slice(&watts.to_le_bytes());
    }

    /// The words of the sheet's table: how many there are.
    pub fn read(&mut self, sheet: &[u8]) -> Result<u64, Refusal> {
        let mut answer = [0; 16];
        // SAFETY: each pointer is valid for the length given with it, and no buffer overlaps another.
        unsafe {
            hutplan_read(
                sheet.as_ptr(), sheet.len() as u64,
                self.table.as_mut_ptr(), self.table.len() as u64,
                answer.as_mut_ptr(), answer.len() as u64,
            )
        };
        figure(&answer)
    }

    /// The plan of a table of so many words, by the demands of so many servers, in the lists: the freed watts.
    pub fn plan(&mut self, words: usize, servers: usize) -> Result<u64, Refusal> {
        let (table, demands) = (&self.table[..4 * words], &self.demands[..4 * servers]);
        let mut answer = [0; 16];
        // SAFETY: each pointer is valid for the length given with it, and no buffer overlaps another.
        unsafe {
            hutplan_plan(
                table.as_ptr(), table.len() as u64,
                demands.as_ptr(), demands.len() as u64,
                self.grants.as_mut_ptr(), self.grants.len() as u64,
                self.caps.as_mut_ptr(), self.caps.len() as u64,
                self.headroom.as_mut_ptr(), self.headroom.len() as u64,
                self.held.as_mut_ptr(), self.held.len() as u64,
                answer.as_mut_ptr(), answer.len() as u64,
            )
        };
        figure(&answer)
    }
}
