//! A call on some buffers that lie beside forbidden pages, and all that it gives.

use crate::damage;
use crate::dice::Dice;
use crate::guard::{Ground, Place};
use std::fmt;

/// The buffers of a call, in order, with the places where they lie.
pub struct Case<const N: usize>(pub [(Place, Vec<u8>); N]);

/// All that a call gives.
#[derive(PartialEq)]
pub struct Outcome<const N: usize> {
    pub returned: u32,
    pub buffers: [Vec<u8>; N],
    pub strayed: bool,
}

impl<const N: usize> fmt::Display for Case<N> {
    fn fmt(&self, out: &mut fmt::Formatter) -> fmt::Result {
        (self.0.iter()).try_for_each(|(_, bytes)| writeln!(out, "{bytes:02X?}"))
    }
}

impl<const N: usize> fmt::Display for Outcome<N> {
    fn fmt(&self, out: &mut fmt::Formatter) -> fmt::Result {
        let strayed = if self.strayed { ", wrote outside" } else { "" };
        writeln!(out, "returned {}{strayed}", self.returned)?;
        (self.buffers.iter()).try_for_each(|bytes| writeln!(out, "{bytes:02X?}"))
    }
}

impl<const N: usize> Case<N> {
    /// The buffers at places that are drawn.
    pub fn placed(dice: &mut Dice, buffers: [Vec<u8>; N]) -> Case<N> {
        Case(buffers.map(|bytes| (place(dice), bytes)))
    }

    /// Runs the archive on copies of the buffers. The call is handed where they lie, and their lengths.
    pub fn run(
        &self,
        grounds: &mut [Ground; N],
        call: impl FnOnce([*mut u8; N], [u64; N]) -> u32,
    ) -> Outcome<N> {
        let mut at = [std::ptr::null_mut(); N];
        for (i, (place, bytes)) in self.0.iter().enumerate() {
            at[i] = grounds[i].lend(*place, bytes);
        }
        let lengths = self.0.each_ref().map(|(_, bytes)| bytes.len() as u64);
        let returned = call(at, lengths);
        let mut strayed = false;
        let mut buffers = [const { Vec::new() }; N];
        for (i, (place, bytes)) in self.0.iter().enumerate() {
            let (found, whole) = grounds[i].take_back(*place, bytes.len());
            buffers[i] = found;
            strayed |= !whole;
        }
        Outcome {
            returned,
            buffers,
            strayed,
        }
    }

    /// Runs the reference on copies of the buffers.
    pub fn expected(&self, call: impl FnOnce(&mut [Vec<u8>; N]) -> u32) -> Outcome<N> {
        let mut buffers = self.0.each_ref().map(|(_, bytes)| bytes.clone());
        let returned = call(&mut buffers);
        Outcome {
            returned,
            buffers,
            strayed: false,
        }
    }
}

fn place(dice: &mut Dice) -> Place {
    match dice.below(3) {
        0 => Place::Front(dice.below(9)),
        1 => Place::Back(dice.below(9)),
        _ => Place::Null,
    }
}

/// The bytes of a table, with up to three bytes over, or mangled.
pub fn table_bytes(dice: &mut Dice, words: &[u32]) -> Vec<u8> {
    let mut bytes = bytes_of(words);
    match dice.below(24) {
        0 => damage::bytes(dice, &mut bytes),
        1 => bytes = damage::noise(dice),
        2..8 => bytes.extend(dice.bytes(3)),
        _ => (),
    }
    bytes
}

/// A length that is mostly about what is needed.
pub fn about(dice: &mut Dice, needed: usize) -> usize {
    match dice.below(6) {
        0 => dice.below(needed + 40),
        1 => needed,
        _ => (needed + dice.below(40)).saturating_sub(6),
    }
}

/// The bytes of an answer of so many, now and then too few.
pub fn answer_bytes(dice: &mut Dice, whole: usize) -> Vec<u8> {
    let length = match dice.below(9) {
        0 => dice.below(whole),
        _ => whole + dice.below(12),
    };
    dice.bytes(length)
}

pub fn number_at(bytes: &[u8], at: usize) -> usize {
    let mut eight = [0; 8];
    eight.copy_from_slice(&bytes[at..at + 8]);
    u64::from_le_bytes(eight) as usize
}

pub fn bytes_of(words: &[u32]) -> Vec<u8> {
    words.iter().flat_map(|word| word.to_le_bytes()).collect()
}

pub fn words_of(bytes: &[u8]) -> Vec<u32> {
    let word = |four: &[u8]| u32::from_le_bytes([four[0], four[1], four[2], four[3]]);
    bytes.chunks_exact(4).map(word).collect()
}
