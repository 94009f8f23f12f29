//! The number form: one to four bytes of seven bits, decoded and encoded without a branch on the length.

use super::table::Table;
use super::{Outcome, Refusal, DECIDING_WORDS};

/// Bytes whose top bits are looked at together.
const BLOCK: usize = 64;

/// By count of bytes: the bits that carry the value, and the least value that needs so many.
const CARRYING: [u32; 5] = [0, 0x7F, 0x7F7F, 0x7F_7F7F, 0x7F7F_7F7F];
const LEAST: [u32; 5] = [0, 0, 1 << 7, 1 << 14, 1 << 21];

/// The top bits that say another byte follows, by count of bytes; and that count, by a value's highest bit.
const FOLLOWS: [u32; 5] = [0, 0, 0x80, 0x8080, 0x80_8080];
const SIZES: [u8; 32] = {
    let mut sizes = [4; 32];
    let mut bit = 0;
    while bit < 28 {
        sizes[bit] = bit as u8 / 7 + 1;
        bit += 1;
    }
    sizes
};

/// The numbers of the sheet as words, as many as the list holds; how many the sheet has.
pub fn decode(sheet: &[u8], words: &mut [[u8; 4]; DECIDING_WORDS]) -> Outcome<usize> {
    let mut start = 0;
    let mut count = 0;
    let mut block = 0;
    // Four bytes are loaded wherever a number starts, so the end of the sheet is left to the loop below.
    while block + BLOCK + 4 <= sheet.len() {
        let mut lasts = last_bytes(sheet, block);
        while lasts != 0 {
            let end = block + lasts.trailing_zeros() as usize + 1;
            lasts &= lasts - 1;
            let size = end - start;
            if size > 4 {
                return Err(Refusal(1, start as u64));
            }
            // SAFETY: the number ends in this block, behind which there are four bytes more.
            let bytes = unsafe { sheet.as_ptr().add(start).cast::<[u8; 4]>().read() };
            let value = join(u32::from_le_bytes(bytes) & CARRYING[size]);
            if value < LEAST[size] {
                return Err(Refusal(2, start as u64));
            }
            // A table that long is refused before its last kept word is looked at.
            words[count.min(DECIDING_WORDS - 1)] = value.to_le_bytes();
            count += 1;
            start = end;
        }
        block += BLOCK;
    }
    while start < sheet.len() {
        let (value, end) = careful(sheet, start)?;
        words[count.min(DECIDING_WORDS - 1)] = value.to_le_bytes();
        count += 1;
        start = end;
    }
    Ok(count)
}

/// A bit for each byte of the block, set where a number ends.
fn last_bytes(sheet: &[u8], block: usize) -> u64 {
    use std::arch::x86_64::{__m128i, _mm_loadu_si128, _mm_movemask_epi8};
    let bytes = &sheet[block..block + BLOCK];
    let mut follows = 0;
    for part in 0..4 {
        // SAFETY: the sixteen bytes from 16 * part on lie inside the block; SSE2 is part of x86-64.
        let tops = unsafe {
            let place = bytes.as_ptr().add(16 * part).cast::<__m128i>();
            _mm_movemask_epi8(_mm_loadu_si128(place))
        };
        follows |= u64::from(tops as u16) << (16 * part);
    }
    !follows
}

/// Four groups of seven bits, one a byte, drawn together; and back.
fn join(groups: u32) -> u32 {
    let pairs = (groups & 0x007F_007F) | (groups & 0x7F00_7F00) >> 1;
    (pairs & 0x3FFF) | (pairs & 0x3FFF_0000) >> 2
}

fn split(value: u32) -> u32 {
    let pairs = (value & 0x3FFF) | (value & 0x0FFF_C000) << 2;
    (pairs & 0x007F_007F) | (pairs & 0x3F80_3F80) << 1
}

/// The number that starts at a place, byte by byte, and the place after it.
fn careful(sheet: &[u8], start: usize) -> Outcome<(u32, usize)> {
    let mut value = 0;
    for size in 0..4 {
        let Some(&byte) = sheet.get(start + size) else {
            return Err(Refusal(3, start as u64));
        };
        value |= u32::from(byte & 0x7F) << (7 * size);
        if byte < 0x80 {
            let shortest = size == 0 || byte != 0;
            let number = (value, start + size + 1);
            return shortest.then_some(number).ok_or(Refusal(2, start as u64));
        }
    }
    Err(Refusal(1, start as u64))
}

/// The words of a good table as numbers, at the front of the sheet; how many bytes.
pub fn encode(table: Table, sheet: &mut [u8]) -> Outcome<u64> {
    let count = table.len();
    // Only a sheet too short for the longest forms needs the exact length beforehand.
    if sheet.len() < 4 * count {
        let needed = table.words().map(size_of).sum::<usize>();
        if sheet.len() < needed {
            return Err(Refusal(12, needed as u64));
        }
    }
    let mut at = 0;
    for (i, value) in table.words().enumerate() {
        let (form, size) = form_of(value);
        if i + 3 < count {
            // SAFETY: all numbers fit, and three of a byte at least come after this one and write over what is too much.
            unsafe { sheet.as_mut_ptr().add(at).cast::<[u8; 4]>().write(form) };
        } else {
            sheet[at..at + size].copy_from_slice(&form[..size]);
        }
        at += size;
    }
    Ok(at as u64)
}

/// The count of bytes in a number's form: its bits by sevens.
fn size_of(value: u32) -> usize {
    SIZES[(value | 1).ilog2() as usize].into()
}

fn form_of(value: u32) -> ([u8; 4], usize) {
    let size = size_of(value);
    ((split(value) | FOLLOWS[size]).to_le_bytes(), size)
}
