//! The baseline: Read, Write and Plan of document 01 with the requests of document 02, Join, Judge and Part of its A.8 to A.10 and the
//! pass of its A.7, in plain Rust, over what a C caller lends.

mod deal;
mod join;
mod judge;
mod list;
mod number;
mod plan;
mod steps;
mod table;

pub use join::{join, part};
pub use judge::judge;
pub use plan::{plan, Lists};
pub use steps::step_all;

use table::Table;

pub const MOST_WATTS: u32 = 16_777_215;
pub const MOST_NODES: usize = 512;
pub const MOST_SERVERS: usize = 512;
pub const MOST_CORDS: usize = 1024;

/// A table has at most three words a node, four a server, two a cord and three beside; one word more decides every check.
pub const DECIDING_WORDS: usize = 3 + 3 * MOST_NODES + 4 * MOST_SERVERS + 2 * MOST_CORDS + 1;

/// A refusal's number and place.
pub struct Refusal(pub u64, pub u64);

pub type Outcome<T> = Result<T, Refusal>;

/// Read: the words of the sheet, at the front of the table.
pub fn read(sheet: &[u8], table: &mut [u8], answer: &mut [u8]) -> u32 {
    tell(answer, || read_words(sheet, table))
}

/// Write: the words of the table as numbers, at the front of the sheet.
pub fn write(table: &[u8], sheet: &mut [u8], answer: &mut [u8]) -> u32 {
    tell(answer, || {
        let words = Table(table);
        words.check()?;
        number::encode(words, sheet)
    })
}

fn read_words(sheet: &[u8], table: &mut [u8]) -> Outcome<u64> {
    let mut words = [[0; 4]; DECIDING_WORDS];
    let count = number::decode(sheet, &mut words)?;
    let bytes = words[..count.min(DECIDING_WORDS)].as_flattened();
    Table(bytes).check()?;
    if table.len() / 4 < count {
        return Err(Refusal(12, count as u64));
    }
    table[..bytes.len()].copy_from_slice(bytes);
    Ok(count as u64)
}

/// Runs an operation and puts its answer into the buffer; without room for that, nothing is run.
fn tell(answer: &mut [u8], operation: impl FnOnce() -> Outcome<u64>) -> u32 {
    let Some(front) = answer.first_chunk_mut::<16>() else {
        return 0;
    };
    let (number, figure) = match operation() {
        Ok(figure) => (0, figure),
        Err(Refusal(number, place)) => (number, place),
    };
    front[..8].copy_from_slice(&u64::to_le_bytes(number));
    front[8..].copy_from_slice(&u64::to_le_bytes(figure));
    1
}
