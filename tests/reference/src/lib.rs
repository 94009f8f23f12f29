//! Documents 01 and 02 worked a second time, for comparing answers. Read, write, plan, the C calls
//! and the print of document 01 are by someone who had seen no other program for them. Requests of
//! document 02 have modules of their own, which say how they were made.
//!
//! The room is built as trees of owned nodes and every figure is a wide integer, so that nothing
//! here shares a shape, or a mistake, with a program that scans its table.

pub mod call;
pub mod control;
pub mod deal;
pub mod headroom;
pub mod held;
pub mod join;
pub mod judge;
pub mod number;
pub mod part;
pub mod plan;
mod program;
pub mod room;
pub mod schedule;
pub mod send;
pub mod table;

pub use program::print;

use room::Room;

/// Watts, thousandths and all that is computed from them.
pub type Watts = i128;

/// A refusal: document 01's number and place.
#[derive(Clone, Copy, Debug, PartialEq, Eq)]
pub struct Refusal {
    pub number: u64,
    pub place: u64,
}

impl Refusal {
    pub(crate) fn new(number: u64, place: usize) -> Refusal {
        Refusal {
            number,
            place: place as u64,
        }
    }
}

/// What Plan answers when it accepts.
#[derive(Clone, Debug, PartialEq, Eq)]
pub struct Plan {
    pub freed: u64,
    pub grants: Vec<u32>,
    pub caps: Vec<u32>,
    pub headroom: Vec<u32>,
    /// Node numbers, or 0.
    pub held: Vec<u32>,
}

/// Read, with room for so many words: the table's words.
pub fn read(sheet: &[u8], room: usize) -> Result<Vec<u32>, Refusal> {
    let words = number::words(sheet)?;
    Room::of_words(&words)?;
    fits(12, words.len(), room)?;
    Ok(words)
}

/// Write, with room for so many bytes: the sheet's bytes.
pub fn write(table: &[u32], room: usize) -> Result<Vec<u8>, Refusal> {
    Room::of_words(table)?;
    let bytes = number::bytes(table);
    fits(12, bytes.len(), room)?;
    Ok(bytes)
}

/// Plan, with space for so many grants, caps, figures of headroom and nodes that hold a cord.
pub fn plan(table: &[u32], demands: &[u32], spaces: [usize; 4]) -> Result<Plan, Refusal> {
    let room = Room::of_words(table)?;
    plan::check_demands(&room, demands)?;
    let [grants, caps, headroom, held] = spaces;
    fits(12, room.cords.len(), grants)?;
    fits(13, room.servers.len(), caps)?;
    fits(14, room.cords.len(), headroom)?;
    fits(15, room.cords.len(), held)?;
    Ok(plan::deals(&room, demands).answer())
}

fn fits(number: u64, needed: usize, room: usize) -> Result<(), Refusal> {
    if needed > room {
        return Err(Refusal::new(number, needed));
    }
    Ok(())
}
