//! Random calls: good and damaged input, and output lists that suffice or don't.

use crate::calls::{Buffer, Call, Case, CALLS};
use crate::damage;
use crate::dice::Dice;
use crate::guard::Place;
use crate::rooms::{self, Room};

pub fn case(dice: &mut Dice) -> Case {
    let call = dice.pick(&CALLS);
    let (room, words, demands) = damage::drawn(dice);
    let mut buffers = match call {
        Call::Read => read(dice, &words),
        Call::Write => write(dice, &words),
        Call::Plan => plan(dice, &room, &words, &demands),
    };
    if dice.one_in(25) {
        buffers[0] = damage::noise(dice);
    }
    buffers.push(answer(dice));
    let buffers = buffers.into_iter().map(|bytes| placed(dice, bytes));
    let buffers = buffers.collect();
    Case { call, buffers }
}

fn read(dice: &mut Dice, words: &[u32]) -> Vec<Vec<u8>> {
    let mut sheet = rooms::sheet(words);
    while dice.one_in(6) {
        damage::bytes(dice, &mut sheet);
    }
    vec![sheet, output(dice, 4 * words.len())]
}

fn write(dice: &mut Dice, words: &[u32]) -> Vec<Vec<u8>> {
    let needed = rooms::sheet(words).len();
    vec![list(dice, words), output(dice, needed)]
}

fn plan(dice: &mut Dice, room: &Room, words: &[u32], demands: &[u32]) -> Vec<Vec<u8>> {
    let (table, demands) = (list(dice, words), list(dice, demands));
    let grants = output(dice, 4 * room.cord_count());
    let caps = output(dice, 4 * room.servers.len());
    let headroom = output(dice, 4 * room.cord_count());
    let held = output(dice, 4 * room.cord_count());
    vec![table, demands, grants, caps, headroom, held]
}

/// Words as bytes, often with one to three bytes over.
fn list(dice: &mut Dice, words: &[u32]) -> Vec<u8> {
    let mut bytes: Vec<u8> = words.iter().flat_map(|word| word.to_le_bytes()).collect();
    let over = dice.below(8).saturating_sub(4);
    bytes.extend(dice.bytes(over));
    bytes
}

/// Random bytes, as many as needed, some more, or (now and then) fewer.
fn output(dice: &mut Dice, needed: usize) -> Vec<u8> {
    let len = match dice.below(20) {
        0 => dice.below(needed),
        1 => needed.saturating_sub(1 + dice.below(4)),
        2..8 => needed,
        8..13 => needed + 1 + dice.below(3),
        _ => needed + dice.below(40),
    };
    dice.bytes(len)
}

fn answer(dice: &mut Dice) -> Vec<u8> {
    let len = match dice.below(16) {
        0 => dice.below(16),
        1..5 => 16 + dice.below(25),
        _ => 16,
    };
    dice.bytes(len)
}

/// A buffer at one of the two pages, now and then some bytes off for another alignment.
fn placed(dice: &mut Dice, bytes: Vec<u8>) -> Buffer {
    let gap = if dice.one_in(4) { dice.below(16) } else { 0 };
    let place = match dice.below(4) {
        0 if bytes.is_empty() => Place::Null,
        0 | 1 => Place::Front(gap),
        _ => Place::Back(gap),
    };
    Buffer { place, bytes }
}
