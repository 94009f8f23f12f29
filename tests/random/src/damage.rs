//! Damage to rooms, words and bytes, and pure noise.

use crate::dice::Dice;
use crate::rooms::{self, rating, Room, MOST};

/// A room, the words of its table and its demands: good, or with damage of one kind or several,
/// so that the order of the refusals shows too.
pub fn drawn(dice: &mut Dice) -> (Room, Vec<u32>, Vec<u32>) {
    let mut drawn = rooms::room(dice);
    let mut watts = rooms::demands(dice, &drawn);
    if dice.one_in(6) {
        room(dice, &mut drawn);
    }
    let mut table = drawn.words();
    while dice.one_in(8) {
        words(dice, &mut table);
    }
    while dice.one_in(8) {
        demands(dice, &mut watts);
    }
    (drawn, table, watts)
}

/// Breaks a rule that takes a figure in step with others: refusals 6, 7 and 9. Or gives a node a percent that is none, or the
/// table another version than its words have.
fn room(dice: &mut Dice, room: &mut Room) {
    if dice.one_in(8) {
        let which = dice.below(room.nodes.len());
        room.nodes[which].percent = dice.pick(&[0, 1, 79, 81, 90, 99, 101, MOST]);
        return;
    }
    if dice.one_in(16) {
        room.version = dice.pick(&[0, 1, 2, 3, 4]);
        return;
    }
    if dice.one_in(2) {
        return lower_ratings(dice, room);
    }
    if room.servers.is_empty() {
        return;
    }
    let whole = room.whole();
    let which = dice.below(room.servers.len());
    let server = &mut room.servers[which];
    if dice.one_in(2) {
        server.least = server.least.max(1);
        server.greatest = dice.pick(&[0, server.least - 1]);
    } else {
        let which = dice.below(server.cords.len());
        let share = &mut server.cords[which].share;
        let (less, more) = (share.saturating_sub(1), *share + 1);
        *share = dice.pick(&[less, more, 0, whole / 2, whole, 1_000]);
    }
}

/// Brings some nodes' limits to one below their lows.
fn lower_ratings(dice: &mut Dice, room: &mut Room) {
    let lows = room.lows_beneath();
    for _ in 0..1 + dice.below(3) {
        let which = dice.below(lows.len());
        if lows[which] > 0 {
            let node = &mut room.nodes[which];
            node.rating = rating(dice, lows[which] - 1, node.percent);
        }
    }
}

/// One damage to a list of words.
pub fn words(dice: &mut Dice, words: &mut Vec<u32>) {
    if words.is_empty() {
        return words.push(1);
    }
    let at = dice.below(words.len());
    match dice.below(8) {
        0 => words.truncate(at),
        1 => words.truncate(words.len() - 1),
        2 => words.extend((0..dice.within(1, 3)).map(|k| k % 2)),
        3 => words.insert(at, words[at]),
        4 => drop(words.remove(at)),
        5 => words[at] ^= 1 << dice.below(32),
        _ => {
            let (more, less) = (words[at].wrapping_add(1), words[at].wrapping_sub(1));
            let counts = [0, 1, 2, 4, 5, 16, 17, 512, 513];
            let figures = [1000, 1001, 10_000, 10_001, MOST, MOST + 1];
            let end = dice.pick(&[&counts[..], &figures].concat());
            words[at] = dice.pick(&[more, less, u32::MAX, end]);
        }
    }
}

/// One damage to a sheet.
pub fn bytes(dice: &mut Dice, bytes: &mut Vec<u8>) {
    if bytes.is_empty() {
        return bytes.push(0x80);
    }
    let at = dice.below(bytes.len());
    match dice.below(9) {
        0 => bytes[at] ^= 1 << dice.below(8),
        1 => bytes.truncate(at),
        2 => bytes.extend(dice.bytes(4).iter().take(1 + at % 4)),
        3 => bytes.extend([0x80, 0x80, 0x80].iter().take(1 + at % 3)),
        4 => drop(bytes.splice(at..at, [0x80 | at as u8; 4])),
        5 => bytes[at] |= 0x80,
        6 => drop(bytes.remove(at)),
        7 => bytes[at] = dice.roll() as u8,
        _ => {
            // A number made longer than it need be.
            if let Some(last) = (at..bytes.len()).find(|k| bytes[*k] < 0x80) {
                bytes[last] |= 0x80;
                bytes.insert(last + 1, 0);
            }
        }
    }
}

/// One damage to a good list of demands: refusals 10 and 11.
fn demands(dice: &mut Dice, demands: &mut Vec<u32>) {
    let at = dice.below(demands.len());
    match dice.below(6) {
        0 => drop(demands.pop()),
        1 => demands.push(dice.pick(&[0, MOST, MOST + 1])),
        2 => demands.truncate(at),
        _ if demands.is_empty() => (),
        _ => {
            demands[at] = dice.pick(&[MOST + 1, u32::MAX, 1 << 31]);
            let other = dice.below(demands.len());
            demands[other] = dice.pick(&[MOST, MOST + 1]);
        }
    }
}

/// Bytes that are no room: any, small, with many top bits, or none at all.
pub fn noise(dice: &mut Dice) -> Vec<u8> {
    let most = if dice.one_in(100) { 30_000 } else { 64 };
    let count = dice.below(most);
    let mut bytes = dice.bytes(count);
    let style = dice.below(5);
    for (k, byte) in bytes.iter_mut().enumerate() {
        match style {
            0 => *byte |= (*byte & 8) << 4,
            1 => *byte %= 4,
            2 => *byte = if k % 4 == 0 { *byte % 3 } else { 0 },
            _ => (),
        }
    }
    bytes.truncate(if style == 4 { 0 } else { count });
    bytes
}
