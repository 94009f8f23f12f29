//! Both sides on the same input: equal results and equal buffers, to the last byte.

use crate::calls::{Call, Inputs, Outputs, CALLS};
use crate::plain::DECIDING_WORDS;
use crate::rooms::Chance;

/// Inputs damaged in one way each, of every room.
const DAMAGES: usize = 40;

/// A good room, in buffers long enough: accepted, and the plan frees some watts. What is planned keeps all limits, so that Judge
/// makes all its passes: it passes, or a tree is short.
pub fn good(given: &Inputs) {
    for (name, product, baseline) in CALLS {
        let out = both(name, product, baseline, given, Outputs::lent());
        assert_eq!(out.told().0, 0, "{name} refuses a good room");
        match name {
            "Judge" => assert!([0, 4].contains(&out.told().1), "{name} ends early"),
            _ => assert!(out.told().1 > 0, "{name} wrote or freed nothing"),
        }
    }
}

/// The room with a word, a byte or a length changed.
pub fn damaged(given: &Inputs, chance: &mut Chance) {
    for _ in 0..DAMAGES {
        let mut worse = given.clone();
        let mut out = Outputs::lent();
        match chance.below(8) {
            0 => damage_bytes(&mut worse.sheet, chance),
            1 | 2 => damage_word(&mut worse.table, chance),
            3 => damage_word(&mut worse.demands, chance),
            4 | 5 => damage_word(&mut worse.grants, chance),
            6 => shorten(&mut worse, chance),
            _ => out = short_outputs(chance),
        }
        for (name, product, baseline) in CALLS {
            both(name, product, baseline, &worse, out.clone());
        }
    }
}

pub fn both(name: &str, product: Call, baseline: Call, given: &Inputs, out: Outputs) -> Outputs {
    let (mut ours, mut theirs) = (out.clone(), out);
    let returned = product(given, &mut ours);
    assert_eq!(returned, baseline(given, &mut theirs), "{name} returns");
    assert!(ours == theirs, "{name}: buffers differ");
    ours
}

fn damage_bytes(bytes: &mut [u8], chance: &mut Chance) {
    let at = chance.below(bytes.len() as u32) as usize;
    bytes[at] = [0, 0x80, 0xFF, chance.below(256) as u8][chance.below(4) as usize];
}

/// A word made a little or very different.
fn damage_word(bytes: &mut [u8], chance: &mut Chance) {
    let at = 4 * chance.below(bytes.len() as u32 / 4) as usize;
    let word = u32::from_le_bytes(bytes[at..at + 4].try_into().unwrap());
    let new = match chance.below(6) {
        0 => word.wrapping_sub(1),
        1 => word.wrapping_add(1),
        2 => 0,
        3 => 16_777_215,
        4 => u32::MAX,
        _ => chance.below(2000),
    };
    bytes[at..at + 4].copy_from_slice(&new.to_le_bytes());
}

/// Lists that end early, or have words or bytes over.
fn shorten(given: &mut Inputs, chance: &mut Chance) {
    for list in [&mut given.sheet, &mut given.table, &mut given.demands, &mut given.grants] {
        let length = list.len() as u32;
        let new = [length + chance.below(9), chance.below(length), length - chance.below(9)];
        list.resize(new[chance.below(3) as usize] as usize, 1);
    }
}

fn short_outputs(chance: &mut Chance) -> Outputs {
    let answer = [14, 30][chance.below(2) as usize] + chance.below(4);
    let first = chance.below(4 * DECIDING_WORDS as u32) as usize;
    let caps = chance.below(2_100) as usize;
    let of_cords = [(); 2].map(|()| chance.below(4_200) as usize);
    Outputs::of_lengths(first, caps, of_cords, answer as usize)
}
