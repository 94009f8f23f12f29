//! Figures of the DC cap loop: plain ones, those at the ends of their ranges, special floats and any
//! bits at all.

use crate::dice::Dice;

/// The greatest watts of a budget, a measurement or a cap.
pub const MOST: f64 = 16_777_215.0;

/// Zeros of both signs, subnormals, the ends of the ranges and their neighbours, infinities, NaNs.
const SPECIAL: [u64; 16] = [
    0,
    1 << 63,
    1,
    (1 << 63) | 1,
    (1 << 52) - 1,
    1 << 52,
    0x3FF0_0000_0000_0000,
    0x3FF0_0000_0000_0001,
    0x416F_FFFF_E000_0000,
    0x416F_FFFF_E000_0001,
    0x4170_0000_0000_0000,
    0x7FEF_FFFF_FFFF_FFFF,
    0x7FF0_0000_0000_0000,
    0xFFF0_0000_0000_0000,
    0x7FF8_0000_0000_0001,
    0xFFF0_0000_0000_0123,
];

/// Zeros tell by their sign which of equal errors was taken.
fn zero(dice: &mut Dice) -> f64 {
    dice.pick(&[0.0, -0.0])
}

/// From 0 to 1.
fn part(dice: &mut Dice) -> f64 {
    dice.roll() as f64 / u64::MAX as f64
}

pub fn special(dice: &mut Dice) -> f64 {
    f64::from_bits(dice.pick(&SPECIAL))
}

/// Watts in their range: whole ones, any between, or zeros and subnormals.
pub fn watts(dice: &mut Dice) -> f64 {
    match dice.below(8) {
        0 => f64::from_bits(dice.pick(&[0, 1 << 63, 1, 2, 3, (1 << 52) - 1])),
        1 => dice.within(0, 3).into(),
        2 => dice.within(0, 16_777_215).into(),
        3 => part(dice) * MOST,
        4 => MOST,
        _ => part(dice) * 1000.0,
    }
}

/// Watts in their range, but one in so many is any float.
pub fn mostly_watts(dice: &mut Dice, one_in: usize) -> f64 {
    match dice.one_in(one_in) {
        true if dice.one_in(3) => f64::from_bits(dice.roll()),
        true => special(dice),
        false => watts(dice),
    }
}

/// The cap, k, low and high of a controller: good, but one in so many has some figure that is any float.
pub fn controller(dice: &mut Dice, one_in: usize) -> [f64; 4] {
    let mut range = [watts(dice), watts(dice), watts(dice)];
    range.sort_by(f64::total_cmp);
    if dice.one_in(6) {
        range[dice.below(3)] = range[1];
    }
    if dice.one_in(8) {
        (range[0], range[1]) = (zero(dice), zero(dice));
    }
    let [low, cap, high] = range;
    let k = match dice.below(6) {
        0 => 1.0,
        1 => f64::from_bits(dice.pick(&[1, 0x10_0000_0000_0000])),
        _ => part(dice).max(f64::MIN_POSITIVE),
    };
    let mut controller = [cap, k, low, high];
    if dice.one_in(one_in) {
        controller[dice.below(4)] = match dice.one_in(2) {
            true => special(dice),
            false => f64::from_bits(dice.roll()),
        };
    }
    controller
}

/// Budgets and measured watts of some cords: zeros, equal, close or far apart; one figure in so many is
/// any float.
pub fn cords(dice: &mut Dice, count: usize, one_in: usize) -> (Vec<f64>, Vec<f64>) {
    let kind = dice.below(4);
    let pair = |dice: &mut Dice| {
        if kind == 3 {
            return (zero(dice), zero(dice));
        }
        let budget = mostly_watts(dice, one_in);
        let measured = match kind {
            0 => budget,
            1 => budget * part(dice),
            _ => mostly_watts(dice, one_in),
        };
        (budget, measured)
    };
    (0..count).map(|_| pair(dice)).unzip()
}

/// The marks of some cords: 0 for one that failed, any other byte for one that works.
pub fn marks(dice: &mut Dice, count: usize) -> Vec<u8> {
    let failed = dice.below(5);
    let mark = |dice: &mut Dice| match dice.below(4) < failed {
        true => 0,
        false => dice.pick(&[1, 1, 2, 128, 255]),
    };
    (0..count).map(|_| mark(dice)).collect()
}

pub fn bytes_of(figures: &[f64]) -> Vec<u8> {
    figures.iter().flat_map(|x| x.to_le_bytes()).collect()
}

pub fn figures_of(bytes: &[u8]) -> Vec<f64> {
    let eight = |bytes: &[u8]| f64::from_le_bytes(bytes.try_into().expect("eight bytes"));
    bytes.chunks_exact(8).map(eight).collect()
}
