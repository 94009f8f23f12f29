//! Join and Part beside plain Rust: equal answers, then times on two huts of half size that make one of full size.

use crate::calls::{Inputs, Outputs};
use crate::compare::both;
use crate::plain;
use crate::rooms::{room, Chance, Kind, Shape};
use crate::times_into;

#[rustfmt::skip] // As in calls.rs.
extern "C" {
    fn hutplan_join(
        first: *const u8, first_len: usize, second: *const u8, second_len: usize,
        table: *mut u8, table_len: usize, answer: *mut u8, answer_len: usize,
    ) -> u32;
    fn hutplan_part(
        table: *const u8, table_len: usize, nodes: u64, servers: u64,
        first: *mut u8, first_len: usize, second: *mut u8, second_len: usize, answer: *mut u8, answer_len: usize,
    ) -> u32;
}

/// A hut of half size. In what a call takes, the second table of Join stands where the sheet of a room does.
const HALF: Kind = Kind { shape: Shape::Binary, nodes: 256, cords: 512, ranks: 16, watts: 1 };

const HUTS: usize = 8;

/// The nodes and servers of the first hut.
const CUT: [u64; 2] = [256, 256];

#[rustfmt::skip] // As in calls.rs.
fn product_join(given: &Inputs, out: &mut Outputs) -> u32 {
    // SAFETY: each pointer goes with its own vector's length, and the vectors lie apart; so below.
    unsafe {
        hutplan_join(
            given.table.as_ptr(), given.table.len(), given.sheet.as_ptr(), given.sheet.len(),
            out.first.as_mut_ptr(), out.first.len(), out.answer.as_mut_ptr(), out.answer.len(),
        )
    }
}

fn plain_join(given: &Inputs, out: &mut Outputs) -> u32 {
    plain::join(&given.table, &given.sheet, &mut out.first, &mut out.answer)
}

#[rustfmt::skip] // As in calls.rs.
fn product_part(given: &Inputs, out: &mut Outputs) -> u32 {
    // SAFETY: as for Join.
    unsafe {
        hutplan_part(
            given.table.as_ptr(), given.table.len(), CUT[0], CUT[1],
            out.first.as_mut_ptr(), out.first.len(), out.caps.as_mut_ptr(), out.caps.len(),
            out.answer.as_mut_ptr(), out.answer.len(),
        )
    }
}

fn plain_part(given: &Inputs, out: &mut Outputs) -> u32 {
    plain::part(&given.table, std::hint::black_box(CUT), &mut out.first, &mut out.caps, &mut out.answer)
}

/// Two lists, each with space for any table.
fn lent() -> Outputs {
    Outputs::of_lengths(4 * plain::DECIDING_WORDS, 4 * plain::DECIDING_WORDS, [0; 2], 24)
}

pub fn huts() {
    let mut chance = Chance(0x9E37_79B9_7F4A_7C15);
    let mut halves = Vec::new();
    let mut wholes = Vec::new();
    for i in 0..HUTS {
        let version = 1 + i as u32 % 3;
        let [first, second] = [(); 2].map(|_| room(HALF, version, &mut chance).table);
        let pair = Inputs { table: first.clone(), sheet: second.clone(), ..Inputs::default() };
        let out = both("Join", product_join, plain_join, &pair, lent());
        assert_eq!(out.told().0, 0, "Join refuses two good huts");
        let whole = Inputs { table: out.first[..4 * out.told().1 as usize].to_vec(), ..Inputs::default() };
        let out = both("Part", product_part, plain_part, &whole, lent());
        assert_eq!(out.told(), (0, first.len() as u64 / 4), "Part gives another first hut");
        assert!(out.first.starts_with(&first) && out.caps.starts_with(&second), "Part gives other huts");
        halves.push(pair);
        wholes.push(whole);
    }
    println!("Two huts of half size, one of full size  product  baseline     ratio");
    for (name, product, baseline, huts) in
        [("Join", product_join as _, plain_join as _, &halves), ("Part", product_part as _, plain_part as _, &wholes)]
    {
        let (ours, theirs) = times_into(&mut lent(), product, baseline, huts);
        println!("{name:36} {ours:11.2} {theirs:9.2} {:9.2}", ours / theirs);
    }
    println!();
}

/// Two huts, joined and parted once. (The making of a room calls Write.)
pub fn once() {
    let mut chance = Chance(0x9E37_79B9_7F4A_7C15);
    let [first, second] = ["first", "second"].map(|name| {
        println!("Write, the {name} hut of half size");
        room(HALF, 3, &mut chance).table
    });
    println!("Join, two huts of half size");
    let mut out = lent();
    product_join(&Inputs { table: first, sheet: second, ..Inputs::default() }, &mut out);
    assert_eq!(out.told().0, 0, "Join refuses two good huts");
    println!("Part, the hut of both");
    let table = out.first[..4 * out.told().1 as usize].to_vec();
    product_part(&Inputs { table, ..Inputs::default() }, &mut out);
    assert_eq!(out.told().0, 0, "Part refuses a good hut");
}
