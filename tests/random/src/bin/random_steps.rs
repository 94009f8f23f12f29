//! The archive's C calls of the DC cap loop against the reference, on random figures, bit for bit.

use random::arguments::{option, usage};
use random::dice::Dice;
use random::figures::{bytes_of, controller, cords, figures_of, marks};
use random::guard::{Ground, Place};
use random::steps::step;
use std::env;
use std::process::exit;
use std::slice::from_raw_parts_mut;

const HELP: &str = "\
random_steps: the archive's steps of the DC cap loop against the reference, on random figures

  random_steps [--calls N] [--seed S]

Every bit of every figure and every byte of every buffer is compared after each call, and buffers
lie beside forbidden pages. The first difference is printed and stops the run. It fails too if a
refusal, with each cord for its place, or an acceptance of some kind was never met. Exit status: 0
if all was the same, 1 if not, 2 for a wrong command.";

const CALLS: u64 = 2_000_000;

/// The buffers of a call, as bytes: controller, marks, budgets, measured watts, answer.
type Buffers = [Vec<u8>; 5];

fn case(dice: &mut Dice) -> Buffers {
    let controller = controller(dice, 6);
    let one_in = dice.pick(&[4, 20, 100_000]);
    let (budgets, measured) = cords(dice, 4, one_in);
    let answer = match dice.one_in(20) {
        true => dice.below(16),
        false => 16 + dice.below(9),
    };
    [
        bytes_of(&controller),
        marks(dice, 4),
        bytes_of(&budgets),
        bytes_of(&measured),
        dice.bytes(answer),
    ]
}

/// What the archive returns, every buffer after the call, and whether it wrote outside of them.
fn archive(case: &Buffers, places: [Place; 5], grounds: &mut [Ground; 5]) -> (u32, Buffers, bool) {
    let at: Vec<*mut u8> = (0..5)
        .map(|i| grounds[i].lend(places[i], &case[i]))
        .collect();
    // SAFETY: the lent buffers have these lengths, doubles are aligned, and they lie apart.
    let returned = unsafe {
        step(
            &mut *at[0].cast(),
            &*at[1].cast(),
            &*at[2].cast(),
            &*at[3].cast(),
            from_raw_parts_mut(at[4], case[4].len()),
        )
    };
    let mut whole = true;
    let after = [0, 1, 2, 3, 4].map(|i| {
        let (bytes, marks) = grounds[i].take_back(places[i], case[i].len());
        whole &= marks;
        bytes
    });
    (returned, after, whole)
}

fn four(bytes: &[u8]) -> [f64; 4] {
    figures_of(bytes).try_into().expect("four figures")
}

fn reference(case: &Buffers) -> (u32, Buffers, bool) {
    let mut after = case.clone();
    let mut controller = four(&case[0]);
    let working = case[1].clone().try_into().expect("four marks");
    let returned = reference::call::step(
        &mut controller,
        &working,
        &four(&case[2]),
        &four(&case[3]),
        &mut after[4],
    );
    after[0] = bytes_of(&controller);
    (returned, after, true)
}

/// What a run has met; each kind must be met at least once.
#[derive(Default)]
struct Met([u64; 12]);

const KINDS: [&str; 12] = [
    "no answer",
    "refused 16",
    "refused 17 at 0",
    "refused 17 at 1",
    "refused 17 at 2",
    "refused 17 at 3",
    "no working cord",
    "cap cut to low",
    "cap cut to high",
    "cap kept",
    "zero of another sign",
    "cap moved",
];

impl Met {
    fn count(&mut self, case: &Buffers, returned: u32, after: &Buffers) {
        let answer = |at: usize| after[4][at];
        let ([before, _, low, high], [now, ..]) = (four(&case[0]), four(&after[0]));
        let kind = match returned {
            0 => 0,
            _ if answer(0) == 16 => 1,
            _ if answer(0) == 17 => 2 + usize::from(answer(8)),
            _ if case[1] == [0; 4] => 6,
            _ if now.to_bits() == before.to_bits() => 9,
            _ if now == before => 10,
            _ if now == low => 7,
            _ if now == high => 8,
            _ => 11,
        };
        self.0[kind] += 1;
    }

    fn print(&self) {
        for (kind, count) in KINDS.iter().zip(self.0) {
            println!("  {kind}: {count}");
        }
    }
}

fn main() {
    let arguments: Vec<String> = env::args().skip(1).collect();
    let number = |name| option(&arguments, name, HELP);
    let (calls, seed) = (number("--calls"), number("--seed"));
    if arguments.len() != 2 * (usize::from(calls.is_some()) + usize::from(seed.is_some())) {
        usage("what to do?", HELP);
    }
    let (mut dice, mut grounds) = (Dice(seed.unwrap_or(6)), Default::default());
    let mut met = Met::default();
    let calls = calls.unwrap_or(CALLS);
    for _ in 0..calls {
        let case = case(&mut dice);
        let places = [8, 1, 8, 8, 1].map(|align| {
            let gap = align * dice.below(8);
            match dice.one_in(2) {
                true => Place::Front(gap),
                false => Place::Back(gap),
            }
        });
        let (archive, reference) = (archive(&case, places, &mut grounds), reference(&case));
        if archive != reference {
            println!("a difference on {case:02X?}:");
            println!("  controller {:?}", four(&case[0]));
            println!("  budgets {:?}", four(&case[2]));
            println!("  measured {:?}", four(&case[3]));
            println!("  archive {archive:02X?}\n  reference {reference:02X?}");
            exit(1);
        }
        met.count(&case, archive.0, &archive.1);
    }
    println!("{calls} steps of the DC cap loop are the reference's, bit for bit");
    met.print();
    if met.0.contains(&0) {
        println!("some kind was never met");
        exit(1);
    }
}
