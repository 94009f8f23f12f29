//! The archive's pass over every controller against the reference and against the archive's own single
//! steps, on random figures, bit for bit.

use random::arguments::{option, usage};
use random::dice::Dice;
use random::figures::{bytes_of, controller, cords, figures_of, marks};
use random::guard::{Ground, Place};
use random::steps::{step, step_all};
use std::env;
use std::process::exit;
use std::slice::{from_raw_parts, from_raw_parts_mut};

const HELP: &str = "\
random_passes: the archive's pass of the DC cap loop against the reference, on random figures

  random_passes [--calls N] [--seed S]

Every bit of every figure and every byte of every buffer is compared after each call, and buffers
lie beside forbidden pages; and each controller of an accepted pass with what the archive's single
step makes of it. The first difference is printed and stops the run. It fails too if some outcome
was never met. Exit status: 0 if all was the same, 1 if not, 2 for a wrong command.";

const CALLS: u64 = 40_000;

/// The buffers of a call, as bytes: controllers, marks, budgets, measured watts, results, answer.
type Buffers = [Vec<u8>; 6];

/// What a pass gives: what is returned, every buffer, and whether none was overrun.
type Outcome = (u32, Buffers, bool);

fn case(dice: &mut Dice) -> Buffers {
    let count = match dice.below(20) {
        0 => 510 + dice.below(5),
        1 => dice.below(512),
        _ => dice.below(12),
    };
    let mut controllers: Vec<f64> = (0..count).flat_map(|_| controller(dice, 5)).collect();
    controllers.extend((0..dice.pick(&[0, 0, 0, 1, 2, 3])).map(|_| f64::NAN));
    let one_in = dice.pick(&[10, 50, 100_000]);
    let (mut budgets, mut measured) = (Vec::new(), Vec::new());
    for _ in 0..count {
        let (b, m) = cords(dice, 4, one_in);
        budgets.extend(b);
        measured.extend(m);
    }
    let mut working: Vec<u8> = (0..count).flat_map(|_| marks(dice, 4)).collect();
    let mut results = dice.bytes(count);
    if dice.one_in(4) {
        let longer = dice.one_in(2);
        let by = 1 + dice.below(4);
        let to = |length: usize| match longer {
            true => length + by,
            false => length.saturating_sub(by),
        };
        match dice.below(4) {
            0 => working.resize(to(working.len()), 1),
            1 => budgets.resize(to(budgets.len()), 0.0),
            2 => measured.resize(to(measured.len()), 0.0),
            _ => results.resize(to(results.len()), 0xEE),
        }
    }
    let answer = match dice.one_in(20) {
        true => dice.below(16),
        false => 16 + dice.below(9),
    };
    [
        bytes_of(&controllers),
        working,
        bytes_of(&budgets),
        bytes_of(&measured),
        results,
        dice.bytes(answer),
    ]
}

fn archive(case: &Buffers, places: [Place; 6], grounds: &mut [Ground; 6]) -> Outcome {
    let at: Vec<*mut u8> = (0..6)
        .map(|i| grounds[i].lend(places[i], &case[i]))
        .collect();
    // SAFETY: the lent buffers have these lengths, doubles are aligned, and they lie apart.
    let returned = unsafe {
        step_all(
            from_raw_parts_mut(at[0].cast(), case[0].len() / 8),
            from_raw_parts(at[1], case[1].len()),
            from_raw_parts(at[2].cast(), case[2].len() / 8),
            from_raw_parts(at[3].cast(), case[3].len() / 8),
            from_raw_parts_mut(at[4], case[4].len()),
            from_raw_parts_mut(at[5], case[5].len()),
        )
    };
    let mut whole = true;
    let after = [0, 1, 2, 3, 4, 5].map(|i| {
        let (bytes, marks) = grounds[i].take_back(places[i], case[i].len());
        whole &= marks;
        bytes
    });
    (returned, after, whole)
}

fn reference(case: &Buffers) -> Outcome {
    let mut after = case.clone();
    let mut controllers = figures_of(&case[0]);
    let [_, _, _, _, results, answer] = &mut after;
    let returned = reference::call::step_all(
        &mut controllers,
        &case[1],
        &figures_of(&case[2]),
        &figures_of(&case[3]),
        results,
        answer,
    );
    after[0] = bytes_of(&controllers);
    (returned, after, true)
}

/// The same pass, by the archive's single steps: the controllers and the results of an accepted one.
fn singly(case: &Buffers) -> (Vec<u8>, Vec<u8>) {
    let mut controllers = figures_of(&case[0]);
    let (budgets, measured) = (figures_of(&case[2]), figures_of(&case[3]));
    let mut results = Vec::new();
    for i in 0..controllers.len() / 4 {
        let four = 4 * i..4 * i + 4;
        let mut answer = [0; 16];
        step(
            (&mut controllers[four.clone()]).try_into().expect("four"),
            case[1][four.clone()].try_into().expect("four"),
            budgets[four.clone()].try_into().expect("four"),
            measured[four].try_into().expect("four"),
            &mut answer,
        );
        results.push(answer[0]);
    }
    (bytes_of(&controllers), results)
}

/// How often a pass was left without an answer, refused, refused for its count, accepted with all
/// controllers stepped, and with some refused.
#[derive(Default)]
struct Met([u64; 5]);

const KINDS: [&str; 5] = [
    "no answer",
    "refused for a list",
    "refused for more than 512 controllers",
    "all stepped",
    "some refused",
];

impl Met {
    fn count(&mut self, returned: u32, after: &Buffers) {
        let count = after[0].len() / 32;
        let kind = match returned {
            0 => 0,
            _ if after[5][0] == 18 && count <= 512 => 1,
            _ if after[5][0] == 18 => 2,
            _ if after[4].iter().all(|number| *number == 0) => 3,
            _ => 4,
        };
        self.0[kind] += 1;
    }

    fn print(&self) {
        for (kind, count) in KINDS.iter().zip(self.0) {
            println!("  {kind}: {count}");
        }
    }
}

fn different(case: &Buffers, archive: &Outcome, other: &str) -> ! {
    println!("a difference from {other} on {case:02X?}:\n  archive {archive:02X?}");
    exit(1)
}

fn main() {
    let arguments: Vec<String> = env::args().skip(1).collect();
    let number = |name| option(&arguments, name, HELP);
    let (calls, seed) = (number("--calls"), number("--seed"));
    if arguments.len() != 2 * (usize::from(calls.is_some()) + usize::from(seed.is_some())) {
        usage("what to do?", HELP);
    }
    let (mut dice, mut grounds) = (Dice(seed.unwrap_or(7)), Default::default());
    let mut met = Met::default();
    let calls = calls.unwrap_or(CALLS);
    for _ in 0..calls {
        let case = case(&mut dice);
        let places = [8, 1, 8, 8, 1, 1].map(|align| {
            let gap = align * dice.below(8);
            match dice.one_in(2) {
                true => Place::Front(gap),
                false => Place::Back(gap),
            }
        });
        let outcome = archive(&case, places, &mut grounds);
        if outcome != reference(&case) {
            different(&case, &outcome, "the reference");
        }
        let accepted = outcome.0 == 1 && outcome.1[5][0] == 0;
        if accepted && singly(&case) != (outcome.1[0].clone(), outcome.1[4].clone()) {
            different(&case, &outcome, "single steps");
        }
        met.count(outcome.0, &outcome.1);
    }
    println!(
        "{calls} passes of the DC cap loop are the reference's and the single steps', bit for bit"
    );
    met.print();
    if met.0.contains(&0) {
        println!("some kind was never met");
        exit(1);
    }
}
