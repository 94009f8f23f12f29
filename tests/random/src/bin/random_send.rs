//! The archive's call of Send against the reference, on random and extreme input.

use random::arguments::{option, usage};
use random::dice::Dice;
use random::guard::{Ground, Place};
use std::env;
use std::fmt;
use std::process::exit;

const HELP: &str = "\
random_send: the archive's call of Send against the reference, on random input

  random_send [--calls N] [--seed S]

Every byte of both buffers is compared after each call, and they lie beside forbidden pages.
The first difference stops the run and is printed. It fails too if some refusal was never met.
Exit status: 0 if all was the same, 1 if not, 2 for a wrong command.";

const CALLS: u64 = 300_000;
const SEED: u64 = 1;

extern "C" {
    fn hutplan_send(
        count: u64,
        position: u64,
        m: u64,
        list: *mut u8,
        list_len: usize,
        answer: *mut u8,
        answer_len: usize,
    ) -> u32;
}

/// The numbers of a call, and its buffers with the places where they lie.
struct Case {
    count: u64,
    position: u64,
    m: u64,
    list: (Place, Vec<u8>),
    answer: (Place, Vec<u8>),
}

/// All that a call gives.
#[derive(PartialEq)]
struct Outcome {
    returned: u32,
    list: Vec<u8>,
    answer: Vec<u8>,
    strayed: bool,
}

impl fmt::Display for Case {
    fn fmt(&self, out: &mut fmt::Formatter) -> fmt::Result {
        writeln!(
            out,
            "count {} position {} m {}",
            self.count, self.position, self.m
        )?;
        writeln!(
            out,
            "list {:02X?}\nanswer {:02X?}",
            self.list.1, self.answer.1
        )
    }
}

impl fmt::Display for Outcome {
    fn fmt(&self, out: &mut fmt::Formatter) -> fmt::Result {
        let strayed = if self.strayed { ", wrote outside" } else { "" };
        writeln!(out, "returned {}{strayed}", self.returned)?;
        writeln!(out, "list {:02X?}\nanswer {:02X?}", self.list, self.answer)
    }
}

/// A number about those that decide, or any number at all.
fn number(dice: &mut Dice) -> u64 {
    match dice.below(8) {
        0 => dice.roll() >> dice.below(64),
        1 => u64::MAX - dice.below(3) as u64,
        2 => 509 + dice.below(8) as u64,
        3 => dice.below(4) as u64,
        _ => dice.below(600) as u64,
    }
}

fn place(dice: &mut Dice) -> Place {
    match dice.below(3) {
        0 => Place::Front(dice.below(9)),
        1 => Place::Back(dice.below(9)),
        _ => Place::Null,
    }
}

/// A call that follows on a position, or stands by itself.
fn case(dice: &mut Dice, before: Option<&Case>, position: u64) -> Case {
    let (count, position, m) = match before {
        Some(before) if !dice.one_in(6) => (before.count, position, before.m),
        _ => {
            let count = number(dice);
            let below = if count == 0 { 0 } else { dice.roll() % count };
            let position = if dice.one_in(8) { number(dice) } else { below };
            (count, position, number(dice))
        }
    };
    let needed = 4 * m.min(count).min(512) as usize;
    let list = match dice.below(4) {
        0 => dice.below(2100),
        1 => needed,
        _ => (needed + dice.below(24)).saturating_sub(8),
    };
    let answer = if dice.one_in(8) {
        dice.below(24)
    } else {
        24 + dice.below(12)
    };
    Case {
        count,
        position,
        m,
        list: (place(dice), dice.bytes(list)),
        answer: (place(dice), dice.bytes(answer)),
    }
}

/// Runs the archive on copies of the buffers.
fn archive(case: &Case, grounds: &mut [Ground; 2]) -> Outcome {
    let (list, answer) = (&case.list, &case.answer);
    let list_at = grounds[0].lend(list.0, &list.1);
    let answer_at = grounds[1].lend(answer.0, &answer.1);
    // SAFETY: the lent buffers have these lengths and lie apart.
    let returned = unsafe {
        hutplan_send(
            case.count,
            case.position,
            case.m,
            list_at,
            list.1.len(),
            answer_at,
            answer.1.len(),
        )
    };
    let (list, list_whole) = grounds[0].take_back(list.0, list.1.len());
    let (answer, answer_whole) = grounds[1].take_back(answer.0, answer.1.len());
    Outcome {
        returned,
        list,
        answer,
        strayed: !(list_whole && answer_whole),
    }
}

/// Runs the reference on copies of the buffers.
fn reference(case: &Case) -> Outcome {
    let (mut list, mut answer) = (case.list.1.clone(), case.answer.1.clone());
    let returned = reference::call::send(case.count, case.position, case.m, &mut list, &mut answer);
    Outcome {
        returned,
        list,
        answer,
        strayed: false,
    }
}

fn number_at(bytes: &[u8], at: usize) -> u64 {
    let mut eight = [0; 8];
    eight.copy_from_slice(&bytes[at..at + 8]);
    u64::from_le_bytes(eight)
}

fn main() {
    let arguments: Vec<String> = env::args().skip(1).collect();
    if arguments.iter().any(|argument| argument == "--help") {
        println!("{HELP}");
        return;
    }
    let known = |name: &str| ["--calls", "--seed"].contains(&name);
    if arguments.len() % 2 != 0 || !arguments.iter().step_by(2).all(|name| known(name)) {
        usage("what to do?", HELP);
    }
    let calls = option(&arguments, "--calls", HELP).unwrap_or(CALLS);
    let mut dice = Dice(option(&arguments, "--seed", HELP).unwrap_or(SEED));
    let mut grounds = Default::default();
    // How often it was accepted, refused by 12, 27 and 28, and left without an answer.
    let mut met = [0_u64; 5];
    let mut before: Option<(Case, u64)> = None;
    for _ in 0..calls {
        let next = before.as_ref();
        let case = case(&mut dice, next.map(|b| &b.0), next.map_or(0, |b| b.1));
        let (found, expected) = (archive(&case, &mut grounds), reference(&case));
        if found != expected {
            print!("a difference\n{case}archive: {found}reference: {expected}");
            exit(1);
        }
        before = None;
        if found.returned == 0 {
            met[4] += 1;
            continue;
        }
        match number_at(&found.answer, 0) {
            0 => {
                met[0] += 1;
                before = Some((case, number_at(&found.answer, 16)));
            }
            12 => met[1] += 1,
            27 => met[2] += 1,
            _ => met[3] += 1,
        }
    }
    let [accepted, short, silent, outside, unanswered] = met;
    println!("send: accepted {accepted}, refused 27:{silent} 28:{outside} 12:{short}, no answer {unanswered}");
    if met.contains(&0) {
        println!("some refusal, or some acceptance, was never met");
        exit(1);
    }
}
