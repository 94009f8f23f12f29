//! The archive's call of Release against the reference, on buffers of random length and content.

use random::arguments::{option, usage};
use random::dice::Dice;
use random::guard::{Ground, Place};
use std::env;
use std::process::exit;

const HELP: &str = "\
random_release: the archive's call of Release against the reference, on random buffers

  random_release [--calls N] [--seed S]

Every byte of the buffer is compared after each call, and it lies beside forbidden pages. The
release's number is that of include/hutplan.h. The first difference stops the run and is printed.
Exit status: 0 if all was the same, 1 if not, 2 for a wrong command.";

const CALLS: u64 = 20_000;
const SEED: u64 = 1;
const HEADER: &str = include_str!("../../../../include/hutplan.h");

extern "C" {
    fn hutplan_release(answer: *mut u8, answer_len: u64) -> u32;
}

/// The release that the header is of.
fn header_release() -> u64 {
    let line = HEADER
        .lines()
        .find_map(|line| line.strip_prefix("#define HUTPLAN_RELEASE "));
    line.and_then(|number| number.parse().ok())
        .expect("the header has HUTPLAN_RELEASE")
}

fn place(dice: &mut Dice) -> Place {
    match dice.below(3) {
        0 => Place::Front(dice.below(9)),
        1 => Place::Back(dice.below(9)),
        _ => Place::Null,
    }
}

fn main() {
    let arguments: Vec<String> = env::args().skip(1).collect();
    if arguments.iter().any(|argument| argument == "--help") {
        println!("{HELP}");
        return;
    }
    let known = |name: &str| ["--calls", "--seed"].contains(&name);
    if arguments.len() % 2 != 0 || !arguments.iter().step_by(2).all(|name| known(name)) {
        usage("what to do?", HELP);
    }
    let calls = option(&arguments, "--calls", HELP).unwrap_or(CALLS);
    let mut dice = Dice(option(&arguments, "--seed", HELP).unwrap_or(SEED));
    let mut ground = Ground::default();
    let release = header_release();
    // How often it was answered, and left without an answer.
    let mut met = [0_u64; 2];
    for _ in 0..calls {
        let length = dice.below(64);
        let (place, before) = (place(&mut dice), dice.bytes(length));
        let at = ground.lend(place, &before);
        // SAFETY: the lent buffer has this length.
        let returned = unsafe { hutplan_release(at, length as u64) };
        let (found, whole) = ground.take_back(place, length);
        let mut expected = before.clone();
        let due = reference::call::release(release, &mut expected);
        if returned != due || found != expected || !whole {
            println!("a difference\nbefore {before:02X?}\narchive {returned} {found:02X?}, wrote within: {whole}\nreference {due} {expected:02X?}");
            exit(1);
        }
        met[usize::from(returned == 0)] += 1;
    }
    let [answered, unanswered] = met;
    println!("release: answered {answered}, no answer {unanswered}");
    if met.contains(&0) {
        println!("an answer, or a buffer too short for it, was never met");
        exit(1);
    }
}
