//! The archive's call of Judge against the reference, on random rooms with good, slightly spoilt and
//! wild lists of grants.

use random::arguments::{option, usage};
use random::damage;
use random::dice::Dice;
use random::guard::{Ground, Place};
use reference::plan::deals;
use reference::room::Room;
use std::env;
use std::process::exit;

const HELP: &str = "\
random_judge: the archive's call of Judge against the reference, on random input

  random_judge [--calls N] [--seed S]

Every byte of all four buffers is compared after each call, and they lie beside forbidden pages.
The first difference stops the run and is printed. It fails too if some refusal or some verdict was
never met. Exit status: 0 if all was the same, 1 if not, 2 for a wrong command.";

const CALLS: u64 = 20_000;
const SEED: u64 = 1;
const ANSWER: usize = 32;
/// The refusals that Judge can give.
const REFUSALS: [usize; 9] = [4, 5, 6, 7, 8, 9, 10, 11, 21];

type At = *mut u8;

extern "C" {
    fn hutplan_judge(_: At, _: u64, _: At, _: u64, _: At, _: u64, _: At, _: u64) -> u32;
}

/// Table, demands, grants and answer, with the places where they lie.
type Case = [(Place, Vec<u8>); 4];

/// What the call returns, and every byte after it.
type Outcome = (u32, Vec<Vec<u8>>);

/// Grants of a good room: the first deal's or the second's, spoilt now and then by a watt or two, or
/// figures between low and want; else anything.
fn grants(dice: &mut Dice, table: &[u32], demands: &[u32]) -> Vec<u32> {
    let room = Room::of_words(table).ok();
    let Some(room) = room.filter(|room| room.servers.len() == demands.len()) else {
        return (0..dice.below(8)).map(|_| dice.roll() as u32).collect();
    };
    let deals = deals(&room, demands);
    let between = |dice: &mut Dice, cord: usize| {
        let (low, want) = (room.cords[cord].low, deals.first_wants[cord]);
        low + (dice.roll() % (want - low + 1) as u64) as i128
    };
    let cords = 0..room.cords.len();
    let mut list: Vec<i128> = match dice.below(8) {
        0..4 => deals.first_grants.clone(),
        4 | 5 => deals.second_grants.clone(),
        6 => cords.map(|cord| between(dice, cord)).collect(),
        _ => cords
            .map(|_| i128::from(dice.roll() as u32 >> dice.below(32)))
            .collect(),
    };
    spoil(dice, &mut list);
    list.into_iter().map(|watts| watts as u32).collect()
}

/// Moves a watt, adds or takes one, or changes the count.
fn spoil(dice: &mut Dice, list: &mut Vec<i128>) {
    while !list.is_empty() && dice.one_in(2) {
        let (one, other) = (dice.below(list.len()), dice.below(list.len()));
        match dice.below(16) {
            0 => drop(list.pop()),
            1 => list.push(0),
            2..6 => list[one] += 1,
            6..10 => list[one] = (list[one] - 1).max(0),
            _ if list[one] > 0 => {
                list[one] -= 1;
                list[other] += 1;
            }
            _ => (),
        }
    }
}

fn bytes(dice: &mut Dice, words: &[u32]) -> Vec<u8> {
    let mut bytes: Vec<u8> = words.iter().flat_map(|word| word.to_le_bytes()).collect();
    let over = dice.below(8).saturating_sub(4);
    bytes.extend(dice.bytes(over));
    bytes
}

fn case(dice: &mut Dice) -> Case {
    let (_, table, demands) = damage::drawn(dice);
    let grants = grants(dice, &table, &demands);
    let answer = match dice.below(16) {
        0 => dice.below(ANSWER),
        _ => ANSWER + dice.below(12),
    };
    let lists = [
        bytes(dice, &table),
        bytes(dice, &demands),
        bytes(dice, &grants),
        dice.bytes(answer),
    ];
    lists.map(|bytes| {
        let place = match dice.below(3) {
            0 => Place::Front(dice.below(9)),
            1 => Place::Back(dice.below(9)),
            _ => Place::Null,
        };
        (place, bytes)
    })
}

/// Runs the archive on copies of the buffers; none if it wrote outside of them.
fn archive(case: &Case, grounds: &mut [Ground; 4]) -> Option<Outcome> {
    let mut lend = |k: usize| {
        (
            grounds[k].lend(case[k].0, &case[k].1),
            case[k].1.len() as u64,
        )
    };
    let [(t, tn), (d, dn), (g, gn), (a, an)] = [lend(0), lend(1), lend(2), lend(3)];
    // SAFETY: the lent buffers have these lengths and lie apart.
    let returned = unsafe { hutplan_judge(t, tn, d, dn, g, gn, a, an) };
    let mut after = Vec::new();
    for (ground, (place, bytes)) in grounds.iter_mut().zip(case) {
        let (bytes, whole) = ground.take_back(*place, bytes.len());
        after.push(whole.then_some(bytes)?);
    }
    Some((returned, after))
}

/// Runs the reference on copies of the buffers.
fn reference(case: &Case) -> Outcome {
    let [table, demands, grants, mut answer] = case.each_ref().map(|(_, bytes)| bytes.clone());
    let returned = reference::call::judge(&table, &demands, &grants, &mut answer);
    (returned, vec![table, demands, grants, answer])
}

fn number_at(bytes: &[u8], at: usize) -> usize {
    let mut eight = [0; 8];
    eight.copy_from_slice(&bytes[at..at + 8]);
    u64::from_le_bytes(eight) as usize
}

fn main() {
    let arguments: Vec<String> = env::args().skip(1).collect();
    if arguments.iter().any(|argument| argument == "--help") {
        println!("{HELP}");
        return;
    }
    let known = |name: &str| ["--calls", "--seed"].contains(&name);
    if arguments.len() % 2 != 0 || !arguments.iter().step_by(2).all(|name| known(name)) {
        usage("what to do?", HELP);
    }
    let calls = option(&arguments, "--calls", HELP).unwrap_or(CALLS);
    let mut dice = Dice(option(&arguments, "--seed", HELP).unwrap_or(SEED));
    let mut grounds = Default::default();
    let (mut refused, mut verdicts, mut unanswered) = ([0_u64; 22], [0_u64; 5], 0_u64);
    for _ in 0..calls {
        let case = case(&mut dice);
        let expected = reference(&case);
        let found = archive(&case, &mut grounds);
        if found.as_ref() != Some(&expected) {
            let lists = case.map(|(_, bytes)| bytes);
            println!("a difference\n{lists:02X?}\narchive {found:02X?}\nreference {expected:02X?}");
            exit(1);
        }
        let answer = &expected.1[3];
        match (expected.0, answer.len() >= ANSWER) {
            (1, true) if number_at(answer, 0) == 0 => verdicts[number_at(answer, 8)] += 1,
            (1, true) => refused[number_at(answer, 0)] += 1,
            _ => unanswered += 1,
        }
    }
    let told: String = REFUSALS
        .iter()
        .map(|&n| format!(" {n}:{}", refused[n]))
        .collect();
    println!("judge: verdicts {verdicts:?}, refused{told}, no answer {unanswered}");
    let met = REFUSALS.iter().all(|&n| refused[n] > 0) && verdicts.iter().all(|&n| n > 0);
    if !met || unanswered == 0 {
        println!("some refusal, or some verdict, was never met");
        exit(1);
    }
}
