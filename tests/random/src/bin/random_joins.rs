//! The archive's call of Join against the reference, on random pairs of tables; and of the tables that
//! it gives, what document 02 says of their plans.

use random::arguments::{option, usage};
use random::buffers::{about, answer_bytes, number_at, table_bytes, words_of, Case, Outcome};
use random::dice::Dice;
use random::guard::Ground;
use random::joins::pair;
use random::rooms::{demands, Room};
use reference::join::{call, joined_plan};
use reference::plan;
use std::env;
use std::process::exit;

const HELP: &str = "\
random_joins: the archive's call of Join against the reference, on random pairs of tables

  random_joins [--calls N] [--seed S]

Every byte of every buffer is compared after each call, and they lie beside forbidden pages. Where two
tables are joined, the joined one is planned with demands of both, and compared with both plans.
The first difference stops the run and is printed. It fails too if some refusal was never met.
Exit status: 0 if all was the same, 1 if not, 2 for a wrong command.";

const CALLS: u64 = 60_000;
const SEED: u64 = 1;
const ANY: [usize; 4] = [5_000; 4];

extern "C" {
    fn hutplan_join(
        first: *const u8,
        first_len: u64,
        second: *const u8,
        second_len: u64,
        table: *mut u8,
        table_len: u64,
        answer: *mut u8,
        answer_len: u64,
    ) -> u32;
}

/// A call on a pair of tables, with an output that is mostly about as long as is needed: first, second, table and answer.
fn case(dice: &mut Dice, tables: &[Vec<u32>; 2]) -> Case<4> {
    let [first, second] = tables.each_ref().map(|words| table_bytes(dice, words));
    let table = about(dice, (first.len() + second.len()).saturating_sub(12));
    let (table, answer) = (dice.bytes(table), answer_bytes(dice, 16));
    Case::placed(dice, [first, second, table, answer])
}

fn archive(case: &Case<4>, grounds: &mut [Ground; 4]) -> Outcome<4> {
    // SAFETY: the lent buffers have these lengths and lie apart.
    case.run(grounds, |at, len| unsafe {
        hutplan_join(at[0], len[0], at[1], len[1], at[2], len[2], at[3], len[3])
    })
}

fn reference(case: &Case<4>) -> Outcome<4> {
    case.expected(|[first, second, table, answer]| call(first, second, table, answer))
}

/// Does the table that was found have the plan of both rooms, one behind the other?
fn plans_agree(dice: &mut Dice, case: &Case<4>, joined: &[u32]) -> bool {
    let tables = [&case.0[0].1, &case.0[1].1].map(|bytes| words_of(bytes));
    let rooms = tables.each_ref().map(|words| Room::parse(words));
    let [Some(one), Some(two)] = &rooms else {
        return false;
    };
    let asked = [demands(dice, one), demands(dice, two)];
    let plans = [0, 1].map(|i| plan(&tables[i], &asked[i], ANY));
    let both = plan(joined, &asked.concat(), ANY);
    match plans {
        [Ok(first), Ok(second)] => both == Ok(joined_plan(first, second, tables[0][1])),
        _ => both.is_err(),
    }
}

fn main() {
    let arguments: Vec<String> = env::args().skip(1).collect();
    if arguments.iter().any(|argument| argument == "--help") {
        println!("{HELP}");
        return;
    }
    let known = |name: &str| ["--calls", "--seed"].contains(&name);
    if arguments.len() % 2 != 0 || !arguments.iter().step_by(2).all(|name| known(name)) {
        usage("what to do?", HELP);
    }
    let calls = option(&arguments, "--calls", HELP).unwrap_or(CALLS);
    let mut dice = Dice(option(&arguments, "--seed", HELP).unwrap_or(SEED));
    let mut grounds = Default::default();
    // How often each number was told, 0 for accepted; and how often there was no answer.
    let (mut met, mut unanswered) = ([0_u64; 21], 0_u64);
    for _ in 0..calls {
        let tables = pair(&mut dice);
        let case = case(&mut dice, &tables);
        let (found, expected) = (archive(&case, &mut grounds), reference(&case));
        if found != expected {
            print!("a difference\n{case}archive: {found}reference: {expected}");
            exit(1);
        }
        if found.returned == 0 {
            unanswered += 1;
            continue;
        }
        let number = number_at(&found.buffers[3], 0);
        met[number] += 1;
        if number == 0 && dice.one_in(8) {
            let joined = &words_of(&found.buffers[2])[..number_at(&found.buffers[3], 8)];
            if !plans_agree(&mut dice, &case, joined) {
                print!("another plan\n{case}");
                exit(1);
            }
        }
    }
    let due = [0, 4, 5, 6, 7, 8, 9, 12, 19, 20];
    let told: Vec<String> = due[1..]
        .iter()
        .map(|&n| format!("{n}:{}", met[n]))
        .collect();
    println!(
        "join: accepted {}, refused {}, no answer {unanswered}",
        met[0],
        told.join(" ")
    );
    if unanswered == 0 || due.iter().any(|&number| met[number] == 0) {
        println!("some refusal, or some acceptance, was never met");
        exit(1);
    }
}
