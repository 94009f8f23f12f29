//! The archive's call of Part against the reference, on random tables and cuts and at every cut of
//! small rooms; and of the parts that it gives, that they are joined to the whole again.

use random::arguments::{option, usage};
use random::buffers::{
    about, answer_bytes, bytes_of, number_at, table_bytes, words_of, Case, Outcome,
};
use random::dice::Dice;
use random::guard::{Ground, Place};
use random::joins::{cut, pair, Cut};
use reference::join::join;
use reference::part::{call, part};
use std::env;
use std::process::exit;

const HELP: &str = "\
random_parts: the archive's call of Part against the reference, on random tables and cuts

  random_parts [--calls N] [--seed S]

Every byte of every buffer is compared after each call, and they lie beside forbidden pages. One call
in twenty is followed by calls at every cut of a small room. What is parted is joined by the archive,
and compared with the whole. The first difference stops the run and is printed. It fails too if some
refusal was never met.
Exit status: 0 if all was the same, 1 if not, 2 for a wrong command.";

const CALLS: u64 = 60_000;
const SEED: u64 = 1;
const MOST_WORDS: usize = 5_635;

extern "C" {
    fn hutplan_part(
        table: *const u8,
        table_len: u64,
        nodes: u64,
        servers: u64,
        first: *mut u8,
        first_len: u64,
        second: *mut u8,
        second_len: u64,
        answer: *mut u8,
        answer_len: u64,
    ) -> u32;

    fn hutplan_join(
        first: *const u8,
        first_len: u64,
        second: *const u8,
        second_len: u64,
        table: *mut u8,
        table_len: u64,
        answer: *mut u8,
        answer_len: u64,
    ) -> u32;
}

/// What was met: how often each number was told, 0 for accepted; no answer; and parts joined again.
#[derive(Default)]
struct Met {
    numbers: [u64; 24],
    unanswered: u64,
    rejoined: u64,
}

/// The buffers of a call: table, first, second and answer, the lists mostly about as long as needed.
fn case(dice: &mut Dice, cut: &Cut) -> Case<4> {
    let table = table_bytes(dice, &cut.table);
    let needed = match part(&words_of(&table), cut.nodes, cut.servers, [MOST_WORDS; 2]) {
        Ok(parts) => parts.map(|words| 4 * words.len()),
        Err(_) => [table.len() / 2; 2],
    };
    let [first, second] = needed.map(|bytes| {
        let length = about(dice, bytes);
        dice.bytes(length)
    });
    let answer = answer_bytes(dice, 24);
    Case::placed(dice, [table, first, second, answer])
}

/// A call with lists that are long enough.
fn ample(table: &[u32]) -> Case<4> {
    let lists = vec![0xA5; 4 * table.len() + 12];
    Case(
        [bytes_of(table), lists.clone(), lists, vec![0xA5; 24]]
            .map(|bytes| (Place::Back(0), bytes)),
    )
}

fn archive(case: &Case<4>, nodes: u64, servers: u64, grounds: &mut [Ground; 4]) -> Outcome<4> {
    // SAFETY: the lent buffers have these lengths and lie apart.
    case.run(grounds, |at, len| unsafe {
        hutplan_part(
            at[0], len[0], nodes, servers, at[1], len[1], at[2], len[2], at[3], len[3],
        )
    })
}

/// The parts that were found, joined by the archive.
fn rejoined(parts: [&[u8]; 2]) -> Option<Vec<u8>> {
    let (mut table, mut answer) = (vec![0; parts[0].len() + parts[1].len()], [0; 16]);
    // SAFETY: the buffers have these lengths and lie apart.
    unsafe {
        hutplan_join(
            parts[0].as_ptr(),
            parts[0].len() as u64,
            parts[1].as_ptr(),
            parts[1].len() as u64,
            table.as_mut_ptr(),
            table.len() as u64,
            answer.as_mut_ptr(),
            16,
        )
    };
    table.truncate(4 * number_at(&answer, 8));
    (number_at(&answer, 0) == 0).then_some(table)
}

/// One call: compared with the reference, and the parts with the whole.
fn compare(case: &Case<4>, cut: &Cut, grounds: &mut [Ground; 4], met: &mut Met) {
    let found = archive(case, cut.nodes, cut.servers, grounds);
    let expected = case.expected(|[table, first, second, answer]| {
        call(table, cut.nodes, cut.servers, first, second, answer)
    });
    if found != expected {
        let (nodes, servers) = (cut.nodes, cut.servers);
        print!("a difference at {nodes} nodes, {servers} servers\n{case}archive: {found}reference: {expected}");
        exit(1);
    }
    if found.returned == 0 {
        met.unanswered += 1;
        return;
    }
    let [table, first, second, answer] = &found.buffers;
    let number = number_at(answer, 0);
    met.numbers[number] += 1;
    if number == 0 {
        let [one, two] = [8, 16].map(|at| 4 * number_at(answer, at));
        let whole = &table[..table.len() - table.len() % 4];
        if rejoined([&first[..one], &second[..two]]).as_deref() != Some(whole) {
            print!("not joined again\n{case}");
            exit(1);
        }
        met.rejoined += 1;
    }
}

/// Every cut of a small room, and one beside it on each side.
fn every_cut(dice: &mut Dice, grounds: &mut [Ground; 4], met: &mut Met) {
    let tables = pair(dice);
    let Ok(table) = join(&tables[0], &tables[1], MOST_WORDS) else {
        return;
    };
    let nodes = u64::from(table[1]);
    let servers = tables
        .each_ref()
        .map(|words| server_count(words))
        .iter()
        .sum::<u64>();
    if 12 < nodes || 12 < servers {
        return;
    }
    let case = ample(&table);
    for nodes in 0..nodes + 2 {
        for servers in 0..servers + 2 {
            let table = table.clone();
            let cut = Cut {
                table,
                nodes,
                servers,
            };
            compare(&case, &cut, grounds, met);
        }
    }
}

/// A good table's count of servers.
fn server_count(words: &[u32]) -> u64 {
    let width = if words[0] == 1 { 2 } else { 3 };
    u64::from(words[2 + width * words[1] as usize])
}

fn main() {
    let arguments: Vec<String> = env::args().skip(1).collect();
    if arguments.iter().any(|argument| argument == "--help") {
        println!("{HELP}");
        return;
    }
    let known = |name: &str| ["--calls", "--seed"].contains(&name);
    if arguments.len() % 2 != 0 || !arguments.iter().step_by(2).all(|name| known(name)) {
        usage("what to do?", HELP);
    }
    let calls = option(&arguments, "--calls", HELP).unwrap_or(CALLS);
    let mut dice = Dice(option(&arguments, "--seed", HELP).unwrap_or(SEED));
    let mut grounds = Default::default();
    let mut met = Met::default();
    for i in 0..calls {
        let cut = cut(&mut dice);
        compare(&case(&mut dice, &cut), &cut, &mut grounds, &mut met);
        if i % 20 == 0 {
            every_cut(&mut dice, &mut grounds, &mut met);
        }
    }
    let due = [0, 4, 5, 6, 7, 8, 9, 12, 22, 23];
    let told: Vec<String> = (due[1..].iter())
        .map(|&n| format!("{n}:{}", met.numbers[n]))
        .collect();
    let (unanswered, again) = (met.unanswered, met.rejoined);
    println!(
        "part: accepted {}, joined again {again}, refused {}, no answer {unanswered}",
        met.numbers[0],
        told.join(" ")
    );
    if unanswered == 0 || due.iter().any(|&number| met.numbers[number] == 0) {
        println!("some refusal, or some acceptance, was never met");
        exit(1);
    }
}
