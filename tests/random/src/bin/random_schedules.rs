//! Breaker schedules against the reference, on random and damaged text: the archive's C call, then
//! the program hutschedule as a process.

use random::arguments::{option, usage};
use random::dice::Dice;
use random::guard::{Ground, Place};
use reference::schedule::{call, schedule, written};
use std::io::{ErrorKind, Result, Write};
use std::path::Path;
use std::process::{exit, Command, Output, Stdio};
use std::{env, fs, thread};

const HELP: &str = "\
random_schedules: hutplan_schedule and hutschedule against the reference, byte for byte

  random_schedules PATH_TO_HUTSCHEDULE [--calls N] [--count N] [--seed S]

Makes N calls of the archive, with buffers beside forbidden pages, and compares every byte of every
buffer. Then runs hutschedule so many times (--count), feeds it a text in pieces and compares what
it writes to standard output and standard error. Fails too if some refusal was never met. The first
difference stops the run, and its text is left in the file difference.txt. Exit status: 0 if all was
the same, 1 if not, 2 for a wrong command.";

const CALLS: u64 = 200_000;
const COUNT: u64 = 3000;
const SIZES: [u32; 37] = [
    15, 20, 25, 30, 35, 40, 45, 50, 60, 70, 80, 90, 100, 110, 125, 150, 175, 200, 225, 250, 300,
    350, 400, 450, 500, 600, 700, 800, 1000, 1200, 1600, 2000, 2500, 3000, 4000, 5000, 6000,
];

extern "C" {
    fn hutplan_schedule(
        text: *mut u8,
        text_len: usize,
        table: *mut u8,
        table_len: usize,
        answer: *mut u8,
        answer_len: usize,
    ) -> u32;
}

/// How often each refusal was met, 0 being acceptance; last, how often the answer was too short.
#[derive(Default)]
struct Tally([u64; 6]);

const KINDS: [u64; 5] = [0, 24, 25, 26, 12];

impl Tally {
    fn count(&mut self, number: Option<u64>) {
        let kind = number.map_or(5, |n| {
            KINDS.iter().position(|k| *k == n).expect("a refusal")
        });
        self.0[kind] += 1;
    }

    /// Prints the counts; `kinds` of them must have been met.
    fn close(&self, what: &str, kinds: &[usize]) {
        let [accepted, form, size, range, short, none] = self.0;
        let all: u64 = self.0.iter().sum();
        println!(
            "{all} {what}: accepted {accepted}, refused 24:{form} 25:{size} 26:{range} 12:{short}, \
             no answer {none}"
        );
        if kinds.iter().any(|kind| self.0[*kind] == 0) {
            println!("some refusal, or some acceptance, was never met");
            exit(1);
        }
    }
}

// ---- Texts

fn text(dice: &mut Dice) -> Vec<u8> {
    let count = match dice.below(40) {
        0 => dice.pick(&[510, 511, 512, 513, 514, 600]),
        1 => dice.below(200),
        _ => dice.below(7),
    };
    let mut text: Vec<u8> = (0..count).flat_map(|place| line(dice, place)).collect();
    match dice.below(12) {
        0 => damage(dice, &mut text),
        1 => text.truncate(text.len().saturating_sub(1 + dice.below(12))),
        2 if dice.one_in(8) => text = dice.bytes(60),
        3 if dice.one_in(8) => text.extend(vec![dice.pick(b"0 7\n\0"); 20_000]),
        _ => (),
    }
    text
}

/// A line, good nearly always: a long text is to be accepted now and then.
fn line(dice: &mut Dice, place: usize) -> Vec<u8> {
    if dice.one_in(60) {
        return odd(dice);
    }
    let parent = dice.below(place + 1);
    let amperes = dice.pick(&SIZES);
    let volts = dice.within(100, 480);
    let (parent, amperes, volts) = match dice.below(400) {
        0 => (place + 1, amperes, volts),
        1 => (dice.pick(&[512, 513, 9999]), amperes, volts),
        2 | 3 => (parent, dice.within(0, 9999), volts),
        4 => (parent, dice.pick(&[0, 14, 55, 6001, 9999]), volts),
        5 => (parent, amperes, dice.pick(&[0, 99, 481, 9999])),
        6 => (parent, amperes, dice.pick(&[100, 480])),
        7 => (dice.pick(&[10_000, 65_536]), amperes, volts),
        8 => (parent, amperes, 10_000 + volts),
        _ => (parent, amperes, volts),
    };
    format!("{parent} {amperes} {volts}\n").into_bytes()
}

/// A line that is not of the form, or nearly.
fn odd(dice: &mut Dice) -> Vec<u8> {
    let lines: [&[u8]; 28] = [
        b"\n",
        b"\r\n",
        b" \n",
        b"0\n",
        b"0 15\n",
        b"0 15 \n",
        b"0 15 120 \n",
        b" 0 15 120\n",
        b"0  15 120\n",
        b"0 15  120\n",
        b"0\t15 120\n",
        b"0 15\t120\n",
        b"0 15 120\r\n",
        b"0 15 120 7\n",
        b"00 15 120\n",
        b"0 015 120\n",
        b"0 15 0120\n",
        b"0 15 00120\n",
        b"0 15 12000\n",
        b"0 00015 120\n",
        b"+0 15 120\n",
        b"-0 15 120\n",
        b"0 15 1.2\n",
        b"0 15 120\0\n",
        b"\x000 15 120\n",
        b"0 1:5 120\n",
        b"0 1/5 120\n",
        b"\xEF\xBB\xBF0 15 120\n",
    ];
    match dice.below(8) {
        0 => {
            let long = dice.pick(&[5, 100, 8000]);
            [vec![dice.pick(b"0123456789 \0x"); long], b"\n".to_vec()].concat()
        }
        1 => dice.bytes(9),
        _ => dice.pick(&lines).to_vec(),
    }
}

/// Some byte changed, taken out or put in.
fn damage(dice: &mut Dice, text: &mut Vec<u8>) {
    if text.is_empty() {
        return;
    }
    let at = dice.below(text.len());
    let byte = match dice.below(3) {
        0 => dice.pick(b"\0\t\n\r /0123456789:"),
        1 => text[at] ^ (1 << dice.below(8)),
        _ => dice.roll() as u8,
    };
    match dice.below(3) {
        0 => text[at] = byte,
        1 => drop(text.remove(at)),
        _ => text.insert(at, byte),
    }
}

fn leave(text: &[u8]) -> ! {
    println!(
        "{:?}",
        String::from_utf8_lossy(&text[..text.len().min(400)])
    );
    match fs::write("difference.txt", text) {
        Ok(()) => println!("the text is left in difference.txt"),
        Err(error) => println!("difference.txt: {error}"),
    }
    exit(1)
}

// ---- Calls

fn place(dice: &mut Dice) -> Place {
    match dice.below(3) {
        0 => Place::Front(dice.below(4)),
        1 => Place::Null,
        _ => Place::Back(dice.below(4)),
    }
}

/// A length for the table: mostly what the words take, or some bytes more or fewer.
fn table_len(dice: &mut Dice, text: &[u8]) -> usize {
    let needed = schedule(text, usize::MAX).map_or(20, |table| 4 * table.len());
    match dice.below(6) {
        0 => dice.below(5000),
        1 => needed - 1 - dice.below(4),
        2 => 0,
        _ => needed + dice.below(6),
    }
}

fn compare_call(dice: &mut Dice, grounds: &mut [Ground; 3], tally: &mut Tally) {
    let text = text(dice);
    let table_len = table_len(dice, &text);
    let answer_len = if dice.one_in(20) {
        dice.below(16)
    } else {
        16 + dice.below(4)
    };
    let lent = [text.clone(), dice.bytes(table_len), dice.bytes(answer_len)];
    let places = [place(dice), place(dice), place(dice)];
    let mut at = [std::ptr::null_mut(); 3];
    for k in 0..3 {
        at[k] = grounds[k].lend(places[k], &lent[k]);
    }
    // SAFETY: the lent buffers have these lengths and lie apart.
    let returned = unsafe {
        hutplan_schedule(
            at[0],
            lent[0].len(),
            at[1],
            lent[1].len(),
            at[2],
            lent[2].len(),
        )
    };
    let [_, mut table, mut answer] = lent.clone();
    let expected = call(&text, &mut table, &mut answer);
    let mut same = returned == expected;
    for (k, bytes) in [&text, &table, &answer].into_iter().enumerate() {
        let (now, whole) = grounds[k].take_back(places[k], lent[k].len());
        same &= whole && now == *bytes;
    }
    if !same {
        println!("a difference of the call, with {table_len} and {answer_len} bytes lent");
        leave(&text);
    }
    let number = answer.first_chunk().map(|bytes| u64::from_le_bytes(*bytes));
    tally.count(number.filter(|_| expected == 1));
}

// ---- The program

fn run(program: &Path, text: &[u8], piece: usize) -> Result<Output> {
    let mut child = Command::new(program)
        .stdin(Stdio::piped())
        .stdout(Stdio::piped())
        .stderr(Stdio::piped())
        .spawn()?;
    let mut stdin = child.stdin.take().expect("a pipe");
    thread::scope(|scope| {
        scope.spawn(move || {
            for part in text.chunks(piece) {
                // The program stops reading once it has enough: that is no failure.
                match stdin.write_all(part) {
                    Err(error) if error.kind() == ErrorKind::BrokenPipe => return,
                    other => other.expect("a pipe that takes bytes"),
                }
                thread::yield_now();
            }
        });
        child.wait_with_output()
    })
}

fn compare_program(dice: &mut Dice, program: &Path, tally: &mut Tally) -> Result<()> {
    let text = text(dice);
    let piece = if text.len() < 400 {
        dice.pick(&[1, 7, 4096])
    } else {
        4096
    };
    let (sheet, error) = written(&text);
    let output = run(program, &text, piece)?;
    let same = output.stdout == sheet && output.stderr == error.as_bytes();
    if !same || output.status.code() != Some(0) {
        println!("a difference of the program ({})", output.status);
        leave(&text);
    }
    tally.count(Some(
        schedule(&text, usize::MAX).map_or_else(|r| r.number, |_| 0),
    ));
    Ok(())
}

fn main() -> Result<()> {
    let arguments: Vec<String> = env::args().skip(1).collect();
    let path = arguments.first().map_or("", String::as_str);
    if path == "--help" {
        println!("{HELP}");
        return Ok(());
    }
    let program = fs::canonicalize(path).unwrap_or_else(|_| usage("which program?", HELP));
    let calls = option(&arguments, "--calls", HELP).unwrap_or(CALLS);
    let count = option(&arguments, "--count", HELP).unwrap_or(COUNT);
    let mut dice = Dice(option(&arguments, "--seed", HELP).unwrap_or(1));
    let (mut grounds, mut tally) = (Default::default(), Tally::default());
    for _ in 0..calls {
        compare_call(&mut dice, &mut grounds, &mut tally);
    }
    tally.close("calls", &[0, 1, 2, 3, 4, 5]);
    let mut tally = Tally::default();
    for _ in 0..count {
        compare_program(&mut dice, &program, &mut tally)?;
    }
    tally.close("runs", &[0, 1, 2, 3]);
    Ok(())
}
