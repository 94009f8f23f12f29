//! The program hutplan against the reference's print, on random files and standard input.

use random::arguments::{option, usage};
use random::damage;
use random::dice::Dice;
use random::rooms;
use std::io::{ErrorKind, Result, Write};
use std::path::Path;
use std::process::{exit, id, ChildStdin, Command, Output, Stdio};
use std::{env, fs, thread};

const HELP: &str = "\
random_prints: hutplan as a process against the reference, byte for byte

  random_prints PATH_TO_HUTPLAN [--count N] [--seed S]

Each trial runs hutplan in a directory of its own, with a random room.bin (or none), and feeds
it random lines in pieces. It compares what is printed, and fails too if some refusal was
never met. The first difference stops the run and is left in the directory difference: room.bin,
input, expected and printed. Exit status: 0 if all was the same, 1 if not, 2 for a wrong command.";

const COUNT: u64 = 5000;
/// The status that hutplan ends with, whether it accepts or refuses.
const STATUS: i32 = 0;
/// The bytes of the file that hutplan reads.
const FILE_LIMIT: usize = 32_768;
/// The refusals that it can print; it lends its own lists, long enough for every room.
const REFUSALS: usize = 11;

struct Trial {
    file: Option<Vec<u8>>,
    input: Vec<u8>,
    /// The longest piece of the input to write at once.
    piece: usize,
}

fn trial(dice: &mut Dice) -> Trial {
    let (_, words, demands) = damage::drawn(dice);
    let file = file(dice, rooms::sheet(&words));
    let input = input(dice, &demands);
    let piece = match dice.below(4) {
        0 if input.len() < 2000 => 1,
        1 if input.len() < 5000 => 9,
        2 => 5000,
        _ => 1 << 21,
    };
    Trial { file, input, piece }
}

/// The sheet itself, mostly; or none, an empty, a damaged or an overlong one.
fn file(dice: &mut Dice, mut sheet: Vec<u8>) -> Option<Vec<u8>> {
    match dice.below(24) {
        0 => return None,
        1 => return Some(damage::noise(dice)),
        2..5 => damage::bytes(dice, &mut sheet),
        5 => sheet.clear(),
        6 | 7 => pad(dice, &mut sheet),
        _ => (),
    }
    Some(sheet)
}

/// Numbers all along, to the limit or beyond it, which may cut the last one.
fn pad(dice: &mut Dice, sheet: &mut Vec<u8>) {
    if dice.one_in(4) {
        sheet.clear();
    }
    let number: &[u8] = dice.pick(&[&[0][..], &[1], &[0x81, 1], &[0xFF, 0xFF, 0xFF, 7]]);
    let end = dice.pick(&[FILE_LIMIT - 1, FILE_LIMIT, FILE_LIMIT + 1, 100_000]);
    while sheet.len() < end {
        sheet.extend(number);
    }
    sheet.truncate(end);
    if dice.one_in(3) && end > FILE_LIMIT {
        sheet[FILE_LIMIT..].fill(0x80);
    }
}

/// The demands as lines, good or with odd ones among them, or many lines.
fn input(dice: &mut Dice, demands: &[u32]) -> Vec<u8> {
    let mut lines: Vec<Vec<u8>> = demands.iter().map(|demand| good(dice, *demand)).collect();
    while dice.one_in(6) && !lines.is_empty() {
        let at = dice.below(lines.len());
        lines[at] = odd(dice);
    }
    // The line limit shows where a room has as many servers as can be.
    if dice.one_in(if lines.len() > 500 { 3 } else { 12 }) {
        let count = dice.pick(&[511, 512, 513, 514, 2000]);
        lines.resize(count, b"7".to_vec());
    }
    if dice.one_in(40) {
        lines.resize(513, b"7".to_vec());
        lines.push(vec![dice.pick(b"7\n"); 1 << 20]);
    }
    let mut bytes = lines.join(&b'\n');
    if !lines.is_empty() && !dice.one_in(4) {
        bytes.push(b'\n');
    }
    if dice.one_in(30) {
        bytes.push(b'\n');
    }
    bytes
}

fn good(dice: &mut Dice, demand: u32) -> Vec<u8> {
    let width = if dice.one_in(8) { 1 + dice.below(8) } else { 1 };
    format!("{demand:0width$}").into_bytes()
}

fn odd(dice: &mut Dice) -> Vec<u8> {
    let long = dice.pick(&[9, 10, 255, 4095, 4096, 65_537, 100_000]);
    match dice.below(10) {
        0 => vec![dice.pick(b"0123456789"); long],
        1 => vec![dice.pick(b" \rx\0\xFF"); long],
        2 => dice.bytes(8),
        3 => Vec::new(),
        _ => {
            let lines: [&[u8]; 16] = [
                b"400\r",
                b"\r",
                b" 400",
                b"400 ",
                b"+400",
                b"-1",
                b"0x10",
                b"4\x0000",
                b"\0",
                b"1e3",
                b"4.0",
                b"\xFF\xFE",
                b"\xD9\xA3",
                b"99999999",
                b"000000400",
                b"/:",
            ];
            dice.pick(&lines).to_vec()
        }
    }
}

/// Writes the input in pieces. The program may stop reading before the end: that is no failure.
fn feed(mut to: ChildStdin, trial: &Trial) {
    let mut dice = Dice(trial.input.len() as u64);
    let mut left = &trial.input[..];
    while !left.is_empty() {
        let (piece, rest) = left.split_at(left.len().min(1 + dice.below(trial.piece)));
        match to.write_all(piece).and_then(|()| to.flush()) {
            Err(error) if error.kind() == ErrorKind::BrokenPipe => return,
            other => other.expect("a pipe that takes bytes"),
        }
        if rest.len() % 64 == 0 {
            // The program now and then gets to read before there is more.
            thread::yield_now();
        }
        left = rest;
    }
}

/// Makes room.bin the trial's, also if it has none.
fn put_file(directory: &Path, trial: &Trial) -> Result<()> {
    let path = directory.join("room.bin");
    match &trial.file {
        Some(bytes) => fs::write(path, bytes),
        None if path.exists() => fs::remove_file(path),
        None => Ok(()),
    }
}

fn run(program: &Path, directory: &Path, trial: &Trial) -> Result<Output> {
    put_file(directory, trial)?;
    let mut child = Command::new(program)
        .current_dir(directory)
        .stdin(Stdio::piped())
        .stdout(Stdio::piped())
        .stderr(Stdio::piped())
        .spawn()?;
    let stdin = child.stdin.take().expect("a pipe");
    thread::scope(|scope| {
        scope.spawn(|| feed(stdin, trial));
        child.wait_with_output()
    })
}

fn leave(trial: &Trial, expected: &str, output: &Output) -> Result<()> {
    fs::create_dir_all("difference")?;
    put_file(Path::new("difference"), trial)?;
    fs::write("difference/input", &trial.input)?;
    fs::write("difference/expected", expected)?;
    fs::write("difference/printed", &output.stdout)
}

/// The refusal that is printed; 0 if it is a plan.
fn number(print: &str) -> usize {
    let refused = print.strip_prefix("refused ");
    refused.map_or(0, |rest| {
        let digits = rest.split(' ').next().unwrap_or("");
        digits.parse().expect("a number")
    })
}

/// Runs the trials; gives how often each refusal was met (0: accepted), or none if there was a
/// difference.
fn compare(program: &Path, directory: &Path, count: u64, seed: u64) -> Result<Option<Vec<u64>>> {
    let mut dice = Dice(seed);
    let mut met = vec![0; REFUSALS + 1];
    for k in 0..count {
        let trial = trial(&mut dice);
        let expected = reference::print(trial.file.as_deref(), &trial.input);
        let output = run(program, directory, &trial)?;
        let quiet = output.stderr.is_empty() && output.status.code() == Some(STATUS);
        if output.stdout != expected.as_bytes() || !quiet {
            println!(
                "trial {k}: a difference ({}), left in difference",
                output.status
            );
            leave(&trial, &expected, &output)?;
            return Ok(None);
        }
        met[number(&expected)] += 1;
    }
    Ok(Some(met))
}

fn main() -> Result<()> {
    let arguments: Vec<String> = env::args().skip(1).collect();
    let path = arguments.first().map_or("", String::as_str);
    if path == "--help" {
        println!("{HELP}");
        return Ok(());
    }
    let program = fs::canonicalize(path).unwrap_or_else(|_| usage("which program?", HELP));
    let count = option(&arguments, "--count", HELP).unwrap_or(COUNT);
    let seed = option(&arguments, "--seed", HELP).unwrap_or(1);
    let directory = env::temp_dir().join(format!("random_prints.{}", id()));
    // A run that was killed has left its directory, and the numbers of processes come again.
    if directory.exists() {
        fs::remove_dir_all(&directory)?;
    }
    fs::create_dir(&directory)?;
    let result = compare(&program, &directory, count, seed);
    fs::remove_dir_all(&directory)?;
    let Some(met) = result? else { exit(1) };
    let refused: String = (1..=REFUSALS).map(|n| format!(" {n}:{}", met[n])).collect();
    println!("{count} prints: accepted {}, refused{refused}", met[0]);
    if met[..=REFUSALS].contains(&0) {
        println!("some refusal, or some acceptance, was never met");
        exit(1);
    }
    Ok(())
}
