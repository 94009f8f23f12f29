//! The archive's C calls against the reference, on random, extreme and damaged input.

use random::arguments::{option, usage};
use random::calls::{archive, reference, Case, Grounds, CALLS};
use random::cases::case;
use random::dice::Dice;
use random::shrink::smallest;
use std::panic::{self, AssertUnwindSafe};
use std::process::exit;
use std::ptr::null_mut;
use std::sync::atomic::{AtomicPtr, Ordering::SeqCst};
use std::time::{Duration, Instant};
use std::{env, fs};

const HELP: &str = "\
random_calls: the archive's C calls against the reference, on random input

  random_calls gate [--calls N]      a fixed seed; fails too if some refusal was never met
  random_calls soak --minutes M | --calls N [--seed S]
                                     for as long as asked, with a line every ten seconds
  random_calls replay FILE           one case again, from a file that a run has left

Every byte of every buffer is compared after each call, and buffers lie beside guard
pages. The first difference stops the run: it is made small, printed and left in the file
difference.txt. Exit status: 0 if all was the same, 1 if not, 2 for a wrong command.";

const GATE_CALLS: u64 = 300_000;
const GATE_SEED: u64 = 1;
const LEFT_IN: &str = "difference.txt";
/// SIGILL, SIGABRT, SIGBUS, SIGFPE and SIGSEGV.
const FAULTS: [i32; 5] = [4, 6, 7, 8, 11];

extern "C" {
    fn signal(number: i32, handler: extern "C" fn(i32)) -> usize;
    fn fork() -> i32;
    fn waitpid(child: i32, status: *mut i32, options: i32) -> i32;
    fn alarm(seconds: u32) -> u32;
    fn _exit(status: i32) -> !;
}

/// The case under way; null in a child, whose fate the parent sees.
static CURRENT: AtomicPtr<Case> = AtomicPtr::new(null_mut());

/// A fault is a difference as well. It comes from the call itself, which holds no lock, so
/// that this may take memory and print.
extern "C" fn fault(_: i32) {
    let current = CURRENT.swap(null_mut(), SeqCst);
    // SAFETY: the case outlives the call that was stopped.
    unsafe {
        match current.as_ref() {
            Some(case) => found(case.clone()),
            None => _exit(2),
        }
    }
}

fn watch_faults() {
    for number in FAULTS {
        // SAFETY: the handler ends the process.
        unsafe { signal(number, fault) };
    }
    // Panics of the reference are caught; children keep quiet about them.
    let usual = panic::take_hook();
    panic::set_hook(Box::new(move |info| {
        if !CURRENT.load(SeqCst).is_null() {
            usual(info);
        }
    }));
}

#[derive(Clone, Copy, PartialEq)]
enum Fate {
    Same,
    Different,
    Stopped,
}

/// Runs both. Gives the refusal that was met as well (0: accepted; none: no answer).
fn compare(case: &Case, grounds: &mut Grounds) -> (Fate, Option<u64>) {
    let both = AssertUnwindSafe(|| (archive(case, grounds), reference(case)));
    match panic::catch_unwind(both) {
        Ok((archive, reference)) if archive == reference => (Fate::Same, reference.number()),
        Ok(_) => (Fate::Different, None),
        Err(_) => (Fate::Stopped, None),
    }
}

/// What becomes of the case in a process of its own.
fn fate(case: &Case) -> Fate {
    let mut status = 0;
    // SAFETY: there is one thread; the child compares and ends.
    unsafe {
        let child = fork();
        assert!(child >= 0, "no further process");
        if child == 0 {
            alarm(10);
            _exit(compare(case, &mut Default::default()).0 as i32);
        }
        waitpid(child, &mut status, 0);
    }
    match status {
        0 => Fate::Same,
        0x100 => Fate::Different,
        _ => Fate::Stopped,
    }
}

/// The case with both outcomes, if it leaves any.
fn account(case: &Case) -> String {
    let remarks = match fate(case) {
        Fate::Stopped => "# the archive or the reference was stopped\n".to_string(),
        _ => case.remarks(&archive(case, &mut Default::default()), &reference(case)),
    };
    format!("{case}{remarks}")
}

/// Ends the run with a small case that shows the difference in the same way.
fn found(case: Case) -> ! {
    println!("a difference: looking for a small case that shows it");
    let first = fate(&case);
    let case = match first {
        Fate::Same => case,
        _ => smallest(case, &|smaller| fate(smaller) == first),
    };
    let text = account(&case);
    print!("{text}");
    if first == Fate::Same {
        println!("it did not show again, so it was not made small");
    }
    match fs::write(LEFT_IN, text) {
        Ok(()) => println!("left in {LEFT_IN}; see it again by: random_calls replay {LEFT_IN}"),
        Err(error) => println!("{LEFT_IN}: {error}"),
    }
    exit(1)
}

/// For each call, how often each refusal was met (0: accepted); last, how often the answer
/// buffer was too short.
#[derive(Default)]
struct Tally([[u64; NO_ANSWER + 1]; 3]);

/// One above the greatest number of a refusal.
const NO_ANSWER: usize = 16;

impl Tally {
    fn print(&self, since: Instant) {
        let calls: u64 = self.0.iter().flatten().sum();
        let speed = calls as f64 / since.elapsed().as_secs_f64();
        println!("{calls} calls, {speed:.0} a second");
        for call in CALLS {
            let counts = &self.0[call as usize];
            let refused = call.refusals()[1..].iter();
            let refused: String = refused.map(|n| format!(" {n}:{}", counts[*n])).collect();
            println!(
                "  {}: accepted {}, refused{refused}, no answer {}",
                call.name(),
                counts[0],
                counts[NO_ANSWER]
            );
        }
    }

    /// Whether each call was accepted, refused in every way and left without an answer.
    fn is_full(&self) -> bool {
        CALLS.iter().all(|call| {
            let mut due = call.refusals().iter().chain(&[NO_ANSWER]);
            due.all(|n| self.0[*call as usize][*n] > 0)
        })
    }
}

fn run(seed: u64, calls: u64, time: Duration, talk: bool) -> Tally {
    let (mut dice, mut grounds) = (Dice(seed), Default::default());
    let (mut tally, start) = (Tally::default(), Instant::now());
    let mut next_line = Duration::from_secs(10);
    for count in 0..calls {
        let mut case = case(&mut dice);
        CURRENT.store(&mut case, SeqCst);
        let (fate, number) = compare(&case, &mut grounds);
        CURRENT.store(null_mut(), SeqCst);
        if fate != Fate::Same {
            found(case);
        }
        tally.0[case.call as usize][number.map_or(NO_ANSWER, |number| number as usize)] += 1;
        if count % 256 == 0 && talk && start.elapsed() > next_line {
            tally.print(start);
            next_line += Duration::from_secs(10);
        }
        if count % 256 == 0 && start.elapsed() > time {
            break;
        }
    }
    tally.print(start);
    tally
}

fn gate(calls: u64) {
    let tally = run(GATE_SEED, calls, Duration::MAX, false);
    if !tally.is_full() {
        println!("some refusal, or some acceptance, was never met");
        exit(1);
    }
}

fn replay(path: &str) {
    let case = fs::read_to_string(path)
        .ok()
        .and_then(|text| Case::parse(&text));
    let case = case.unwrap_or_else(|| usage(&format!("{path}: not a case"), HELP));
    print!("{}", account(&case));
    if fate(&case) != Fate::Same {
        println!("a difference");
        exit(1);
    }
    println!("no difference");
}

fn main() {
    let arguments: Vec<String> = env::args().skip(1).collect();
    let number = |name| option(&arguments, name, HELP);
    let (calls, minutes) = (number("--calls"), number("--minutes"));
    watch_faults();
    match arguments.first().map_or("", String::as_str) {
        "gate" => gate(calls.unwrap_or(GATE_CALLS)),
        "replay" if arguments.len() == 2 => replay(&arguments[1]),
        "soak" if calls.is_some() || minutes.is_some() => {
            let time = minutes.map_or(Duration::MAX, |m| Duration::from_secs(60 * m));
            let seed = number("--seed").unwrap_or(2);
            run(seed, calls.unwrap_or(u64::MAX), time, true);
        }
        "--help" => println!("{HELP}"),
        _ => usage("what to do?", HELP),
    }
}
