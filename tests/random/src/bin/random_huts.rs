//! Random huts with what the reference prints for them, written out for a test in another language.

use random::arguments::option;
use random::damage;
use random::dice::Dice;
use random::rooms;
use std::env;
use std::fmt::Write;

const HELP: &str = "\
random_huts: huts, demands and the reference's prints, for the tests of the desk's page

  random_huts [--count N] [--seed S]

Writes a JSON object a line: the sheet in hexadecimal, the demands and what hutplan is to print. Goes on
until so many huts are accepted; those that are refused on the way stand among them.";

const COUNT: u64 = 500;

/// A sheet, and the demands as lines; every ninth sheet is damaged.
fn trial(dice: &mut Dice) -> (Vec<u8>, String) {
    let (_, words, demands) = damage::drawn(dice);
    let mut sheet = rooms::sheet(&words);
    if dice.one_in(9) {
        damage::bytes(dice, &mut sheet);
    }
    let lines = demands.iter().map(|demand| format!("{demand}\n"));
    (sheet, lines.collect())
}

fn hexadecimal(bytes: &[u8]) -> String {
    bytes.iter().fold(String::new(), |mut text, byte| {
        write!(text, "{byte:02x}").expect("memory");
        text
    })
}

fn main() {
    let arguments: Vec<String> = env::args().skip(1).collect();
    if arguments.first().is_some_and(|first| first == "--help") {
        println!("{HELP}");
        return;
    }
    let mut accepted_left = option(&arguments, "--count", HELP).unwrap_or(COUNT);
    let mut dice = Dice(option(&arguments, "--seed", HELP).unwrap_or(1));
    while accepted_left > 0 {
        let (sheet, demands) = trial(&mut dice);
        let print = reference::print(Some(&sheet), demands.as_bytes());
        accepted_left -= u64::from(print.starts_with("freed"));
        // Debug quotes these as JSON does: they have digits, letters, spaces and newlines alone.
        let sheet = hexadecimal(&sheet);
        println!("{{\"sheet\": {sheet:?}, \"demands\": {demands:?}, \"print\": {print:?}}}");
    }
}
