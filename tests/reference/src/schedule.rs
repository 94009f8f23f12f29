//! Breaker schedules (document 02, A.12): a text of lines to a table, its C call, and what the
//! program writes. It was written from that text, and landed with the product's own: it is not to be
//! taken for another hand's.

use crate::call::{answered, put_words, WORD};
use crate::{fits, number, Refusal};

/// NEC 240.6(A), 2020 edition.
const SIZES: &str = "15 20 25 30 35 40 45 50 60 70 80 90 100 110 125 150 175 200 225 250 300 350 \
    400 450 500 600 700 800 1000 1200 1600 2000 2500 3000 4000 5000 6000";
const MOST_NODES: usize = 512;
const ANY_TABLE: usize = 1 << 20;

/// A schedule, with room for so many words: the table's words.
pub fn schedule(text: &[u8], room: usize) -> Result<Vec<u32>, Refusal> {
    let lines: Vec<&[u8]> = text.split_inclusive(|byte| *byte == b'\n').collect();
    let mut nodes = Vec::new();
    for (place, line) in lines.iter().enumerate() {
        let refused = |number| Err(Refusal::new(number, place));
        let Some([parent, amperes, volts]) = numbers(line) else {
            return refused(24);
        };
        if !SIZES.split(' ').any(|size| size == amperes.to_string()) {
            return refused(25);
        }
        if !(100..=480).contains(&volts) || parent as usize > place || place == MOST_NODES {
            return refused(26);
        }
        nodes.extend([parent, amperes * volts]);
    }
    if lines.is_empty() {
        return Err(Refusal::new(26, 0));
    }
    let table = [&[1, lines.len() as u32], &nodes[..], &[0]].concat();
    fits(12, table.len(), room)?;
    Ok(table)
}

/// The three numbers of a line that is of the form, none of them above 9,999.
fn numbers(line: &[u8]) -> Option<[u32; 3]> {
    let text = std::str::from_utf8(line.strip_suffix(b"\n")?).ok()?;
    let fields: Option<Vec<u32>> = text.split(' ').map(plain).collect();
    fields?.try_into().ok()
}

/// A number that is written just as it would be printed.
fn plain(field: &str) -> Option<u32> {
    let value: u32 = field.parse().ok()?;
    (value <= 9999 && value.to_string() == field).then_some(value)
}

/// The C call.
pub fn call(text: &[u8], table: &mut [u8], answer: &mut [u8]) -> u32 {
    answered(answer, || {
        let words = schedule(text, table.len() / WORD)?;
        put_words(&words, table);
        Ok([words.len() as u64])
    })
}

/// What the program writes to standard output and to standard error.
pub fn written(text: &[u8]) -> (Vec<u8>, String) {
    match schedule(text, ANY_TABLE) {
        Ok(table) => (number::bytes(&table), String::new()),
        Err(refusal) => {
            let Refusal { number, place } = refusal;
            (Vec::new(), format!("refused {number} at {place}\n"))
        }
    }
}
