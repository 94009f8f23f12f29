//! The C calls: word lists as bytes, four a word, low byte first, figures of the cap loop as doubles,
//! and the answer buffer.

use crate::control::{step_all as step_each, Controller, Cord};
use crate::table::NEWEST_VERSION;
use crate::Refusal;

/// Bytes of a number of the answer, and of a word.
const NUMBER: usize = 8;
pub(crate) const WORD: usize = 4;

pub fn read(sheet: &[u8], table: &mut [u8], answer: &mut [u8]) -> u32 {
    answered(answer, || {
        let words = crate::read(sheet, table.len() / WORD)?;
        put_words(&words, table);
        Ok([words.len() as u64])
    })
}

pub fn write(table: &[u8], sheet: &mut [u8], answer: &mut [u8]) -> u32 {
    answered(answer, || {
        let bytes = crate::write(&words(table), sheet.len())?;
        sheet[..bytes.len()].copy_from_slice(&bytes);
        Ok([bytes.len() as u64])
    })
}

pub fn plan(
    table: &[u8],
    demands: &[u8],
    grants: &mut [u8],
    caps: &mut [u8],
    headroom: &mut [u8],
    held: &mut [u8],
    answer: &mut [u8],
) -> u32 {
    answered(answer, || {
        let bytes = [grants.len(), caps.len(), headroom.len(), held.len()];
        let spaces = bytes.map(|bytes| bytes / WORD);
        let plan = crate::plan(&words(table), &words(demands), spaces)?;
        put_words(&plan.grants, grants);
        put_words(&plan.caps, caps);
        put_words(&plan.headroom, headroom);
        put_words(&plan.held, held);
        Ok([plan.freed])
    })
}

/// Send, whose answer is longer: where it is accepted, the new position follows.
pub fn send(count: u64, position: u64, m: u64, list: &mut [u8], answer: &mut [u8]) -> u32 {
    answered(answer, || {
        let period = crate::send::send(count, position, m, list.len() / WORD)?;
        put_words(&period.named, list);
        Ok([period.named.len() as u64, period.position])
    })
}

/// Release: the number of the release that it is asked of, and the newest version of the sheet.
pub fn release(number: u64, answer: &mut [u8]) -> u32 {
    answered(answer, || Ok([number, u64::from(NEWEST_VERSION)]))
}

/// Judge: where it is accepted, the verdict's three numbers.
pub fn judge(table: &[u8], demands: &[u8], grants: &[u8], answer: &mut [u8]) -> u32 {
    answered(answer, || {
        let verdict = crate::judge::judge(&words(table), &words(demands), &words(grants))?;
        Ok(verdict.numbers())
    })
}

/// A step: the controller's cap, k, low and high; and each cord's mark, budget and measured watts.
pub fn step(
    controller: &mut [f64; 4],
    working: &[u8; 4],
    budgets: &[f64; 4],
    measured: &[f64; 4],
    answer: &mut [u8],
) -> u32 {
    answered(answer, || {
        controller[0] = controller_of(controller).step(cords_of(working, budgets, measured))?;
        Ok([0])
    })
}

/// A step of every controller: the figures of each, four a controller, then the marks, the budgets and
/// the measured watts of their cords, four a controller, and the results, one a controller.
pub fn step_all(
    controllers: &mut [f64],
    working: &[u8],
    budgets: &[f64],
    measured: &[f64],
    results: &mut [u8],
    answer: &mut [u8],
) -> u32 {
    answered(answer, || {
        let count = controllers.len() / 4;
        let fours = [working.len(), budgets.len(), measured.len()];
        if count > 512 || fours != [4 * count; 3] || results.len() != count {
            return Err(Refusal::new(18, count));
        }
        let found: Vec<Controller> = controllers.chunks_exact(4).map(controller_of).collect();
        let cords = |i| cords_of(&working[i..], &budgets[i..], &measured[i..]);
        let cords: Vec<[Cord; 4]> = (0..count).map(|i| cords(4 * i)).collect();
        for (i, (cap, number)) in step_each(&found, &cords).into_iter().enumerate() {
            results[i] = number as u8;
            if number == 0 {
                controllers[4 * i] = cap;
            }
        }
        let stepped = results.iter().filter(|number| **number == 0);
        Ok([stepped.count() as u64])
    })
}

fn controller_of(figures: &[f64]) -> Controller {
    let [cap, k, low, high] = [figures[0], figures[1], figures[2], figures[3]];
    Controller { cap, k, low, high }
}

/// The first four cords of the lists.
fn cords_of(working: &[u8], budgets: &[f64], measured: &[f64]) -> [Cord; 4] {
    [0, 1, 2, 3].map(|i| (working[i] != 0).then_some((budgets[i], measured[i])))
}

/// Runs the call if its answer fits, and answers: 0 and so many figures, or a refusal's number and
/// place, what follows these untouched.
pub(crate) fn answered<const FIGURES: usize>(
    answer: &mut [u8],
    call: impl FnOnce() -> Result<[u64; FIGURES], Refusal>,
) -> u32 {
    let Some(answer) = answer.get_mut(..NUMBER * (1 + FIGURES)) else {
        return 0;
    };
    let numbers = match call() {
        Ok(figures) => [&[0], &figures[..]].concat(),
        Err(refusal) => vec![refusal.number, refusal.place],
    };
    for (number, eight) in numbers.iter().zip(answer.chunks_exact_mut(NUMBER)) {
        eight.copy_from_slice(&number.to_le_bytes());
    }
    1
}

/// The whole words of a list; bytes over at its end are none.
pub(crate) fn words(list: &[u8]) -> Vec<u32> {
    let word = |four: &[u8]| {
        let mut bytes = [0; WORD];
        bytes.copy_from_slice(four);
        u32::from_le_bytes(bytes)
    };
    list.chunks_exact(WORD).map(word).collect()
}

/// The words at the front of a list with room for them.
pub(crate) fn put_words(words: &[u32], list: &mut [u8]) {
    for (word, four) in words.iter().zip(list.chunks_exact_mut(WORD)) {
        four.copy_from_slice(&word.to_le_bytes());
    }
}
