//! The four calls as both sides make them, over buffers that a caller lends.

use crate::plain;

type In = *const u8;
type Out = *mut u8;

#[rustfmt::skip] // A line a buffer pair would be three times as long.
extern "C" {
    fn hutplan_read(sheet: In, sheet_len: usize, table: Out, table_len: usize, answer: Out, answer_len: usize) -> u32;
    fn hutplan_write(table: In, table_len: usize, sheet: Out, sheet_len: usize, answer: Out, answer_len: usize) -> u32;
    fn hutplan_plan(
        table: In, table_len: usize, demands: In, demands_len: usize,
        grants: Out, grants_len: usize, caps: Out, caps_len: usize, headroom: Out, headroom_len: usize,
        held: Out, held_len: usize, answer: Out, answer_len: usize,
    ) -> u32;
    fn hutplan_judge(
        table: In, table_len: usize, demands: In, demands_len: usize, grants: In, grants_len: usize,
        answer: Out, answer_len: usize,
    ) -> u32;
}

/// What the calls of one room take.
#[derive(Clone, Default)]
pub struct Inputs {
    pub sheet: Vec<u8>,
    pub table: Vec<u8>,
    pub demands: Vec<u8>,
    /// Those that Judge is asked about.
    pub grants: Vec<u8>,
}

/// What a call may write: the table, the sheet or the grants, Plan's other lists, and the answer.
#[derive(Clone, PartialEq)]
pub struct Outputs {
    pub first: Vec<u8>,
    pub caps: Vec<u8>,
    pub headroom: Vec<u8>,
    pub held: Vec<u8>,
    pub answer: Vec<u8>,
}

pub type Call = fn(&Inputs, &mut Outputs) -> u32;

/// Each call's name, the product's and the baseline's.
pub const CALLS: [(&str, Call, Call); 4] = [
    ("Read", product_read, |given, out| plain::read(&given.sheet, &mut out.first, &mut out.answer)),
    ("Write", product_write, |given, out| plain::write(&given.table, &mut out.first, &mut out.answer)),
    ("Plan", product_plan, plain_plan),
    ("Judge", product_judge, |given, out| plain::judge(&given.table, &given.demands, &given.grants, &mut out.answer)),
];

impl Outputs {
    pub fn of_lengths(first: usize, caps: usize, [headroom, held]: [usize; 2], answer: usize) -> Outputs {
        let filled = |length| vec![0xA5; length];
        Outputs {
            first: filled(first),
            caps: filled(caps),
            headroom: filled(headroom),
            held: filled(held),
            answer: filled(answer),
        }
    }

    /// Buffers a little longer than any accepted input needs.
    pub fn lent() -> Outputs {
        Outputs::of_lengths(4 * plain::DECIDING_WORDS, 2_052, [4_100; 2], 40)
    }

    /// The answer's two numbers.
    pub fn told(&self) -> (u64, u64) {
        let number = |at: usize| u64::from_le_bytes(self.answer[at..at + 8].try_into().unwrap());
        (number(0), number(8))
    }
}

fn product_read(given: &Inputs, out: &mut Outputs) -> u32 {
    let (sheet, table, answer) = (&given.sheet, &mut out.first, &mut out.answer);
    let (given, out, told) = (sheet.as_ptr(), table.as_mut_ptr(), answer.as_mut_ptr());
    // SAFETY: each pointer goes with its own vector's length, and the vectors lie apart; so below.
    unsafe { hutplan_read(given, sheet.len(), out, table.len(), told, answer.len()) }
}

fn product_write(given: &Inputs, out: &mut Outputs) -> u32 {
    let (table, sheet, answer) = (&given.table, &mut out.first, &mut out.answer);
    let (given, out, told) = (table.as_ptr(), sheet.as_mut_ptr(), answer.as_mut_ptr());
    // SAFETY: as for Read.
    unsafe { hutplan_write(given, table.len(), out, sheet.len(), told, answer.len()) }
}

#[rustfmt::skip] // A buffer's pointer and length stand on one line.
fn product_plan(given: &Inputs, out: &mut Outputs) -> u32 {
    // SAFETY: as for Read.
    unsafe {
        hutplan_plan(
            given.table.as_ptr(), given.table.len(),
            given.demands.as_ptr(), given.demands.len(),
            out.first.as_mut_ptr(), out.first.len(),
            out.caps.as_mut_ptr(), out.caps.len(),
            out.headroom.as_mut_ptr(), out.headroom.len(),
            out.held.as_mut_ptr(), out.held.len(),
            out.answer.as_mut_ptr(), out.answer.len(),
        )
    }
}

#[rustfmt::skip] // As above.
fn product_judge(given: &Inputs, out: &mut Outputs) -> u32 {
    // SAFETY: as for Read.
    unsafe {
        hutplan_judge(
            given.table.as_ptr(), given.table.len(),
            given.demands.as_ptr(), given.demands.len(),
            given.grants.as_ptr(), given.grants.len(),
            out.answer.as_mut_ptr(), out.answer.len(),
        )
    }
}

fn plain_plan(given: &Inputs, out: &mut Outputs) -> u32 {
    let lists =
        plain::Lists { grants: &mut out.first, caps: &mut out.caps, headroom: &mut out.headroom, held: &mut out.held };
    plain::plan(&given.table, &given.demands, lists, &mut out.answer)
}
