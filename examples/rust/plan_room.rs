//! Reads a room sheet, plans it, and prints the plan.
//!
//!     plan_room FILE [DEMAND]...
//!
//! There is one DEMAND for each server, in the table's order: watts in decimal.
//!
//! Prints the plan as hutplan does: a line `freed F`, and for each server a line `server N cap W`
//! with a line `cord K node M grant G headroom W held B` for each cord; or, with the
//! refusal's name beside its number, `refused R (NAME) at P`. hutplan.h lists the numbers and places.
//! Exit status: 0 if all was accepted, 1 if the sheet or the demands were refused, 2 if no FILE is
//! given or it cannot be read.

/// Read and Plan of `include/hutplan.h`, in safe Rust.
mod hutplan {
    extern "C" {
        fn hutplan_read(
            sheet: *const u8, sheet_len: u64,
            table: *mut u8, table_len: u64,
            answer: *mut u8, answer_len: u64,
        ) -> u32;
        fn hutplan_plan(
            table: *const u8, table_len: u64,
            demands: *const u8, demands_len: u64,
            grants: *mut u8, grants_len: u64,
            caps: *mut u8, caps_len: u64,
            headroom: *mut u8, headroom_len: u64,
            held: *mut u8, held_len: u64,
            answer: *mut u8, answer_len: u64,
        ) -> u32;
    }

    // The header's sizes, enough for every accepted input: no output is ever too short.
    const TABLE_BYTES: usize = 22540;
    const GRANTS_BYTES: usize = 4096;
    const CAPS_BYTES: usize = 2048;
    const HEADROOM_BYTES: usize = 4096;
    const HELD_BYTES: usize = 4096;
    const ANSWER_BYTES: usize = 16;

    /// Why an input was turned back, and where; `hutplan.h` lists the numbers and their places.
    #[derive(Debug, PartialEq)]
    pub struct Refusal {
        pub number: u64,
        pub place: u64,
    }

    /// The watts of a room: one grant and one figure of headroom a cord and one cap a server, in the
    /// table's order; and for each cord the node that holds it down, or 0.
    #[derive(Debug, PartialEq)]
    pub struct Plan {
        pub freed: u64,
        pub grants: Vec<u32>,
        pub caps: Vec<u32>,
        pub headroom: Vec<u32>,
        pub held: Vec<u32>,
    }

    /// What an answer says: the figure of accepted input, or the refusal.
    fn figure(answer: [u8; ANSWER_BYTES]) -> Result<u64, Refusal> {
        let number = u64::from_le_bytes(answer[..8].try_into().unwrap());
        let figure = u64::from_le_bytes(answer[8..].try_into().unwrap());
        match number {
            0 => Ok(figure),
            _ => Err(Refusal { number, place: figure }),
        }
    }

    /// A list of words as it passes: four bytes a word, low byte first.
    fn to_bytes(words: &[u32]) -> Vec<u8> {
        words.iter().flat_map(|word| word.to_le_bytes()).collect()
    }

    /// The first `count` words of such a list.
    fn to_words(bytes: &[u8], count: usize) -> Vec<u32> {
        let word = |bytes: &[u8]| u32::from_le_bytes(bytes.try_into().unwrap());
        bytes.chunks_exact(4).take(count).map(word).collect()
    }

    /// The index of an accepted table's count of servers: after the nodes, which have two words each
    /// in version 1 and three after it.
    pub fn servers_index(table: &[u32]) -> usize {
        let node_words = if table[0] == 1 { 2 } else { 3 };
        2 + node_words * table[1] as usize
    }

    /// Read: the words of a sheet's table.
    pub fn read(sheet: &[u8]) -> Result<Vec<u32>, Refusal> {
        let mut table = vec![0; TABLE_BYTES];
        let mut answer = [0; ANSWER_BYTES];
        // SAFETY: each pointer and length are those of one slice, and those that are written
        // belong to this function alone. The result is 1, as the answer has its sixteen bytes.
        unsafe {
            hutplan_read(
                sheet.as_ptr(), sheet.len() as u64,
                table.as_mut_ptr(), table.len() as u64,
                answer.as_mut_ptr(), answer.len() as u64,
            );
        }
        let words = figure(answer)?;
        Ok(to_words(&table, words as usize))
    }

    /// Plan: the watts of a table's room, with a demand for each server.
    pub fn plan(table: &[u32], demands: &[u32]) -> Result<Plan, Refusal> {
        let table_bytes = to_bytes(table);
        let demands_bytes = to_bytes(demands);
        let mut grants = vec![0; GRANTS_BYTES];
        let mut caps = vec![0; CAPS_BYTES];
        let mut headroom = vec![0; HEADROOM_BYTES];
        let mut held = vec![0; HELD_BYTES];
        let mut answer = [0; ANSWER_BYTES];
        // SAFETY: as in `read`.
        unsafe {
            hutplan_plan(
                table_bytes.as_ptr(), table_bytes.len() as u64,
                demands_bytes.as_ptr(), demands_bytes.len() as u64,
                grants.as_mut_ptr(), grants.len() as u64,
                caps.as_mut_ptr(), caps.len() as u64,
                headroom.as_mut_ptr(), headroom.len() as u64,
                held.as_mut_ptr(), held.len() as u64,
                answer.as_mut_ptr(), answer.len() as u64,
            );
        }
        let freed = figure(answer)?;
        // Accepted, so there is one demand a server, and after the count of servers the table has
        // four words a server and two a cord.
        let servers = demands.len();
        let cords = (table.len() - servers_index(table) - 1 - 4 * servers) / 2;
        Ok(Plan {
            freed,
            grants: to_words(&grants, cords),
            caps: to_words(&caps, servers),
            headroom: to_words(&headroom, cords),
            held: to_words(&held, cords),
        })
    }
}

mod refusal_names;

use std::path::PathBuf;
use std::process::exit;

/// More watts than a demand may have.
const NO_DEMAND: u32 = 16_777_216;

/// The watts that an argument says. What is not one to eight digits counts as too many watts, so
/// that Plan refuses it and tells its place.
fn demand(text: &str) -> u32 {
    let digits = text.bytes().all(|byte| byte.is_ascii_digit());
    if digits && text.len() <= 8 { text.parse().unwrap_or(NO_DEMAND) } else { NO_DEMAND }
}

/// The value, or the refusal on standard output and exit status 1.
fn accepted<T>(result: Result<T, hutplan::Refusal>) -> T {
    result.unwrap_or_else(|refusal| {
        let name = refusal_names::refusal_name(refusal.number);
        println!("refused {} ({name}) at {}", refusal.number, refusal.place);
        exit(1)
    })
}

/// Prints the plan of an accepted table, which has all its words, so that no index is out of range.
fn print(table: &[u32], plan: &hutplan::Plan) {
    println!("freed {}", plan.freed);
    let mut at = hutplan::servers_index(table) + 1;
    let mut place = 0; // of the next cord's figures
    for (server, cap) in (1..).zip(&plan.caps) {
        println!("server {server} cap {cap}");
        let cords = table[at + 3]; // after rank, least and greatest
        at += 4;
        for cord in 1..=cords {
            let (node, grant) = (table[at], plan.grants[place]);
            let (headroom, held) = (plan.headroom[place], plan.held[place]);
            println!("cord {cord} node {node} grant {grant} headroom {headroom} held {held}");
            at += 2; // node and share
            place += 1;
        }
    }
}

fn main() {
    let mut arguments = std::env::args_os().skip(1);
    let path = arguments.next().map(PathBuf::from).unwrap_or_else(|| {
        eprintln!("usage: plan_room FILE [DEMAND]...");
        exit(2)
    });
    let sheet = std::fs::read(&path).unwrap_or_else(|error| {
        eprintln!("{}: {error}", path.display());
        exit(2)
    });
    let demands: Vec<u32> = arguments.map(|text| demand(&text.to_string_lossy())).collect();

    let table = accepted(hutplan::read(&sheet));
    let plan = accepted(hutplan::plan(&table, &demands));
    print(&table, &plan);
}
