//! The program and its print.

use crate::room::Room;
use crate::{number, plan, Plan, Refusal};

const MOST_BYTES: usize = 32_768;
const MOST_LINES: usize = 513;
/// One above the greatest demand, so that Plan turns it back.
const NO_DEMAND: u32 = 16_777_216;

/// What `hutplan` prints for a file (None: missing) and standard input.
pub fn print(room_bin: Option<&[u8]>, stdin: &[u8]) -> String {
    let file = room_bin.unwrap_or_default();
    let sheet = &file[..file.len().min(MOST_BYTES)];
    match planned(sheet, &demands(stdin)) {
        Ok((room, plan)) => printed(&room, &plan),
        Err(Refusal { number, place }) => format!("refused {number} at {place}\n"),
    }
}

/// The program lends lists long enough for every room, so there is no refusal from 12 to 15.
fn planned(sheet: &[u8], demands: &[u32]) -> Result<(Room, Plan), Refusal> {
    let room = Room::of_words(&number::words(sheet)?)?;
    plan::check_demands(&room, demands)?;
    let plan = plan::deals(&room, demands).answer();
    Ok((room, plan))
}

fn demands(stdin: &[u8]) -> Vec<u32> {
    let lines = stdin.split_inclusive(|&byte| byte == b'\n');
    lines.take(MOST_LINES).map(demand).collect()
}

/// A line's demand, the line with its newline or (the last) without.
fn demand(line: &[u8]) -> u32 {
    let digits = line.strip_suffix(b"\n").unwrap_or(line);
    if !(1..=8).contains(&digits.len()) || !digits.iter().all(u8::is_ascii_digit) {
        return NO_DEMAND;
    }
    digits
        .iter()
        .fold(0, |tens, digit| tens * 10 + u32::from(digit - b'0'))
}

fn printed(room: &Room, plan: &Plan) -> String {
    let mut lines = vec![format!("freed {}", plan.freed)];
    for ((server, cap), number) in room.servers.iter().zip(&plan.caps).zip(1..) {
        lines.push(format!("server {number} cap {cap}"));
        for (index, number) in server.cords.clone().zip(1..) {
            let (node, grant) = (room.cords[index].node, plan.grants[index]);
            let (headroom, held) = (plan.headroom[index], plan.held[index]);
            lines.push(format!(
                "cord {number} node {node} grant {grant} headroom {headroom} held {held}"
            ));
        }
    }
    lines.push(String::new());
    lines.join("\n")
}
