//! Judge: what is wrong with grants that somebody else made.

use super::deal::Nodes;
use super::plan::{check_demands, needs, Cords};
use super::table::{carried, Room, Table};
use super::{Outcome, Refusal};

const HIGHEST_RANK: u8 = 16;

/// Judge: the refusal and its place; or 0, the verdict, what it names and its rank.
pub fn judge(table: &[u8], demands: &[u8], grants: &[u8], answer: &mut [u8]) -> u32 {
    let Some(front) = answer.first_chunk_mut::<32>() else {
        return 0;
    };
    match judged(table, Table(demands), Table(grants)) {
        Ok([verdict, named, rank]) => put(&[0, verdict, named, rank], front),
        Err(Refusal(number, place)) => put(&[number, place], front),
    }
    1
}

fn judged(table: &[u8], demands: Table, grants: Table) -> Outcome<[u64; 3]> {
    let mut room = Room::empty();
    Table(table).scan(&mut room)?;
    check_demands(&room, demands)?;
    if grants.len() != room.cord_count {
        return Err(Refusal(21, room.cord_count as u64));
    }
    Ok(verdict(&room, demands, grants))
}

/// The first failure, each kind looked for in the whole room before the next.
fn verdict(room: &Room, demands: Table, list: Table) -> [u64; 3] {
    let mut grants = Cords::new();
    for (cord, word) in list.words().enumerate() {
        grants[cord] = word;
    }
    let needs = needs(room, demands);
    let mut wants = Cords::new();
    for c in 0..room.cord_count {
        wants[c] = carried(room.shares[c].into(), needs[usize::from(room.servers[c])], room.whole);
    }
    let cords = 0..room.cord_count;
    if let Some(cord) = cords.clone().find(|&c| grants[c] < room.lows[c]) {
        return [1, cord as u64, 0];
    }
    if let Some(cord) = cords.clone().find(|&c| grants[c] > wants[c]) {
        return [2, cord as u64, 0];
    }
    judge_nodes(room, &wants, &grants)
}

/// What stands on a node and beneath it.
#[derive(Clone, Copy)]
struct Notes {
    /// The watts that are given there over the lows.
    given: u64,
    /// The lowest rank that these are of; the highest of all if there are none.
    lowest: u8,
    /// The highest rank that could have more, 0 if none could.
    wanting: u8,
}

/// The verdict on grants within lows and wants. A cord can have more at the cost of lower ranks alone exactly if every node above it
/// has watts to spare or carries such watts of a lower rank; so each node's lowest and highest ranks tell.
fn judge_nodes(room: &Room, wants: &Cords, grants: &Cords) -> [u64; 3] {
    let mut notes = Nodes::new();
    notes.fill(room.node_count + 1, Notes { given: 0, lowest: HIGHEST_RANK, wanting: 0 });
    for c in 0..room.cord_count {
        let rank = room.ranks[c];
        notes[usize::from(room.nodes[c])].add(Notes {
            given: u64::from(grants[c] - room.lows[c]),
            lowest: if room.lows[c] < grants[c] { rank } else { HIGHEST_RANK },
            wanting: if grants[c] < wants[c] { rank } else { 0 },
        });
    }
    let (mut over, mut short) = (0, (0, 0));
    for n in (1..=room.node_count).rev() {
        let mut own = notes[n];
        let slack = u64::from(room.slack[n]);
        if slack < own.given {
            over = n;
        }
        if slack <= own.given && own.wanting <= own.lowest {
            own.wanting = 0;
        }
        if room.parents[n] == 0 && own.wanting != 0 {
            short = (n, own.wanting);
        }
        notes[usize::from(room.parents[n])].add(own);
    }
    match (over, short) {
        (0, (0, _)) => [0; 3],
        (0, (root, rank)) => [4, root as u64, rank.into()],
        (node, _) => [3, node as u64, 0],
    }
}

impl Notes {
    fn add(&mut self, more: Notes) {
        self.given += more.given;
        self.lowest = self.lowest.min(more.lowest);
        self.wanting = self.wanting.max(more.wanting);
    }
}

fn put(numbers: &[u64], bytes: &mut [u8]) {
    for (number, place) in numbers.iter().zip(bytes.chunks_exact_mut(8)) {
        place.copy_from_slice(&number.to_le_bytes());
    }
}
