//! Pairs of tables to join, and tables with the counts to part them at.

use crate::damage;
use crate::dice::Dice;
use crate::rooms::{self, sized, Room};
use reference::join::join;

const MOST_NODES: usize = 512;
const MOST_SERVERS: usize = 512;
const MOST_CORDS: usize = 1_024;

/// Two tables that mostly fit. Else they are damaged, or of two versions, or have counts that sum to
/// about the most that a table may have.
pub fn pair(dice: &mut Dice) -> [Vec<u32>; 2] {
    let version = dice.within(1, 3);
    let rooms = match dice.below(20) {
        0..3 => return [damage::drawn(dice).1, damage::drawn(dice).1],
        3 => [rooms::room(dice), rooms::room(dice)],
        4 => large(dice, version),
        _ => [room_of(dice, version), room_of(dice, version)],
    };
    rooms.map(|room| room.words())
}

fn room_of(dice: &mut Dice, version: u32) -> Room {
    loop {
        let room = rooms::room(dice);
        if room.version == version {
            return room;
        }
    }
}

/// Rooms whose nodes, servers or cords together are as many as a table may have, or some more.
fn large(dice: &mut Dice, version: u32) -> [Room; 2] {
    let over = dice.pick(&[0, 0, 1, 1, 2, 50]);
    let few = 1 + dice.below(9);
    let sizes = match dice.below(4) {
        0 => {
            let nodes = 1 + dice.below(MOST_NODES - 1);
            let others = (MOST_NODES + over - nodes).min(MOST_NODES);
            [(nodes, few, MOST_CORDS), (others, few, MOST_CORDS)]
        }
        1 => {
            let servers = dice.below(MOST_SERVERS + 1);
            let others = (MOST_SERVERS + over - servers).min(MOST_SERVERS);
            // One cord each, so that the cords are not too many as well.
            [(few, servers, servers), (few, others, others)]
        }
        2 => return large_in_cords(dice, version, over),
        _ => [(256 + over, 256 + over, MOST_CORDS); 2],
    };
    sizes.map(|sizes| sized(dice, version, sizes))
}

/// The second has no more cords than the most of both less the first's, and mostly as many.
fn large_in_cords(dice: &mut Dice, version: u32, over: usize) -> [Room; 2] {
    let nodes = 1 + dice.below(9);
    let servers = 1 + dice.below(256);
    let first = sized(dice, version, (nodes, servers, MOST_CORDS));
    let left = (MOST_CORDS + over - first.cord_count()).min(MOST_CORDS);
    let servers = (left / 2).min(MOST_SERVERS - servers);
    let second = sized(dice, version, (nodes, servers, left));
    [first, second]
}

/// A table, and how many of its nodes and servers go to the first part.
pub struct Cut {
    pub table: Vec<u32>,
    pub nodes: u64,
    pub servers: u64,
}

/// One to four rooms joined, parted mostly where two of them meet. Else beside such a place,
/// anywhere, or nowhere in the room; or the table is damaged.
pub fn cut(dice: &mut Dice) -> Cut {
    let (mut table, ends) = joined(dice);
    let all = ends[ends.len() - 1];
    let meeting = ends[dice.below(ends.len() - 1)];
    let anywhere = [1 + dice.below(all[0] - 1), dice.below(all[1] + 1)].map(|count| count as u64);
    let [nodes, servers] = match dice.below(10) {
        0 => far(dice, meeting, all),
        1 => anywhere,
        2 => [meeting[0] as u64, anywhere[1]],
        3 => [anywhere[0], meeting[1] as u64],
        4 => meeting.map(|count| (count + dice.below(3)).saturating_sub(1) as u64),
        _ => meeting.map(|count| count as u64),
    };
    while dice.one_in(10) {
        damage::words(dice, &mut table);
    }
    Cut {
        table,
        nodes,
        servers,
    }
}

/// The words of the joined rooms, and after each of them the counts of nodes and servers so far.
fn joined(dice: &mut Dice) -> (Vec<u32>, Vec<[usize; 2]>) {
    let version = dice.within(1, 3);
    let first = room_of(dice, version);
    let mut ends = vec![[first.nodes.len(), first.servers.len()]];
    let mut table = first.words();
    for _ in 0..dice.pick(&[0, 1, 1, 2, 3]) {
        let next = room_of(dice, version);
        if let Ok(joined) = join(&table, &next.words(), usize::MAX) {
            let [nodes, servers] = ends[ends.len() - 1];
            ends.push([nodes + next.nodes.len(), servers + next.servers.len()]);
            table = joined;
        }
    }
    (table, ends)
}

/// Counts of which one at least is out of range, some of them good in their low 32 bits.
fn far(dice: &mut Dice, meeting: [usize; 2], all: [usize; 2]) -> [u64; 2] {
    let [nodes, servers] = meeting.map(|count| count as u64);
    let high = 1 << (32 + dice.below(32));
    let ends = all.map(|count| count as u64);
    let bad_nodes = dice.pick(&[0, ends[0], ends[0] + 1, high, high + nodes, u64::MAX]);
    let bad_servers = dice.pick(&[ends[1] + 1, ends[1] + 2, high, high + servers, u64::MAX]);
    dice.pick(&[
        [bad_nodes, servers],
        [nodes, bad_servers],
        [bad_nodes, bad_servers],
    ])
}

#[cfg(test)]
mod tests {
    use super::*;
    use reference::join::joined_plan;
    use reference::part::part;
    use reference::{plan, Plan, Refusal};
    use std::collections::BTreeSet;

    const ANY: usize = usize::MAX;

    fn planned(table: &[u32], demands: &[u32]) -> Plan {
        plan(table, demands, [ANY; 4]).expect("a good room")
    }

    fn good(table: &[u32]) -> bool {
        reference::room::Room::of_words(table).is_ok()
    }

    /// Request A.8 on rooms of all versions and shapes, now and then as large as can be.
    #[test]
    fn a_joined_room_has_both_plans() {
        let mut dice = Dice(3);
        let (mut joined, mut raised) = (0, 0);
        for _ in 0..6_000 {
            let [first, second] = pair(&mut dice);
            let Ok(both) = join(&first, &second, ANY) else {
                continue;
            };
            let mut of = |table: &[u32]| {
                let room = Room::parse(table).expect("a good table");
                rooms::demands(&mut dice, &room)
            };
            let (demands, others) = (of(&first), of(&second));
            let ours = planned(&first, &demands);
            let theirs = planned(&second, &others);
            raised += usize::from(theirs.held.iter().any(|&node| node > 0));
            let expected = joined_plan(ours, theirs, first[1]);
            assert_eq!(planned(&both, &[demands, others].concat()), expected);
            joined += 1;
        }
        assert!(joined > 3_000 && raised > 1_000, "{joined} {raised}");
    }

    /// Accepted, refused in every way by either table, with every place of 20, and full to the last.
    #[test]
    fn every_answer_of_join_is_met() {
        let mut dice = Dice(4);
        let (mut first_refused, mut told) = (BTreeSet::new(), BTreeSet::new());
        let mut most = [0; 3];
        for _ in 0..20_000 {
            let [first, second] = pair(&mut dice);
            match join(&first, &second, ANY) {
                Ok(table) => {
                    let room = Room::parse(&table).expect("a good table");
                    let counts = [room.nodes.len(), room.servers.len(), room.cord_count()];
                    most = [0, 1, 2].map(|k| most[k].max(counts[k]));
                }
                Err(Refusal { number: 20, place }) => drop(told.insert((20, place))),
                Err(Refusal { number, .. }) if good(&first) => drop(told.insert((number, 0))),
                Err(Refusal { number, .. }) => drop(first_refused.insert(number)),
            }
        }
        assert_eq!(first_refused, BTreeSet::from_iter(4..10));
        let due = (4..10).chain([19]).map(|number| (number, 0));
        let due = due.chain([0, 1, 2].map(|place| (20, place)));
        assert_eq!(told, BTreeSet::from_iter(due));
        assert_eq!(most, [MOST_NODES, MOST_SERVERS, MOST_CORDS]);
    }

    /// Parted and joined a room is what it was; and cuts meet every refusal but those of lists.
    #[test]
    fn every_answer_of_part_is_met() {
        let mut dice = Dice(5);
        let (mut told, mut parted) = (BTreeSet::new(), 0);
        for _ in 0..20_000 {
            let cut = cut(&mut dice);
            match part(&cut.table, cut.nodes, cut.servers, [ANY; 2]) {
                Ok([first, second]) => {
                    assert_eq!(join(&first, &second, ANY), Ok(cut.table));
                    parted += 1;
                }
                Err(Refusal { number: 22, place }) => drop(told.insert((22, place))),
                Err(Refusal { number, .. }) => drop(told.insert((number, 0))),
            }
        }
        assert!(parted > 5_000, "{parted}");
        let due = (4..10).chain([22, 23]).map(|number| (number, 0));
        assert_eq!(told, BTreeSet::from_iter(due.chain([(22, 1)])));
    }
}
