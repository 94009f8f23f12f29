//! What requests A.8 and A.10 say of joined and parted huts, over tiny rooms: a joined room's plan is
//! both rooms' plans, and every cut of every room is tried.

use crate::family::{drawn, Case};
use crate::room::Room;
use reference::join::{join, joined_plan};
use reference::part::part;
use reference::{plan, Plan, Refusal};

const ANY: usize = 1 << 20;

/// Drawn rooms that pass the room checks.
fn good(seed: u64, count: usize) -> Vec<Case> {
    let mut cases = drawn(seed, count);
    cases.retain(|(room, _)| room.first_exceeded(&room.lows()).is_none());
    cases
}

fn planned(table: &[u32], demands: &[u32]) -> Plan {
    plan(table, demands, [ANY; 4]).expect("a good room")
}

#[test]
fn a_joined_room_has_both_plans() {
    let cases = good(0x9E6C_63D0_876A_3F35, 20_000);
    let (mut freed, mut held, mut lent) = (0, 0, 0);
    for pair in cases.windows(2) {
        let [(first, demands), (second, others)] = [&pair[0], &pair[1]];
        let joined = join(&first.table(), &second.table(), ANY).expect("a joined room");
        let ours = planned(&first.table(), demands);
        let theirs = planned(&second.table(), others);
        freed += usize::from(ours.freed > 0 && theirs.freed > 0);
        held += usize::from(theirs.held.iter().any(|&node| node > 0));
        lent += usize::from(theirs.headroom.iter().any(|&watts| watts > 0));
        let both = joined_plan(ours, theirs, first.nodes.len() as u32);
        let demands = [&demands[..], others].concat();
        assert_eq!(planned(&joined, &demands), both, "{pair:?}");
    }
    assert!(freed > 100, "{freed}");
    assert!(held > 3_000 && lent > 3_000, "{held} {lent}");
}

#[test]
fn a_joined_room_is_parted_into_both() {
    for pair in good(0xE703_7ED1_A0B4_28DB, 10_000).windows(2) {
        let [first, second] = [&pair[0].0, &pair[1].0];
        let halves = [first.table(), second.table()];
        let joined = join(&halves[0], &halves[1], ANY).expect("a joined room");
        let counts = (first.nodes.len() as u64, first.servers.len() as u64);
        let lengths = [halves[0].len(), halves[1].len()];
        assert_eq!(part(&joined, counts.0, counts.1, lengths), Ok(halves));
    }
}

/// Every count from 0 to one too many.
#[test]
fn every_cut_is_made_or_refused() {
    let (mut made, mut parents, mut cords) = (0, 0, 0);
    for (room, demands) in good(0x8EBC_6AF0_9C88_C6E3, 10_000) {
        for nodes in 0..room.nodes.len() + 2 {
            for servers in 0..room.servers.len() + 2 {
                let parts = part(&room.table(), nodes as u64, servers as u64, [ANY; 2]);
                let Some((number, place)) = fault(&room, nodes, servers) else {
                    let [first, second] = parts.expect("a good cut");
                    check_parts(&room, &demands, &first, &second);
                    let counts = [first[1], first[2 + 2 * nodes]];
                    assert_eq!(counts, [nodes as u32, servers as u32], "{room:?}");
                    made += 1;
                    continue;
                };
                assert_eq!(parts, Err(Refusal { number, place }), "{room:?}");
                let in_nodes = place < 2 + 2 * room.nodes.len() as u64;
                parents += usize::from(number == 23 && in_nodes);
                cords += usize::from(number == 23 && !in_nodes);
            }
        }
    }
    assert!(made > 1_000, "{made}");
    assert!(parents > 1_000 && cords > 1_000, "{parents} {cords}");
}

/// Joined, the parts are the room; and its plan is their plans.
fn check_parts(room: &Room, demands: &[u32], first: &[u32], second: &[u32]) {
    let table = room.table();
    assert_eq!(join(first, second, ANY), Ok(table.clone()), "{room:?}");
    let (ours, theirs) = demands.split_at(first[2 + 2 * first[1] as usize] as usize);
    let plans = (planned(first, ours), planned(second, theirs));
    let both = joined_plan(plans.0, plans.1, first[1]);
    assert_eq!(planned(&table, demands), both, "{room:?}");
}

/// Why the room is not parted there: 22 or 23 and the place.
fn fault(room: &Room, nodes: usize, servers: usize) -> Option<(u64, u64)> {
    if nodes == 0 || nodes >= room.nodes.len() {
        return Some((22, 0));
    }
    if servers > room.servers.len() {
        return Some((22, 1));
    }
    let cut = nodes as u32;
    let parents = (cut + 1..=room.nodes.len() as u32).filter(|&node| room.parent(node) > 0);
    let mut crossing: Vec<usize> = parents
        .filter(|&node| room.parent(node) <= cut)
        .map(|node| 2 * node as usize)
        .collect();
    for cord in room.cords() {
        let wrong = match cord.server < servers {
            true => cord.node > cut,
            false => cord.node <= cut,
        };
        // Before a cord's node stand three words, two a node, four a server and two a cord.
        let index = 3 + 2 * room.nodes.len() + 4 * (cord.server + 1) + 2 * cord.index;
        crossing.extend(wrong.then_some(index));
    }
    crossing.first().map(|&index| (23, index as u64))
}
