//! Demand 3 over two demand lists: the servers of rank r and above don't feel the demands below.

use crate::family::{drawn, Draw};
use crate::room::Room;
use reference::plan::{deals, Deals};
use reference::Watts;

#[test]
fn lower_demands_change_nothing_above() {
    let mut draw = Draw(0xD1B5_4A32_D192_ED03);
    let (mut compared, mut lower_changed) = (0, 0);
    for (room, demands) in drawn(0x1234_5678_9ABC_DEF1, 30_000) {
        let Ok(grown) = reference::room::Room::of_words(&room.table()) else {
            continue;
        };
        let ours = deals(&grown, &demands);
        for rank in [2, 16, 17] {
            let others = redrawn(&room, &demands, rank, &mut draw);
            let theirs = deals(&grown, &others);
            assert_eq!(
                from_rank(&room, &ours, rank),
                from_rank(&room, &theirs, rank),
                "{room:?} {demands:?} {others:?}"
            );
            let some_above = room.servers.iter().any(|server| server.rank >= rank);
            compared += usize::from(some_above && others != demands);
            lower_changed += usize::from(some_above && ours.second_grants != theirs.second_grants);
        }
    }
    assert!(compared > 5_000, "{compared}");
    assert!(lower_changed > 2_000, "{lower_changed}");
}

/// The demands with those of every server below the rank drawn again.
fn redrawn(room: &Room, demands: &[u32], rank: u32, draw: &mut Draw) -> Vec<u32> {
    let mut others = demands.to_vec();
    for (other, server) in others.iter_mut().zip(&room.servers) {
        if server.rank < rank {
            *other = draw.demand();
        }
    }
    others
}

/// The caps and grants of servers of the rank and above, after the first deal and the second.
fn from_rank(room: &Room, deals: &Deals, rank: u32) -> Vec<[Watts; 4]> {
    let mut cords = room.cords();
    cords.retain(|cord| cord.rank >= rank);
    let figures = cords.iter().map(|cord| {
        [
            deals.usable[cord.server],
            deals.caps[cord.server],
            deals.first_grants[cord.index],
            deals.second_grants[cord.index],
        ]
    });
    figures.collect()
}
