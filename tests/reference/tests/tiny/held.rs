//! Held cords over every tiny room: the breaker that document 02's request A.5 names, with the Requests
//! computed again for each question, and what the request says of it.

use crate::family::{drawn, listed};
use crate::room::Cord;
use crate::splits::{Child, Deal};
use reference::plan::deals;
use reference::Watts;

#[test]
fn a_cord_short_of_its_want_hangs_beneath_a_full_breaker() {
    let cases = [listed(), drawn(0xD1B5_4A32_D192_ED03, 5_000)].concat();
    let (mut own, mut above, mut higher_rank, mut lower) = (0, 0, 0, 0);
    for (room, demands) in cases {
        let Ok(grown) = reference::room::Room::of_words(&room.table()) else {
            continue;
        };
        let ours = deals(&grown, &demands);
        let deal = Deal {
            room: &room,
            wants: &ours.second_wants,
            starts: &ours.used,
            grants: &ours.second_grants,
        };
        for cord in room.cords() {
            let named = ours.held[cord.index];
            if ours.second_grants[cord.index] == ours.second_wants[cord.index] {
                assert_eq!(named, 0, "{room:?}");
                continue;
            }
            assert_eq!(Some(named), first_cut(&deal, &cord), "{room:?}");
            lower += check_full(&deal, named, cord.rank);
            own += usize::from(named == cord.node);
            above += usize::from(named != cord.node);
            higher_rank += usize::from(!cut(&deal, named, cord.rank));
        }
    }
    assert!(
        own > 3_000 && above > 1_000 && lower > 1_000,
        "{own} {above} {lower}"
    );
    // A breaker that is cut at a higher rank and not at the cord's own is rare.
    assert!(higher_rank > 50, "{higher_rank}");
}

/// The first breaker on the way down to the cord that is cut at its rank or a higher one.
fn first_cut(deal: &Deal, cord: &Cord) -> Option<u32> {
    let mut way = deal.room.upward(cord.node);
    way.reverse();
    // Only these ranks have cords in these rooms.
    let ranks: Vec<u32> = [1, 2, 16].into_iter().filter(|&r| r >= cord.rank).collect();
    way.into_iter()
        .find(|&node| ranks.iter().any(|&rank| cut(deal, node, rank)))
}

fn cut(deal: &Deal, node: u32, rank: u32) -> bool {
    let children = deal.children(node);
    let asked: Watts = children.iter().map(|c| deal.request(c, rank)).sum();
    deal.request(&Child::Node(node), rank) < asked
}

/// The grants beneath the breaker make up its limit, and those of lower ranks are lows. How many are.
fn check_full(deal: &Deal, node: u32, rank: u32) -> usize {
    let beneath = deal.room.beneath(node);
    let grants: Watts = beneath.iter().map(|c| deal.grants[c.index]).sum();
    assert_eq!(grants, deal.room.limit(node), "{:?}", deal.room);
    let lower: Vec<&Cord> = beneath.iter().filter(|c| c.rank < rank).collect();
    for cord in &lower {
        assert_eq!(deal.grants[cord.index], cord.low, "{:?}", deal.room);
    }
    lower.len()
}
