//! Request A.5 of document 02 (which breaker holds a cord down), made from that text and from document
//! 01's metrics. Its writer had seen neither the product's code nor its definitions.

use crate::headroom::{askings, Asking};
use crate::room::{Breaker, Child, Cord, Room};
use crate::Watts;
use std::collections::BTreeMap;

/// The number of the node that holds each cord down, or 0 for a cord that has what it wants. The watts
/// in use play no part of their own; they are in the grants.
pub fn held(room: &Room, wants: &[Watts], grants: &[Watts]) -> Vec<u32> {
    let climb = Climb {
        askings: askings(room, wants),
        parents: parents(room),
    };
    let name = |cord: &Cord| {
        if grants[cord.index] == wants[cord.index] {
            0
        } else {
            climb.holder(cord)
        }
    };
    room.cords.iter().map(name).collect()
}

/// Each node's parent by the node's number; 0 over a root.
pub(crate) fn parents(room: &Room) -> BTreeMap<u32, u32> {
    let mut parents = BTreeMap::new();
    for root in &room.trees {
        note_parents(root, 0, &mut parents);
    }
    parents
}

fn note_parents(breaker: &Breaker, parent: u32, parents: &mut BTreeMap<u32, u32>) {
    parents.insert(breaker.number, parent);
    for child in &breaker.children {
        if let Child::Breaker(lower) = child {
            note_parents(lower, breaker.number, parents);
        }
    }
}

struct Climb {
    askings: BTreeMap<u32, Asking>,
    parents: BTreeMap<u32, u32>,
}

impl Climb {
    /// Climbs from the cord's own node to its root and names the last node met that cuts its children
    /// at the cord's rank or at a higher one.
    fn holder(&self, cord: &Cord) -> u32 {
        let mut holder = None;
        let mut number = cord.node;
        while number != 0 {
            if self.cuts(number, cord.rank) {
                holder = Some(number);
            }
            number = self.parents[&number];
        }
        let Some(number) = holder else {
            unreachable!("no node holds cord {} down", cord.index);
        };
        number
    }

    /// Whether a node asks for less than its children together, at this rank or any above it.
    fn cuts(&self, number: u32, rank: u32) -> bool {
        let asking = &self.askings[&number];
        let mut ranks = rank as usize..asking.requests.len();
        ranks.any(|rank| asking.requests[rank] < asking.children[rank])
    }
}
