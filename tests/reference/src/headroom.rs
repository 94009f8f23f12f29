//! Request A.1 of document 02 (headroom for bursts), with A.11's scale, made from that text and from
//! document 01's metrics and split. Its writer had seen neither the product's code nor its definitions.

use crate::deal::split;
use crate::room::{carried, Breaker, Child, Room};
use crate::Watts;
use std::collections::BTreeMap;

const RANKS: usize = 16;

/// A figure for each rank, at the rank's own place; place 0 stays 0.
pub(crate) type Row = [Watts; RANKS + 1];

/// A node in the second deal, rank by rank.
pub(crate) struct Asking {
    pub(crate) requests: Row,
    /// The Requests of its children, summed.
    pub(crate) children: Row,
    pcapmin: Row,
}

/// The headroom of each cord. The watts in use play no part: Requests come of lows, wants and limits,
/// and the split is document 01's own, without A.2's first passing.
pub fn headroom(room: &Room, wants: &[Watts]) -> Vec<Watts> {
    let ceilings = cord_ceilings(room);
    let mut node_ceilings = BTreeMap::new();
    for root in &room.trees {
        note_ceiling(root, &ceilings, &mut node_ceilings);
    }
    let lending = Lending {
        ceilings,
        node_ceilings,
        wants,
        askings: askings(room, wants),
    };
    let mut headroom = vec![0; room.cords.len()];
    for root in &room.trees {
        lending.lend(root, lending.spare(root), &mut headroom);
    }
    headroom
}

/// Every node's figures, by node number.
pub(crate) fn askings(room: &Room, wants: &[Watts]) -> BTreeMap<u32, Asking> {
    let mut askings = BTreeMap::new();
    for root in &room.trees {
        ask(root, wants, &mut askings);
    }
    askings
}

/// Notes the figures of a breaker and of all those beneath it.
fn ask(breaker: &Breaker, wants: &[Watts], askings: &mut BTreeMap<u32, Asking>) {
    let mut pcapmin = Row::default();
    let mut children = Row::default();
    for child in &breaker.children {
        match child {
            Child::Cord(cord) => {
                let rank = cord.rank as usize;
                pcapmin[rank] += cord.low;
                children[rank] += wants[cord.index];
            }
            Child::Breaker(lower) => {
                ask(lower, wants, askings);
                let lower = &askings[&lower.number];
                for rank in 1..=RANKS {
                    pcapmin[rank] += lower.pcapmin[rank];
                    children[rank] += lower.requests[rank];
                }
            }
        }
    }
    let mut requests = Row::default();
    for rank in (1..=RANKS).rev() {
        let higher_requests: Watts = requests[rank + 1..].iter().sum();
        let lower_pcapmin: Watts = pcapmin[..rank].iter().sum();
        let left = breaker.limit - higher_requests - lower_pcapmin;
        requests[rank] = left.min(children[rank]);
    }
    let asking = Asking {
        requests,
        children,
        pcapmin,
    };
    askings.insert(breaker.number, asking);
}

/// What each cord carries when its server draws its greatest.
fn cord_ceilings(room: &Room) -> Vec<Watts> {
    let mut ceilings = Vec::new();
    for server in &room.servers {
        for cord in &room.cords[server.cords.clone()] {
            ceilings.push(carried(cord.share, server.greatest, room.whole));
        }
    }
    ceilings
}

/// A breaker's ceiling, by those of its cords; notes it, and those of the breakers beneath, by number.
fn note_ceiling(breaker: &Breaker, cords: &[Watts], nodes: &mut BTreeMap<u32, Watts>) -> Watts {
    let mut below = 0;
    for child in &breaker.children {
        below += match child {
            Child::Breaker(lower) => note_ceiling(lower, cords, nodes),
            Child::Cord(cord) => cords[cord.index],
        };
    }
    let ceiling = breaker.limit.min(below);
    nodes.insert(breaker.number, ceiling);
    ceiling
}

struct Lending<'a> {
    /// One a cord, as are the wants.
    ceilings: Vec<Watts>,
    /// By node number, as are the askings.
    node_ceilings: BTreeMap<u32, Watts>,
    wants: &'a [Watts],
    askings: BTreeMap<u32, Asking>,
}

impl Lending<'_> {
    /// A breaker's ceiling less its Requests, those of all ranks.
    fn spare(&self, breaker: &Breaker) -> Watts {
        let requests: Watts = self.askings[&breaker.number].requests.iter().sum();
        self.node_ceilings[&breaker.number] - requests
    }

    /// A child's ceiling less its Requests; a cord's only Request is its want.
    fn weight(&self, child: &Child) -> Watts {
        match child {
            Child::Breaker(lower) => self.spare(lower),
            Child::Cord(cord) => self.ceilings[cord.index] - self.wants[cord.index],
        }
    }

    /// Gives an amount to a breaker's children and through them to the cords.
    fn lend(&self, breaker: &Breaker, amount: Watts, headroom: &mut [Watts]) {
        let weights: Vec<Watts> = breaker.children.iter().map(|c| self.weight(c)).collect();
        assert!(amount >= 0 && weights.iter().all(|&weight| weight >= 0));
        for (child, part) in breaker.children.iter().zip(split(amount, &weights)) {
            match child {
                Child::Breaker(lower) => self.lend(lower, part, headroom),
                Child::Cord(cord) => headroom[cord.index] = part,
            }
        }
    }
}
