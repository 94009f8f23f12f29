//! The metrics of a deal and the dealing, over trees of breakers: from document 01, by one who had seen no other
//! program for it. Request A.2, the second deal's starts, came later, from document 02 and by the product's own hand.

use crate::room::{Breaker, Child, Cord, Room};
use crate::Watts;
use std::collections::BTreeMap;

/// The first deal by these wants, one for each cord in table order: the grants.
pub fn first_deal(room: &Room, wants: &[Watts]) -> Vec<Watts> {
    let lows: Vec<Watts> = room.cords.iter().map(|cord| cord.low).collect();
    deal(room, wants, &lows)
}

/// The second deal, in which every breaker first passes on the watts in use over the lows beneath
/// each of its children.
pub fn second_deal(room: &Room, wants: &[Watts], used: &[Watts]) -> Vec<Watts> {
    deal(room, wants, used)
}

fn deal(room: &Room, wants: &[Watts], used: &[Watts]) -> Vec<Watts> {
    let mut grants: Vec<Watts> = room.cords.iter().map(|cord| cord.low).collect();
    for root in &room.trees {
        let part = weighed(root, wants, used);
        for rank in part.ranks() {
            part.hand_down(rank, part.excess(rank), &mut grants);
        }
    }
    grants
}

#[derive(Clone, Copy, Debug, Default)]
struct Metrics {
    pcapmin: Watts,
    request: Watts,
    /// What is passed on first: the watts in use less the lows.
    passed: Watts,
}

/// The metrics at each rank that has cords beneath; at every other rank all of them are 0.
type Row = BTreeMap<u32, Metrics>;

/// A child of a breaker, or a root, with its metrics.
enum Part {
    Cord(usize, u32, Metrics),
    Breaker(Row, Vec<Part>),
}

fn weighed(breaker: &Breaker, wants: &[Watts], used: &[Watts]) -> Part {
    let part = |child: &Child| match child {
        Child::Breaker(breaker) => weighed(breaker, wants, used),
        Child::Cord(cord) => weighed_cord(cord, wants[cord.index], used[cord.index]),
    };
    let children: Vec<Part> = breaker.children.iter().map(part).collect();
    Part::Breaker(held(&summed(&children), breaker.limit), children)
}

fn weighed_cord(cord: &Cord, want: Watts, used: Watts) -> Part {
    let metrics = Metrics {
        pcapmin: cord.low,
        request: want,
        passed: used - cord.low,
    };
    Part::Cord(cord.index, cord.rank, metrics)
}

/// The children's metrics, summed rank by rank.
fn summed(children: &[Part]) -> Row {
    let mut sums = Row::new();
    let mut add = |rank: u32, metrics: &Metrics| {
        let sum = sums.entry(rank).or_default();
        sum.pcapmin += metrics.pcapmin;
        sum.request += metrics.request;
        sum.passed += metrics.passed;
    };
    for child in children {
        match child {
            Part::Cord(_, rank, metrics) => add(*rank, metrics),
            Part::Breaker(row, _) => row.iter().for_each(|(rank, metrics)| add(*rank, metrics)),
        }
    }
    sums
}

/// The sums as a breaker of this limit lets them through, highest rank first.
fn held(sums: &Row, limit: Watts) -> Row {
    let mut higher_requests = 0;
    let mut lower_pcapmin: Watts = sums.values().map(|sum| sum.pcapmin).sum();
    let hold = |(&rank, sum): (&u32, &Metrics)| {
        lower_pcapmin -= sum.pcapmin;
        let request = sum.request.min(limit - higher_requests - lower_pcapmin);
        higher_requests += request;
        (rank, Metrics { request, ..*sum })
    };
    sums.iter().rev().map(hold).collect()
}

impl Part {
    fn ranks(&self) -> Vec<u32> {
        match self {
            Part::Cord(_, rank, _) => vec![*rank],
            Part::Breaker(row, _) => row.keys().copied().collect(),
        }
    }

    fn metrics(&self, rank: u32) -> Metrics {
        match self {
            Part::Cord(_, own, metrics) if *own == rank => *metrics,
            Part::Cord(..) => Metrics::default(),
            Part::Breaker(row, _) => row.get(&rank).copied().unwrap_or_default(),
        }
    }

    fn excess(&self, rank: u32) -> Watts {
        let metrics = self.metrics(rank);
        metrics.request - metrics.pcapmin
    }

    fn passed(&self, rank: u32) -> Watts {
        self.metrics(rank).passed
    }

    /// Gives the amount to the children: to each first what is passed on to it, and then its part of
    /// the rest, weighted by its excess less that. What reaches a cord joins its grant.
    fn hand_down(&self, rank: u32, amount: Watts, grants: &mut [Watts]) {
        match self {
            Part::Cord(index, ..) => grants[*index] += amount,
            Part::Breaker(_, children) => {
                let passed: Vec<_> = children.iter().map(|child| child.passed(rank)).collect();
                let weight = |child: &Part| child.excess(rank) - child.passed(rank);
                let weights: Vec<_> = children.iter().map(weight).collect();
                let rest = amount - passed.iter().sum::<Watts>();
                assert!(rest >= 0 && weights.iter().all(|&weight| weight >= 0));
                for ((child, passed), part) in
                    children.iter().zip(passed).zip(split(rest, &weights))
                {
                    // An amount of 0 gives nothing to anyone beneath.
                    if passed + part > 0 {
                        child.hand_down(rank, passed + part, grants);
                    }
                }
            }
        }
    }
}

/// The amount split by the weights. Each part is the step between two floored running parts, so
/// that no watt is lost.
pub fn split(amount: Watts, weights: &[Watts]) -> Vec<Watts> {
    let total: Watts = weights.iter().sum();
    if total == 0 {
        return vec![0; weights.len()];
    }
    let mut running = 0;
    let mut dealt = 0;
    let part = |weight: &Watts| {
        running += weight;
        let before = dealt;
        dealt = amount * running / total;
        dealt - before
    };
    weights.iter().map(part).collect()
}
