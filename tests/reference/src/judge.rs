//! Request A.9 of document 02 (judging a given list of grants), made from that text and from document
//! 01's ways of dealing, before the product had a line of it and from no other source. Its writer
//! wrote the product's afterwards.
//!
//! The greatest total is found without a deal: every cord starts at its low, and the cords of the rank
//! and above are raised one after another, each as far as its want and every breaker above it allow. Over
//! a tree of limits the order makes no difference to the sum; on tiny rooms it is compared with all
//! ways of dealing, counted out.

use crate::held::parents;
use crate::plan::{check_demands, first_wants};
use crate::room::{Breaker, Child, Cord, Room};
use crate::{Refusal, Watts};
use std::collections::BTreeMap;

/// The first failure of a list of grants, if it has one.
#[derive(Clone, Copy, Debug, PartialEq, Eq)]
pub enum Verdict {
    Passes,
    /// A cord, from 0.
    BelowLow(usize),
    AboveWant(usize),
    /// A node's number, as is the root's.
    OverLimit(u32),
    Short {
        root: u32,
        rank: u32,
    },
}

impl Verdict {
    /// The verdict's number, what it names and the rank; 0 for what it has not.
    pub fn numbers(self) -> [u64; 3] {
        match self {
            Verdict::Passes => [0, 0, 0],
            Verdict::BelowLow(cord) => [1, cord as u64, 0],
            Verdict::AboveWant(cord) => [2, cord as u64, 0],
            Verdict::OverLimit(node) => [3, node.into(), 0],
            Verdict::Short { root, rank } => [4, root.into(), rank.into()],
        }
    }
}

pub fn judge(table: &[u32], demands: &[u32], grants: &[u32]) -> Result<Verdict, Refusal> {
    let room = Room::of_words(table)?;
    check_demands(&room, demands)?;
    if grants.len() != room.cords.len() {
        return Err(Refusal::new(21, room.cords.len()));
    }
    let grants: Vec<Watts> = grants.iter().map(|&watts| watts.into()).collect();
    Ok(verdict(&room, &first_wants(&room, demands), &grants))
}

/// Each kind of failure is looked for in the whole room before the next.
fn verdict(room: &Room, wants: &[Watts], grants: &[Watts]) -> Verdict {
    let cord =
        |fails: &dyn Fn(&Cord) -> bool| room.cords.iter().find(|c| fails(c)).map(|c| c.index);
    let below = cord(&|c| grants[c.index] < c.low).map(Verdict::BelowLow);
    let above = || cord(&|c| grants[c.index] > wants[c.index]).map(Verdict::AboveWant);
    let over = || over_limit(room, grants).map(Verdict::OverLimit);
    let short = || short(room, wants, grants);
    below
        .or_else(above)
        .or_else(over)
        .or_else(short)
        .unwrap_or(Verdict::Passes)
}

/// The lowest breaker whose limit the grants beneath it pass.
fn over_limit(room: &Room, grants: &[Watts]) -> Option<u32> {
    room.trees
        .iter()
        .filter_map(|root| overrun(root, grants).1)
        .min()
}

/// The sum of the grants beneath, and the lowest breaker here that they overrun.
fn overrun(breaker: &Breaker, grants: &[Watts]) -> (Watts, Option<u32>) {
    let (mut sum, mut lowest) = (0, None);
    for child in &breaker.children {
        let (watts, over) = match child {
            Child::Breaker(lower) => overrun(lower, grants),
            Child::Cord(cord) => (grants[cord.index], None),
        };
        sum += watts;
        lowest = [lowest, over].into_iter().flatten().min();
    }
    let own = (sum > breaker.limit).then_some(breaker.number);
    (sum, [own, lowest].into_iter().flatten().min())
}

/// The lowest root that is short at some rank, and its highest such rank.
fn short(room: &Room, wants: &[Watts], grants: &[Watts]) -> Option<Verdict> {
    let raising = Raising::new(room);
    room.trees.iter().find_map(|tree| {
        let root = tree.number;
        let cords = cords(tree);
        let given = |rank| -> Watts {
            let from_rank = cords.iter().filter(|cord| cord.rank >= rank);
            from_rank.map(|cord| grants[cord.index]).sum()
        };
        let mut ranks = (1..=16).rev();
        let rank = ranks.find(|&rank| given(rank) < raising.greatest(&cords, rank, wants))?;
        Some(Verdict::Short { root, rank })
    })
}

/// The cords beneath a breaker, at any depth.
fn cords(breaker: &Breaker) -> Vec<Cord> {
    let of_child = |child: &Child| match child {
        Child::Breaker(lower) => cords(lower),
        Child::Cord(cord) => vec![*cord],
    };
    breaker.children.iter().flat_map(of_child).collect()
}

struct Raising {
    parents: BTreeMap<u32, u32>,
    /// What the lows beneath leave of each breaker's limit.
    spare: BTreeMap<u32, Watts>,
}

impl Raising {
    fn new(room: &Room) -> Raising {
        let mut raising = Raising {
            parents: parents(room),
            spare: BTreeMap::new(),
        };
        room.trees.iter().for_each(|root| raising.note(root));
        raising
    }

    fn note(&mut self, breaker: &Breaker) {
        let lows: Watts = cords(breaker).iter().map(|cord| cord.low).sum();
        self.spare.insert(breaker.number, breaker.limit - lows);
        for child in &breaker.children {
            if let Child::Breaker(lower) = child {
                self.note(lower);
            }
        }
    }

    /// The most that the cords of the rank and above can have together in any way of dealing their tree.
    fn greatest(&self, cords: &[Cord], rank: u32, wants: &[Watts]) -> Watts {
        let mut spare = self.spare.clone();
        let mut total = 0;
        for cord in cords.iter().filter(|cord| cord.rank >= rank) {
            let way: Vec<u32> = self.upward(cord.node);
            let allowed = way.iter().map(|node| spare[node]);
            let raised = allowed.fold(wants[cord.index] - cord.low, Watts::min);
            for node in way {
                spare.entry(node).and_modify(|watts| *watts -= raised);
            }
            total += cord.low + raised;
        }
        total
    }

    /// The breaker and all above it.
    fn upward(&self, breaker: u32) -> Vec<u32> {
        let above = |&number: &u32| Some(self.parents[&number]).filter(|&parent| parent != 0);
        std::iter::successors(Some(breaker), above).collect()
    }
}
