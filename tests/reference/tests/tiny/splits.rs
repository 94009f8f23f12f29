//! Every split of a deal, held against its definition: the metrics are computed again for each
//! question, straight from document 01's sentences, and nothing is kept.

use crate::family::{drawn, listed};
use crate::room::{Cord, Room};
use reference::plan::deals;
use reference::Watts;

#[test]
fn every_amount_is_the_step_between_floors() {
    let cases = [listed(), drawn(0x5851_F42D_4C95_7F2D, 5_000)].concat();
    let mut uneven = [0, 0];
    for (room, demands) in cases {
        let Ok(grown) = reference::room::Room::of_words(&room.table()) else {
            continue;
        };
        let ours = deals(&grown, &demands);
        let first = Deal {
            room: &room,
            wants: &ours.first_wants,
            starts: &room.lows(),
            grants: &ours.first_grants,
        };
        let second = Deal {
            room: &room,
            wants: &ours.second_wants,
            starts: &ours.used,
            grants: &ours.second_grants,
        };
        for rank in [1, 2, 16] {
            uneven[0] += first.check(rank);
            uneven[1] += second.check(rank);
        }
    }
    assert!(uneven[0] > 2_000 && uneven[1] > 200, "{uneven:?}");
}

pub struct Deal<'a> {
    pub room: &'a Room,
    pub wants: &'a [Watts],
    /// What each cord has before anything is split: its low, or its used watts.
    pub starts: &'a [Watts],
    pub grants: &'a [Watts],
}

pub enum Child {
    Node(u32),
    Cord(Cord),
}

impl Deal<'_> {
    /// Checks the roots' amounts and every split, and counts the splits with a remainder.
    fn check(&self, rank: u32) -> usize {
        for root in self.room.roots() {
            let root = Child::Node(root);
            assert_eq!(self.amount(&root, rank), self.excess(&root, rank));
        }
        let uneven = |&node: &u32| self.check_split(node, rank);
        self.room.numbers().filter(uneven).count()
    }

    fn check_split(&self, node: u32, rank: u32) -> bool {
        let children = self.children(node);
        let passed = |child: &Child| self.above_low(child, rank, self.starts);
        let amount =
            self.amount(&Child::Node(node), rank) - children.iter().map(passed).sum::<Watts>();
        let weight = |child: &Child| self.excess(child, rank) - passed(child);
        let weights: Vec<_> = children.iter().map(weight).collect();
        let total: Watts = weights.iter().sum();
        let running = |count: usize| weights[..count].iter().sum::<Watts>();
        let mut uneven = false;
        for (before, child) in children.iter().enumerate() {
            let expected = match total {
                0 => 0,
                _ => amount * running(before + 1) / total - amount * running(before) / total,
            };
            assert_eq!(
                self.amount(child, rank),
                passed(child) + expected,
                "{:?}",
                self.room
            );
            uneven |= total > 0 && amount * running(before + 1) % total > 0;
        }
        uneven
    }

    pub fn children(&self, node: u32) -> Vec<Child> {
        let numbers = self.room.numbers();
        let nodes = numbers.filter(|&number| self.room.parent(number) == node);
        let cords = self
            .room
            .cords()
            .into_iter()
            .filter(|cord| cord.node == node);
        nodes
            .map(Child::Node)
            .chain(cords.map(Child::Cord))
            .collect()
    }

    /// What reached the child: all above the lows that its cords of the rank were granted.
    fn amount(&self, child: &Child, rank: u32) -> Watts {
        self.above_low(child, rank, self.grants)
    }

    /// What the child's cords of the rank have above their lows, of these figures.
    fn above_low(&self, child: &Child, rank: u32, figures: &[Watts]) -> Watts {
        let mut cords = match child {
            Child::Node(node) => self.room.beneath(*node),
            Child::Cord(cord) => vec![*cord],
        };
        cords.retain(|cord| cord.rank == rank);
        cords
            .iter()
            .map(|cord| figures[cord.index] - cord.low)
            .sum()
    }

    fn excess(&self, child: &Child, rank: u32) -> Watts {
        self.request(child, rank) - self.pcapmin(child, rank)
    }

    fn pcapmin(&self, child: &Child, rank: u32) -> Watts {
        match child {
            Child::Cord(cord) if cord.rank == rank => cord.low,
            Child::Cord(_) => 0,
            Child::Node(node) => {
                let children = self.children(*node);
                children.iter().map(|c| self.pcapmin(c, rank)).sum()
            }
        }
    }

    pub fn request(&self, child: &Child, rank: u32) -> Watts {
        match child {
            Child::Cord(cord) if cord.rank == rank => self.wants[cord.index],
            Child::Cord(_) => 0,
            Child::Node(node) => {
                let children = self.children(*node);
                let asked: Watts = children.iter().map(|c| self.request(c, rank)).sum();
                // Only ranks 1, 2 and 16 have cords in these rooms; the others add 0.
                let ranks = [1, 2, 16];
                let higher = ranks.iter().filter(|&&other| other > rank);
                let lower = ranks.iter().filter(|&&other| other < rank);
                let requests: Watts = higher.map(|&other| self.request(child, other)).sum();
                let lows: Watts = lower.map(|&other| self.pcapmin(child, other)).sum();
                asked.min(self.room.limit(*node) - requests - lows)
            }
        }
    }
}
