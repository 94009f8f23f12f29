//! Headroom over every tiny room: what document 02's request A.1 says of it, and each of its splits by
//! its definition, with ceilings and Requests computed again for each question.

use crate::family::{drawn, listed};
use crate::room::{Cord, Room};
use crate::splits::{Child, Deal};
use reference::plan::deals;
use reference::Watts;

#[test]
fn headroom_passes_no_limit_and_no_ceiling_and_none_is_kept_back() {
    let cases = [listed(), drawn(0x9E37_79B9_7F4A_7C15, 5_000)].concat();
    let (mut lending, mut full, mut uneven) = (0, 0, 0);
    for (room, demands) in cases {
        let Ok(grown) = reference::room::Room::of_words(&room.table()) else {
            continue;
        };
        let ours = deals(&grown, &demands);
        let lent = Lent {
            deal: Deal {
                room: &room,
                wants: &ours.second_wants,
                starts: &ours.used,
                grants: &ours.second_grants,
            },
            ceilings: &room.wants(&greatests(&room)),
            headroom: &ours.headroom,
        };
        lent.check_limits();
        for root in room.roots() {
            lending += usize::from(lent.check_root(root) > 0);
        }
        for node in room.numbers() {
            let kept_out = lent.weight(&Child::Node(node)) == 0;
            full += usize::from(kept_out && lent.weights(node).iter().sum::<Watts>() > 0);
            uneven += usize::from(lent.check_split(node));
        }
    }
    assert!(lending > 1_000, "{lending}");
    assert!(full > 300, "{full}");
    assert!(uneven > 300, "{uneven}");
}

fn greatests(room: &Room) -> Vec<Watts> {
    let servers = room.servers.iter();
    servers.map(|server| server.greatest.into()).collect()
}

struct Lent<'a> {
    deal: Deal<'a>,
    /// Of the cords.
    ceilings: &'a [Watts],
    headroom: &'a [Watts],
}

impl Lent<'_> {
    fn check_limits(&self) {
        let with_grants = self.deal.grants.iter().zip(self.headroom);
        let watts: Vec<Watts> = with_grants.map(|(grant, lent)| grant + lent).collect();
        assert_eq!(self.deal.room.first_exceeded(&watts), None);
        let mut cords = watts.iter().zip(self.ceilings);
        assert!(cords.all(|(watts, ceiling)| watts <= ceiling));
        assert!(self.headroom.iter().all(|&lent| lent >= 0));
    }

    /// A root's headroom, all of which its cords have.
    fn check_root(&self, root: u32) -> Watts {
        let root = Child::Node(root);
        let headroom = self.ceiling(&root) - self.requests(&root);
        assert_eq!(self.amount(&root), headroom, "{:?}", self.deal.room);
        headroom
    }

    /// Whether the split at the node has a remainder.
    fn check_split(&self, node: u32) -> bool {
        let amount = self.amount(&Child::Node(node));
        let weights = self.weights(node);
        let total: Watts = weights.iter().sum();
        let running = |count: usize| weights[..count].iter().sum::<Watts>();
        let mut uneven = false;
        for (before, child) in self.deal.children(node).iter().enumerate() {
            let expected = match total {
                0 => 0,
                _ => amount * running(before + 1) / total - amount * running(before) / total,
            };
            assert_eq!(self.amount(child), expected, "{:?}", self.deal.room);
            uneven |= total > 0 && amount * running(before + 1) % total > 0;
        }
        uneven
    }

    fn weights(&self, node: u32) -> Vec<Watts> {
        let children = self.deal.children(node);
        children.iter().map(|child| self.weight(child)).collect()
    }

    fn weight(&self, child: &Child) -> Watts {
        self.ceiling(child) - self.requests(child)
    }

    fn ceiling(&self, child: &Child) -> Watts {
        match child {
            Child::Cord(cord) => self.ceilings[cord.index],
            Child::Node(node) => {
                let children = self.deal.children(*node);
                let ceilings = children.iter().map(|child| self.ceiling(child));
                self.deal.room.limit(*node).min(ceilings.sum())
            }
        }
    }

    /// Over the ranks that have cords in these rooms.
    fn requests(&self, child: &Child) -> Watts {
        let ranks = [1, 2, 16].iter();
        ranks.map(|&rank| self.deal.request(child, rank)).sum()
    }

    /// What reached the child: all headroom of its cords.
    fn amount(&self, child: &Child) -> Watts {
        let cords: Vec<Cord> = match child {
            Child::Node(node) => self.deal.room.beneath(*node),
            Child::Cord(cord) => vec![*cord],
        };
        cords.iter().map(|cord| self.headroom[cord.index]).sum()
    }
}
