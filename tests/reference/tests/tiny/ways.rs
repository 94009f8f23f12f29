//! Demand 3 over every way of dealing, counted out tree by tree for both deals.

use crate::family::{drawn, listed, Case};
use crate::room::{Cord, Room};
use reference::plan::deals;
use reference::Watts;

/// What the cases showed; a family that shows too little of something proves little.
#[derive(Debug, Default)]
struct Seen {
    accepted: usize,
    ways: usize,
    stranded: usize,
    dealt_again: usize,
    binding: usize,
    several_ranks: usize,
    lower_rank_held: usize,
    several_trees: usize,
    deep: usize,
}

#[test]
fn no_way_beats_ours_in_the_listed_family() {
    let seen = check_all(&listed());
    assert!(seen.accepted > 5_000, "{seen:?}");
    assert_rich(&seen, 1_000);
}

#[test]
fn no_way_beats_ours_in_drawn_rooms() {
    let seen = check_all(&drawn(0x9E37_79B9_7F4A_7C15, 30_000));
    assert!(seen.accepted > 10_000, "{seen:?}");
    assert_rich(&seen, 2_500);
}

fn assert_rich(seen: &Seen, least: usize) {
    let counts = [
        seen.stranded,
        seen.dealt_again,
        seen.binding,
        seen.several_ranks,
        seen.lower_rank_held,
        seen.several_trees,
        seen.deep,
    ];
    assert!(counts.iter().all(|&count| count >= least), "{seen:?}");
    assert!(seen.ways > 10 * seen.accepted, "{seen:?}");
}

fn check_all(cases: &[Case]) -> Seen {
    let mut seen = Seen::default();
    for (room, demands) in cases {
        check(room, demands, &mut seen);
    }
    seen
}

fn check(room: &Room, demands: &[u32], seen: &mut Seen) {
    let Ok(grown) = reference::room::Room::of_words(&room.table()) else {
        return;
    };
    let ours = deals(&grown, demands);
    let needs = room.needs(demands);
    let wants = room.wants(&needs);
    let second_wants = room.second_wants(&needs, &wants, &ours.first_grants);
    assert_eq!(ours.first_wants, wants);
    assert_eq!(ours.second_wants, second_wants);
    assert_eq!(ours.usable, room.usable(&needs, &ours.first_grants));
    assert_eq!(ours.caps, room.usable(&needs, &ours.second_grants));
    for (server, &cap) in room.servers.iter().zip(&ours.caps) {
        assert!(cap >= server.least.into(), "{room:?} {ours:?}");
    }
    // Reclaimed watts come from stranded ones alone.
    let kept = |(before, after): (&Watts, &Watts)| before <= after;
    assert!(
        ours.usable.iter().zip(&ours.caps).all(kept),
        "{room:?} {ours:?}"
    );
    assert!(
        ours.used.iter().zip(&ours.second_grants).all(kept),
        "{room:?} {ours:?}"
    );
    for root in room.roots() {
        seen.ways += check_tree(room, root, &wants, &ours.first_grants);
        seen.ways += check_tree(room, root, &second_wants, &ours.second_grants);
    }
    let freed: Watts = ours.stranded.iter().sum();
    seen.accepted += 1;
    seen.stranded += usize::from(freed > 0);
    let mut pairs = ours.first_grants.iter().zip(&ours.second_grants);
    seen.dealt_again += usize::from(pairs.any(|(first, second)| first < second));
    seen.binding += usize::from(room.first_exceeded(&wants).is_some());
    seen.several_ranks += usize::from(ranks(&room.cords()).len() > 1);
    seen.lower_rank_held += usize::from(lower_rank_held(room, &wants, &ours.first_grants));
    seen.several_trees += usize::from(room.roots().len() > 1);
    seen.deep += usize::from(room.nodes.iter().any(|node| node.0 > 0));
}

/// A higher rank takes more than its lows while a lower one in the same tree goes short.
fn lower_rank_held(room: &Room, wants: &[Watts], grants: &[Watts]) -> bool {
    let above_low = |c: &Cord| grants[c.index] > c.low;
    let short = |c: &Cord| grants[c.index] < wants[c.index];
    room.roots().into_iter().any(|root| {
        let cords = room.beneath(root);
        let highest = cords.iter().filter(|c| above_low(c)).map(|c| c.rank).max();
        cords.iter().any(|c| short(c) && Some(c.rank) < highest)
    })
}

fn ranks(cords: &[Cord]) -> Vec<u32> {
    let mut ranks: Vec<u32> = cords.iter().map(|cord| cord.rank).collect();
    ranks.sort_unstable();
    ranks.dedup();
    ranks
}

/// Goes through all ways of dealing the tree and gives their count.
fn check_tree(room: &Room, root: u32, wants: &[Watts], grants: &[Watts]) -> usize {
    let cords = room.beneath(root);
    let ours: Vec<Watts> = cords.iter().map(|cord| grants[cord.index]).collect();
    let ranks = ranks(&cords);
    let total = |figures: &[Watts], rank: u32| -> Watts {
        let at_or_above = cords.iter().zip(figures).filter(|(c, _)| c.rank >= rank);
        at_or_above.map(|(_, figure)| figure).sum()
    };
    let mut count = 0;
    let mut ours_is_a_way = false;
    let search = Search {
        room,
        cords: &cords,
        wants,
    };
    search.all(&mut |way| {
        count += 1;
        ours_is_a_way |= way == ours;
        for &rank in &ranks {
            let beaten = total(way, rank) > total(&ours, rank);
            assert!(!beaten, "{room:?} {wants:?} {grants:?} {way:?}");
        }
    });
    assert!(ours_is_a_way, "{room:?} {wants:?} {grants:?}");
    count
}

/// The ways of dealing these cords, all of one tree.
pub struct Search<'a> {
    pub room: &'a Room,
    pub cords: &'a [Cord],
    pub wants: &'a [Watts],
}

impl Search<'_> {
    pub fn all(&self, tell: &mut dyn FnMut(&[Watts])) {
        let limits = self.room.numbers().map(|node| self.room.limit(node));
        self.go(&mut Vec::new(), &mut limits.collect(), tell);
    }

    /// Tells every way that begins with these figures; `left` is what they leave of each limit.
    fn go(&self, figures: &mut Vec<Watts>, left: &mut Vec<Watts>, tell: &mut dyn FnMut(&[Watts])) {
        let Some(cord) = self.cords.get(figures.len()) else {
            return tell(figures);
        };
        let path = self.room.upward(cord.node);
        for figure in cord.low..=self.wants[cord.index] {
            let before = left.clone();
            for &node in &path {
                left[node as usize - 1] -= figure;
            }
            if left.iter().all(|&watts| watts >= 0) {
                figures.push(figure);
                self.go(figures, left, tell);
                figures.pop();
            }
            *left = before;
        }
    }
}
