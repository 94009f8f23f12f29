//! Given lists of grants over every tiny room, judged by request A.9's text, the greatest totals
//! counted out over all ways of dealing.

use crate::family::{drawn, listed, Draw};
use crate::room::Room;
use crate::ways::Search;
use reference::judge::{judge, Verdict};
use reference::plan::deals;
use reference::Watts;

const RANKS: std::ops::RangeInclusive<u32> = 1..=16;

#[test]
fn the_first_failure_is_named() {
    let cases = [listed(), drawn(0x8CB9_2BA7_2F3D_8DD7, 6_000)].concat();
    let mut draw = Draw(0x2545_F491_4F6C_DD1D);
    let mut seen = [0; 5];
    let (mut second_short, mut not_the_first_root, mut several) = (0, 0, 0);
    for (room, demands) in cases {
        let Ok(grown) = reference::room::Room::of_words(&room.table()) else {
            continue;
        };
        let judged = Judged::new(&room, &demands);
        let ours = deals(&grown, &demands);
        assert_eq!(judged.verdict(&ours.first_grants), Verdict::Passes);
        let mut lists = vec![
            ours.first_grants.clone(),
            ours.second_grants.clone(),
            room.lows(),
            judged.wants.clone(),
        ];
        lists.extend((0..6).map(|_| judged.drawn_list(&mut draw)));
        lists.extend((0..4).map(|_| spoilt(&mut draw, &ours.first_grants)));
        for list in lists {
            let words: Vec<u32> = list.iter().map(|&watts| watts as u32).collect();
            let expected = judged.verdict(&list);
            let found = judge(&room.table(), &demands, &words);
            assert_eq!(found, Ok(expected), "{room:?} {demands:?} {list:?}");
            seen[expected.numbers()[0] as usize] += 1;
            if let Verdict::Short { root, .. } = expected {
                second_short += usize::from(list == ours.second_grants);
                not_the_first_root += usize::from(root > 1);
                several += usize::from(judged.short_ranks(root, &list).len() > 1);
            }
        }
    }
    assert!(seen.iter().all(|&count| count > 3_000), "{seen:?}");
    assert!(second_short > 300, "{second_short}");
    assert!(not_the_first_root > 1_000, "{not_the_first_root}");
    assert!(several > 1_000, "{several}");
}

/// A list with one figure one higher or lower, or a watt moved from one cord to another.
fn spoilt(draw: &mut Draw, list: &[Watts]) -> Vec<Watts> {
    let mut list = list.to_vec();
    let some = |draw: &mut Draw| draw.up_to(list.len() as u32 - 1) as usize;
    let (one, other) = (some(draw), some(draw));
    if draw.up_to(2) > 0 {
        list[one] += 1;
    }
    if draw.up_to(2) > 0 {
        list[other] = (list[other] - 1).max(0);
    }
    list
}

struct Judged<'a> {
    room: &'a Room,
    wants: Vec<Watts>,
    /// For each root the greatest totals of every rank and above, from rank 1.
    greatest: Vec<(u32, Vec<Watts>)>,
}

impl Judged<'_> {
    fn new<'a>(room: &'a Room, demands: &[u32]) -> Judged<'a> {
        let wants = room.wants(&room.needs(demands));
        let roots = room.roots().into_iter();
        let greatest = roots.map(|root| (root, greatest(room, root, &wants)));
        Judged {
            greatest: greatest.collect(),
            room,
            wants,
        }
    }

    /// Figures mostly from low to want, and now and then one beside that.
    fn drawn_list(&self, draw: &mut Draw) -> Vec<Watts> {
        let stray = draw.up_to(3) == 0;
        let figure = |(low, want): (Watts, &Watts)| {
            let within = low + Watts::from(draw.up_to((want - low) as u32));
            let off = if stray {
                Watts::from(draw.up_to(2)) - 1
            } else {
                0
            };
            (within + off).max(0)
        };
        self.room
            .lows()
            .into_iter()
            .zip(&self.wants)
            .map(figure)
            .collect()
    }

    fn verdict(&self, list: &[Watts]) -> Verdict {
        let room = self.room;
        let lows = room.lows();
        if let Some(cord) = (0..list.len()).find(|&cord| list[cord] < lows[cord]) {
            return Verdict::BelowLow(cord);
        }
        if let Some(cord) = (0..list.len()).find(|&cord| list[cord] > self.wants[cord]) {
            return Verdict::AboveWant(cord);
        }
        if let Some(node) = room.first_exceeded(list) {
            return Verdict::OverLimit(node);
        }
        for &(root, _) in &self.greatest {
            if let Some(&rank) = self.short_ranks(root, list).last() {
                return Verdict::Short { root, rank };
            }
        }
        Verdict::Passes
    }

    fn short_ranks(&self, root: u32, list: &[Watts]) -> Vec<u32> {
        let cords = self.room.beneath(root);
        let figures: Vec<Watts> = cords.iter().map(|cord| list[cord.index]).collect();
        let (_, greatest) = self
            .greatest
            .iter()
            .find(|(r, _)| *r == root)
            .expect("a root");
        let short = |&rank: &u32| {
            let from_rank = cords.iter().zip(&figures).filter(|(c, _)| c.rank >= rank);
            from_rank.map(|(_, figure)| figure).sum::<Watts>() < greatest[rank as usize - 1]
        };
        RANKS.filter(short).collect()
    }
}

/// The greatest totals of every rank and above, from rank 1, each of some way.
fn greatest(room: &Room, root: u32, wants: &[Watts]) -> Vec<Watts> {
    let cords = room.beneath(root);
    let mut greatest = vec![0; 16];
    let search = Search {
        room,
        cords: &cords,
        wants,
    };
    search.all(&mut |way| {
        for (most, rank) in greatest.iter_mut().zip(RANKS) {
            let from_rank = cords.iter().zip(way).filter(|(c, _)| c.rank >= rank);
            *most = from_rank
                .map(|(_, figure)| *figure)
                .sum::<Watts>()
                .max(*most);
        }
    });
    greatest
}
