//! Makes a case that shows a difference smaller, as long as it shows one.

use crate::calls::{Call, Case};
use crate::guard::Place;
use crate::rooms::{sheet, Room};

/// Tries before it settles for what it has.
const TRIES: usize = 100_000;

struct Shrinker<'a> {
    best: Case,
    shows: &'a dyn Fn(&Case) -> bool,
    left: usize,
}

/// A small case that shows a difference as well.
pub fn smallest(best: Case, shows: &dyn Fn(&Case) -> bool) -> Case {
    let left = TRIES;
    let mut shrinker = Shrinker { best, shows, left };
    loop {
        let before = shrinker.best.clone();
        shrinker.drop_parts();
        shrinker.lower_words();
        shrinker.each_run(|bytes, from, to| drop(bytes.drain(from..to)));
        shrinker.each_run(|bytes, from, to| bytes[from..to].fill(0));
        shrinker.move_back();
        if shrinker.best == before || shrinker.left == 0 {
            return shrinker.best;
        }
    }
}

/// A change to a room and its demands at an index; none if the index is past the end.
type Change = fn(&mut Room, &mut Vec<u32>, usize, usize) -> Option<()>;

impl Shrinker<'_> {
    /// Keeps the candidate if it shows a difference. Says whether its buffers are shorter.
    fn keep(&mut self, candidate: Case) -> Option<bool> {
        if self.left == 0 || candidate == self.best {
            return None;
        }
        self.left -= 1;
        if !(self.shows)(&candidate) {
            return None;
        }
        let len = |case: &Case| -> usize { case.buffers.iter().map(|b| b.bytes.len()).sum() };
        let shorter = len(&candidate) < len(&self.best);
        self.best = candidate;
        Some(shorter)
    }

    /// Drops servers with their demands, cords and nodes, and lowers leasts.
    fn drop_parts(&mut self) {
        let changes: [(Change, usize); 4] = [
            (without_servers, 256),
            (without_cord, 1),
            (without_node, 1),
            (with_lower_least, 1 << 23),
        ];
        for (change, longest) in changes {
            let mut run = longest;
            while run > 0 {
                let mut at = 0;
                while let Some([plain, fitted]) = self.with_room(change, at, run) {
                    let shorter = self.keep(plain).or_else(|| self.keep(fitted));
                    at += if shorter == Some(true) { 0 } else { run };
                }
                run /= 2;
            }
        }
    }

    /// The best case with a change to its room and demands, if it has a room that far; then
    /// the same with ratings that fit the new lows as the old ones did.
    fn with_room(&self, change: Change, at: usize, run: usize) -> Option<[Case; 2]> {
        let before = Room::parse(&words(&self.best, 0)?)?;
        let (mut room, mut demands) = (before.clone(), words(&self.best, 1)?);
        change(&mut room, &mut demands, at, run)?;
        let best = with_words(&self.best, 1, &demands);
        let plain = with_words(&best, 0, &room.words());
        keep_spare(&before, &mut room);
        Some([plain, with_words(&best, 0, &room.words())])
    }

    /// Lowers each word of the table and each demand, by much if it can be.
    fn lower_words(&mut self) {
        for which in [0, 1] {
            let count = words(&self.best, which).map_or(0, |words| words.len());
            for (at, shift) in (0..count).flat_map(|at| (0..25).map(move |shift| (at, shift))) {
                let Some(mut words) = words(&self.best, which) else {
                    return;
                };
                words[at] -= words[at] >> shift;
                self.keep(with_words(&self.best, which, &words));
            }
        }
    }

    /// Changes runs of bytes of each buffer, long ones first.
    fn each_run(&mut self, change: fn(&mut Vec<u8>, usize, usize)) {
        for which in 0..self.best.buffers.len() {
            let mut run = self.best.buffers[which].bytes.len().next_power_of_two();
            while run > 0 {
                let mut from = 0;
                while from < self.best.buffers[which].bytes.len() {
                    let mut candidate = self.best.clone();
                    let bytes = &mut candidate.buffers[which].bytes;
                    change(bytes, from, (from + run).min(bytes.len()));
                    let shorter = self.keep(candidate);
                    from += if shorter == Some(true) { 0 } else { run };
                }
                run /= 2;
            }
        }
    }

    /// Puts each buffer right before its guard page.
    fn move_back(&mut self) {
        for which in 0..self.best.buffers.len() {
            let mut candidate = self.best.clone();
            candidate.buffers[which].place = Place::Back(0);
            self.keep(candidate);
        }
    }
}

fn without_servers(room: &mut Room, demands: &mut Vec<u32>, at: usize, run: usize) -> Option<()> {
    let cut = |len: usize| at.min(len)..(at + run).min(len);
    demands.drain(cut(demands.len()));
    let servers = cut(room.servers.len());
    (!servers.is_empty()).then(|| drop(room.servers.drain(servers)))
}

/// Drops a cord, counted over all servers, if it is not its server's only one.
fn without_cord(room: &mut Room, _: &mut Vec<u32>, mut at: usize, _: usize) -> Option<()> {
    for server in &mut room.servers {
        let cords = &mut server.cords;
        if at < cords.len() {
            if cords.len() > 1 {
                let share = cords.remove(at).share;
                cords[0].share = cords[0].share.saturating_add(share);
            }
            return Some(());
        }
        at -= cords.len();
    }
    None
}

/// Drops a node, if it is not the only one, and hangs what is beneath it on its parent.
fn without_node(room: &mut Room, _: &mut Vec<u32>, at: usize, _: usize) -> Option<()> {
    let (own, parent) = (at as u32 + 1, room.nodes.get(at)?.parent);
    if room.nodes.len() > 1 {
        room.nodes.remove(at);
        let renumbered = |number: u32| match number {
            _ if number == own => parent,
            _ if number > own => number - 1,
            _ => number,
        };
        for node in &mut room.nodes {
            node.parent = renumbered(node.parent);
        }
        for cord in room.servers.iter_mut().flat_map(|s| &mut s.cords) {
            cord.node = renumbered(cord.node).max(cord.node.min(1));
        }
    }
    Some(())
}

/// Lowers the least of a server by the run.
fn with_lower_least(room: &mut Room, _: &mut Vec<u32>, at: usize, run: usize) -> Option<()> {
    let server = room.servers.get_mut(at / run)?;
    server.least = server.least.saturating_sub(run as u32);
    Some(())
}

/// Gives each node the watts above its lows, or below them, that it had before the change.
fn keep_spare(before: &Room, room: &mut Room) {
    let (old, new) = (before.lows_beneath(), room.lows_beneath());
    for ((node, old), new) in room.nodes.iter_mut().zip(old).zip(new) {
        let percent = u64::from(node.percent.max(1));
        let limit = (u64::from(node.rating) * percent / 100 + new).saturating_sub(old);
        let rating = (100 * limit).div_ceil(percent);
        node.rating = rating.min(u64::from(node.rating)) as u32;
    }
}

/// The words of the table (0) or the demands (1, if any); of a sheet, if all its numbers are good.
fn words(case: &Case, which: usize) -> Option<Vec<u32>> {
    let bytes = &case.buffers[which].bytes;
    match (case.call, which) {
        (Call::Read, 0) => numbers(bytes),
        (Call::Write, 0) | (Call::Plan, _) => {
            let words = bytes.chunks_exact(4).map(|word| word.try_into());
            Some(words.flatten().map(u32::from_le_bytes).collect())
        }
        _ => Some(Vec::new()),
    }
}

fn with_words(case: &Case, which: usize, words: &[u32]) -> Case {
    let mut case = case.clone();
    case.buffers[which].bytes = match (case.call, which) {
        (Call::Read, 0) => sheet(words),
        (Call::Write, 0) | (Call::Plan, _) => words.iter().flat_map(|w| w.to_le_bytes()).collect(),
        _ => return case,
    };
    case
}

fn numbers(bytes: &[u8]) -> Option<Vec<u32>> {
    let forms = bytes.split_inclusive(|byte| *byte < 0x80);
    let fold = |form: &[u8]| {
        let groups = form.iter().rev();
        groups.fold(0u32, |high, byte| (high << 7) | u32::from(byte & 0x7F))
    };
    let words: Vec<u32> = forms.map(fold).collect();
    (sheet(&words) == *bytes).then_some(words)
}
