//! The room table's rules. Each record is judged whole, in one branch or two; only a bad table is walked word by word.

use std::array::from_fn;

use super::list::List;
use super::plan::Cords;
use super::{Outcome, Refusal, MOST_CORDS, MOST_NODES, MOST_SERVERS, MOST_WATTS};

const NEWEST_VERSION: u32 = 3;

/// The bytes of a longest server: four words, and two for each of four cords.
const SERVER_BYTES: usize = 48;

/// A table's words as bytes, four a word, low byte first.
#[derive(Clone, Copy)]
pub struct Table<'a>(pub &'a [u8]);

/// A checked room, by node (entry 0 stands for no node), by server and by cord.
pub struct Room {
    /// What a server's shares sum to.
    pub whole: u32,
    pub node_count: usize,
    pub server_count: usize,
    pub cord_count: usize,
    pub parents: List<u16, { MOST_NODES + 1 }>,
    /// What a node's limit leaves above all lows beneath it.
    pub slack: List<u32, { MOST_NODES + 1 }>,
    pub ranges: List<(u32, u32), MOST_SERVERS>,
    /// Every server puts four cords down; the next one's lie over those it doesn't have.
    pub nodes: List<u16, { MOST_CORDS + 3 }>,
    pub shares: List<u16, { MOST_CORDS + 3 }>,
    pub lows: Cords,
    pub servers: List<u16, { MOST_CORDS + 3 }>,
    pub ranks: List<u8, { MOST_CORDS + 3 }>,
}

fn is_percent(word: u32) -> bool {
    (word == 80) | (word == 100)
}

/// What a share of a whole carries of a load, rounded up. Both wholes are divisors that the compiler knows.
pub fn carried(share: u32, load: u32, whole: u32) -> u32 {
    let product = u64::from(share) * u64::from(load);
    if whole == 1000 {
        ((product + 999) / 1000) as u32
    } else {
        ((product + 9_999) / 10_000) as u32
    }
}

impl<'a> Table<'a> {
    pub fn len(self) -> usize {
        self.0.len() / 4
    }

    pub fn words(self) -> impl ExactSizeIterator<Item = u32> + 'a {
        let (words, _) = self.0.as_chunks();
        words.iter().map(|word| u32::from_le_bytes(*word))
    }

    fn word(self, i: usize) -> Option<u32> {
        self.0.get(4 * i..)?.first_chunk().map(|bytes| u32::from_le_bytes(*bytes))
    }

    /// Two words a node, or three where the version gives it a percent.
    fn node_words(self) -> usize {
        2 + usize::from(self.word(0) != Some(1))
    }

    /// What a server's shares sum to, by the version.
    fn whole(self) -> u32 {
        if self.word(0) == Some(3) {
            10_000
        } else {
            1_000
        }
    }

    /// Refusals 4 to 9.
    pub fn check(self) -> Outcome<()> {
        self.scan(&mut Room::empty())
    }

    /// The room of the table, into one that is empty.
    pub fn scan(self, room: &mut Room) -> Outcome<()> {
        match self.scan_records(room) {
            Some(()) => room.settle_lows(),
            None => Err(self.walk().unwrap_err()),
        }
    }

    /// Every record, judged whole; none where some rule of the words is broken.
    fn scan_records(self, room: &mut Room) -> Option<()> {
        room.node_count = (self.word(1)? as usize).min(MOST_NODES + 1);
        let at_servers = 2 + self.node_words() * room.node_count;
        room.server_count = self.word(at_servers)? as usize;
        room.whole = self.whole();
        let version = self.word(0)?;
        let bad = version.wrapping_sub(1) >= NEWEST_VERSION
            || room.node_count.wrapping_sub(1) >= MOST_NODES
            || room.server_count > MOST_SERVERS;
        let nodes = &self.0[8..4 * at_servers];
        if bad || !(if version == 1 { room.put_nodes::<2>(nodes) } else { room.put_nodes::<3>(nodes) }) {
            return None;
        }
        let mut at = at_servers + 1;
        for server in 0..room.server_count {
            let mut padded = [0; SERVER_BYTES];
            let rest = self.0.get(4 * at..4 * self.len())?;
            let words = rest.first_chunk().unwrap_or_else(|| {
                padded[..rest.len()].copy_from_slice(rest);
                &padded
            });
            at += 4 + 2 * room.put_server(words, server)?;
        }
        (at == self.len()).then_some(())
    }

    /// The rules word by word, in their order: the first refusal of 4 to 8.
    #[cold]
    fn walk(self) -> Outcome<()> {
        self.ranged(0, 1, NEWEST_VERSION)?;
        let nodes = self.ranged(1, 1, MOST_NODES as u32)?;
        let mut at = 2;
        for i in 0..nodes {
            self.ranged(at, 0, i)?;
            self.ranged(at + 1, 0, MOST_WATTS)?;
            if self.node_words() == 3 && !is_percent(self.ranged(at + 2, 0, u32::MAX)?) {
                return Err(Refusal(5, at as u64 + 2));
            }
            at += self.node_words();
        }
        let servers = self.ranged(at, 0, MOST_SERVERS as u32)?;
        let mut left = MOST_CORDS as u32;
        at += 1;
        for _ in 0..servers {
            self.ranged(at, 1, 16)?;
            let least = self.ranged(at + 1, 0, MOST_WATTS)?;
            if self.ranged(at + 2, 0, MOST_WATTS)? < least {
                return Err(Refusal(6, at as u64 + 2));
            }
            let cords = self.ranged(at + 3, 1, left.min(4))?;
            let (start, mut sum) = (at, 0);
            left -= cords;
            at += 4;
            for _ in 0..cords {
                self.ranged(at, 1, nodes)?;
                sum += self.ranged(at + 1, 0, self.whole())?;
                at += 2;
            }
            if sum != self.whole() {
                return Err(Refusal(7, start as u64));
            }
        }
        Err(Refusal(8, at as u64))
    }

    /// The word at i, from low to high.
    fn ranged(self, i: usize, low: u32, high: u32) -> Outcome<u32> {
        let word = self.word(i).ok_or(Refusal(4, self.len() as u64))?;
        if word < low || word > high {
            return Err(Refusal(5, i as u64));
        }
        Ok(word)
    }
}

fn low_first(bytes: &[u8], i: usize) -> u32 {
    u32::from_le_bytes(*bytes[4 * i..].first_chunk().unwrap())
}

impl Room {
    pub fn empty() -> Room {
        Room {
            whole: 1_000,
            node_count: 0,
            server_count: 0,
            cord_count: 0,
            parents: List::new(),
            slack: List::new(),
            ranges: List::new(),
            nodes: List::new(),
            shares: List::new(),
            lows: List::new(),
            servers: List::new(),
            ranks: List::new(),
        }
    }

    /// Puts down the parents, and the limits where the slack will stand; whether no rule is broken. A node has so many
    /// words, the third of which is its percent.
    fn put_nodes<const WORDS: usize>(&mut self, bytes: &[u8]) -> bool {
        let mut good = true;
        for (i, node) in bytes.chunks_exact(4 * WORDS).enumerate() {
            let (parent, rating) = (low_first(node, 0), low_first(node, 1));
            let percent = if WORDS == 3 { low_first(node, 2) } else { 80 };
            good &= (parent <= i as u32) & (rating <= MOST_WATTS) & is_percent(percent);
            self.parents[i + 1] = parent as u16;
            self.slack[i + 1] = (u64::from(rating) * u64::from(percent) / 100) as u32;
        }
        good
    }

    /// Puts a server and four cords down, and gives the count of those it has; none if a rule is broken.
    fn put_server(&mut self, bytes: &[u8; SERVER_BYTES], server: usize) -> Option<usize> {
        let word = |i: usize| low_first(bytes, i);
        let (rank, least, greatest, cords) = (word(0), word(1), word(2), word(3));
        let most = (MOST_CORDS - self.cord_count).min(4) as u32;
        let mut bad = (rank.wrapping_sub(1) >= 16) | (greatest > MOST_WATTS) | (greatest < least);
        bad |= cords.wrapping_sub(1) >= most;
        if bad {
            return None;
        }
        self.ranges[server] = (least, greatest);
        let nodes: [u32; 4] = from_fn(|k| word(4 + 2 * k));
        let shares: [u32; 4] = from_fn(|k| word(5 + 2 * k));
        let (whole, mut sum) = (self.whole, 0);
        for k in 0..4 {
            let has = if (k as u32) < cords { u32::MAX } else { 0 };
            let share = shares[k] & has;
            bad |= (nodes[k].wrapping_sub(1) & has >= self.node_count as u32) | (share > whole);
            sum += u64::from(share);
        }
        let from = self.cord_count;
        self.nodes.put_four(from, nodes.map(|node| node as u16));
        self.shares.put_four(from, shares.map(|share| share as u16));
        self.lows.put_four(from, shares.map(|share| carried(share, least, whole)));
        self.servers.put_four(from, [server as u16; 4]);
        self.ranks.put_four(from, [rank as u8; 4]);
        self.cord_count += cords as usize;
        (!bad & (sum == u64::from(whole))).then_some(cords as usize)
    }

    /// The lows beneath each node, taken from its limit; refusal 9 where they exceed it.
    fn settle_lows(&mut self) -> Outcome<()> {
        let mut sums = List::<u64, { MOST_NODES + 1 }>::new();
        sums.fill(self.node_count + 1, 0);
        for c in 0..self.cord_count {
            sums[usize::from(self.nodes[c])] += u64::from(self.lows[c]);
        }
        let mut over = 0;
        for n in (1..=self.node_count).rev() {
            let sum = sums[n];
            if u64::from(self.slack[n]) < sum {
                over = n;
            }
            self.slack[n] = self.slack[n].wrapping_sub(sum as u32);
            sums[usize::from(self.parents[n])] += sum;
        }
        match over {
            0 => Ok(()),
            node => Err(Refusal(9, node as u64)),
        }
    }
}
