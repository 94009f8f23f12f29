//! Rooms to measure on, made by a fixed sequence: limits bind and some watts are stranded.

use crate::calls::{Inputs, Outputs, CALLS};

/// A room's kind: how its nodes hang, how many there are of everything, how many ranks its servers have, and how far their
/// watts spread, as a multiple. With 1 a rank's weights mostly sum to less than 65,536 on a node; with 1,000 to more.
#[derive(Clone, Copy)]
pub struct Kind {
    pub shape: Shape,
    pub nodes: usize,
    pub cords: usize,
    pub ranks: u32,
    pub watts: u32,
}

#[derive(Clone, Copy, Debug)]
pub enum Shape {
    Chain,
    Star,
    Binary,
    Feeds,
}

/// Xorshift: the same rooms in every run.
pub struct Chance(pub u64);

struct Server {
    rank: u32,
    least: u32,
    greatest: u32,
    demand: u32,
    cords: Vec<(u32, u32)>,
}

impl Chance {
    /// A number below the bound.
    pub fn below(&mut self, bound: u32) -> u32 {
        self.0 ^= self.0 << 13;
        self.0 ^= self.0 >> 7;
        self.0 ^= self.0 << 17;
        ((self.0 >> 32) * u64::from(bound) >> 32) as u32
    }
}

impl Shape {
    /// A node's parent, both numbered from 1; the feeds are roots with seven nodes each.
    fn parent(self, node: u32) -> u32 {
        match self {
            Shape::Chain => node - 1,
            Shape::Star => u32::from(node > 1),
            Shape::Binary => node / 2,
            Shape::Feeds if node % 8 == 1 => 0,
            Shape::Feeds => (node - 1) / 8 * 8 + 1,
        }
    }
}

/// A room of the kind, in one of the versions: its table, its demands, the sheet that Write makes of the table and the grants
/// that the baseline plans. From version 2 on every second node may carry all of its rating, and in version 3 shares are of
/// 10,000.
pub fn room(kind: Kind, version: u32, chance: &mut Chance) -> Inputs {
    let whole = if version > 2 { 10_000 } else { 1_000 };
    let servers = servers(kind, whole, chance);
    let mut words = vec![version, kind.nodes as u32];
    for (i, limit) in limits(kind, &servers, whole, chance).into_iter().enumerate() {
        let percent = if version > 1 && i % 2 == 1 { 100 } else { 80 };
        words.extend([kind.shape.parent(i as u32 + 1), (limit * 100).div_ceil(percent)]);
        words.extend((version > 1).then_some(percent));
    }
    words.push(servers.len() as u32);
    for server in &servers {
        words.extend([server.rank, server.least, server.greatest]);
        words.push(server.cords.len() as u32);
        words.extend(server.cords.iter().flat_map(|&(node, share)| [node, share]));
    }
    let mut given = Inputs {
        table: bytes(&words),
        demands: bytes(&servers.iter().map(|s| s.demand).collect::<Vec<_>>()),
        ..Inputs::default()
    };
    let mut out = Outputs::lent();
    (CALLS[1].1)(&given, &mut out);
    assert_eq!(out.told().0, 0, "a room that was made is refused");
    given.sheet = out.first[..out.told().1 as usize].to_vec();
    (CALLS[2].2)(&given, &mut out);
    given.grants = out.first[..4 * kind.cords].to_vec();
    given
}

pub fn bytes(words: &[u32]) -> Vec<u8> {
    words.iter().flat_map(|word| word.to_le_bytes()).collect()
}

/// Servers by pairs, of one to three cords each and four together.
fn servers(kind: Kind, whole: u32, chance: &mut Chance) -> Vec<Server> {
    let mut servers = Vec::new();
    for _ in 0..kind.cords / 4 {
        let cords = 1 + chance.below(3);
        servers.push(server(kind, cords, whole, chance));
        servers.push(server(kind, 4 - cords, whole, chance));
    }
    servers
}

fn server(kind: Kind, cords: u32, whole: u32, chance: &mut Chance) -> Server {
    let least = 50 + chance.below(250);
    let mut left = whole;
    let mut shares = Vec::new();
    for _ in 1..cords {
        shares.push(chance.below(left + 1));
        left -= shares[shares.len() - 1];
    }
    shares.push(left);
    let nodes = kind.nodes as u32;
    Server {
        rank: 1 + chance.below(kind.ranks),
        least,
        greatest: least + kind.watts * chance.below(600),
        demand: kind.watts * chance.below(1200),
        cords: shares.into_iter().map(|share| (1 + chance.below(nodes), share)).collect(),
    }
}

/// What a share of the whole carries of a load.
fn part(share: u32, load: u32, whole: u32) -> u32 {
    (u64::from(share) * u64::from(load)).div_ceil(u64::from(whole)) as u32
}

/// Limits between what the lows beneath a node need and a little more than what the wants there ask, cut to what 80 percent
/// of the greatest rating are.
fn limits(kind: Kind, servers: &[Server], whole: u32, chance: &mut Chance) -> Vec<u32> {
    let mut lows = vec![0; kind.nodes + 1];
    let mut wants = vec![0; kind.nodes + 1];
    for server in servers {
        let need = server.demand.max(server.least).min(server.greatest);
        for &(node, share) in &server.cords {
            lows[node as usize] += part(share, server.least, whole);
            wants[node as usize] += part(share, need, whole);
        }
    }
    for node in (1..=kind.nodes).rev() {
        let parent = kind.shape.parent(node as u32) as usize;
        lows[parent] += lows[node];
        wants[parent] += wants[node];
    }
    let mut limit = |n: usize| lows[n] + (wants[n] - lows[n]) / 100 * (40 + chance.below(70));
    (1..=kind.nodes).map(|n| limit(n).min(13_421_772)).collect()
}
