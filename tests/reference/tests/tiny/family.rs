//! Where the tiny rooms come from: one small family listed whole, and rooms drawn by a fixed seed.

use crate::room::{Room, Server};

/// A room with a demand for each server.
pub type Case = (Room, Vec<u32>);

/// Every room of two nodes, in one tree or two, with two servers: all choices of the figures here.
pub fn listed() -> Vec<Case> {
    let mut cases = Vec::new();
    for (nodes, first, second) in triples(&node_lists(), &server_kinds(), &server_kinds()) {
        let servers = vec![first.0, second.0];
        cases.push((Room { nodes, servers }, vec![first.1, second.1]));
    }
    cases
}

fn node_lists() -> Vec<Vec<(u32, u32)>> {
    let ratings = [2, 4, 7];
    let lists = triples(&[0, 1], &ratings, &ratings);
    let list = |(parent, one, two)| vec![(0, one), (parent, two)];
    lists.into_iter().map(list).collect()
}

/// A server and its demand.
fn server_kinds() -> Vec<(Server, u32)> {
    let cords = [
        vec![(1, 1_000)],
        vec![(2, 1_000)],
        vec![(1, 500), (2, 500)],
        vec![(2, 300), (1, 700)],
    ];
    let kinds = triples(&[1, 2], &[(0, 4, 4), (1, 3, 2), (0, 5, 1)], &cords);
    let kind = |(rank, (least, greatest, demand), cords)| {
        let server = Server {
            rank,
            least,
            greatest,
            cords,
        };
        (server, demand)
    };
    kinds.into_iter().map(kind).collect()
}

fn triples<A: Clone, B: Clone, C: Clone>(first: &[A], second: &[B], third: &[C]) -> Vec<(A, B, C)> {
    let mut all = Vec::new();
    for a in first {
        for b in second {
            all.extend(third.iter().map(|c| (a.clone(), b.clone(), c.clone())));
        }
    }
    all
}

/// So many rooms of one to four nodes and one to three servers with one or two cords each.
pub fn drawn(seed: u64, count: usize) -> Vec<Case> {
    let mut draw = Draw(seed);
    (0..count).map(|_| draw.case()).collect()
}

/// Draws by xorshift, from a seed that is not 0.
pub struct Draw(pub u64);

impl Draw {
    pub fn up_to(&mut self, most: u32) -> u32 {
        self.0 ^= self.0 << 13;
        self.0 ^= self.0 >> 7;
        self.0 ^= self.0 << 17;
        ((self.0 >> 32) % (u64::from(most) + 1)) as u32
    }

    pub fn one_of(&mut self, list: &[u32]) -> u32 {
        list[self.up_to(list.len() as u32 - 1) as usize]
    }

    pub fn demand(&mut self) -> u32 {
        self.up_to(7).max(self.up_to(7))
    }

    fn case(&mut self) -> Case {
        let count = 1 + self.up_to(3);
        let nodes = (0..count).map(|above| self.node(above)).collect();
        let servers: Vec<_> = (0..=self.up_to(2)).map(|_| self.server(count)).collect();
        let demands = servers.iter().map(|_| self.demand()).collect();
        (Room { nodes, servers }, demands)
    }

    fn node(&mut self, above: u32) -> (u32, u32) {
        (self.up_to(above), self.up_to(14))
    }

    fn server(&mut self, nodes: u32) -> Server {
        let greatest = self.up_to(6).max(self.up_to(6));
        let least = self.up_to(greatest).min(self.up_to(greatest)) / 2;
        let share = self.one_of(&[500, 500, 300, 700, 1, 0, 1_000]);
        let node = |draw: &mut Draw| 1 + draw.up_to(nodes - 1);
        let cords = match self.up_to(2) {
            0 => vec![(node(self), 1_000)],
            _ => vec![(node(self), share), (node(self), 1_000 - share)],
        };
        Server {
            rank: self.one_of(&[1, 2, 16]),
            least,
            greatest,
            cords,
        }
    }
}
