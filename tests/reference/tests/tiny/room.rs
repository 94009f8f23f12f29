//! A tiny room, and document 01's figures read straight off its lists.

use reference::Watts;

#[derive(Clone, Debug)]
pub struct Room {
    /// Parent and rating, from node 1.
    pub nodes: Vec<(u32, u32)>,
    pub servers: Vec<Server>,
}

#[derive(Clone, Debug)]
pub struct Server {
    pub rank: u32,
    pub least: u32,
    pub greatest: u32,
    /// Node and share.
    pub cords: Vec<(u32, u32)>,
}

#[derive(Clone, Copy, Debug)]
pub struct Cord {
    /// From 0, in table order, as is its server.
    pub index: usize,
    pub server: usize,
    pub rank: u32,
    pub node: u32,
    pub share: Watts,
    pub low: Watts,
}

impl Room {
    pub fn table(&self) -> Vec<u32> {
        let mut words = vec![1, self.nodes.len() as u32];
        words.extend(
            self.nodes
                .iter()
                .flat_map(|&(parent, rating)| [parent, rating]),
        );
        words.push(self.servers.len() as u32);
        for server in &self.servers {
            let count = server.cords.len() as u32;
            words.extend([server.rank, server.least, server.greatest, count]);
            words.extend(server.cords.iter().flat_map(|&(node, share)| [node, share]));
        }
        words
    }

    pub fn cords(&self) -> Vec<Cord> {
        let mut cords = Vec::new();
        for (number, server) in self.servers.iter().enumerate() {
            for &(node, share) in &server.cords {
                cords.push(Cord {
                    index: cords.len(),
                    server: number,
                    rank: server.rank,
                    node,
                    share: share.into(),
                    low: up(Watts::from(share) * Watts::from(server.least)),
                });
            }
        }
        cords
    }

    pub fn numbers(&self) -> impl Iterator<Item = u32> {
        1..=self.nodes.len() as u32
    }

    pub fn parent(&self, node: u32) -> u32 {
        self.nodes[node as usize - 1].0
    }

    pub fn limit(&self, node: u32) -> Watts {
        Watts::from(self.nodes[node as usize - 1].1) * 80 / 100
    }

    /// The node and all above it, up to its root.
    pub fn upward(&self, node: u32) -> Vec<u32> {
        let mut path = vec![node];
        while self.parent(path[path.len() - 1]) != 0 {
            path.push(self.parent(path[path.len() - 1]));
        }
        path
    }

    /// The cords beneath a node, at any depth.
    pub fn beneath(&self, node: u32) -> Vec<Cord> {
        let mut cords = self.cords();
        cords.retain(|cord| self.upward(cord.node).contains(&node));
        cords
    }

    pub fn roots(&self) -> Vec<u32> {
        self.numbers()
            .filter(|&node| self.parent(node) == 0)
            .collect()
    }

    /// The lowest node whose limit the figures beneath it exceed.
    pub fn first_exceeded(&self, figures: &[Watts]) -> Option<u32> {
        let sum = |node| -> Watts { self.beneath(node).iter().map(|c| figures[c.index]).sum() };
        self.numbers().find(|&node| sum(node) > self.limit(node))
    }

    pub fn lows(&self) -> Vec<Watts> {
        self.cords().iter().map(|cord| cord.low).collect()
    }

    pub fn needs(&self, demands: &[u32]) -> Vec<Watts> {
        let need = |(server, &demand): (&Server, &u32)| {
            Watts::from(demand.max(server.least).min(server.greatest))
        };
        self.servers.iter().zip(demands).map(need).collect()
    }

    /// The first deal's wants.
    pub fn wants(&self, needs: &[Watts]) -> Vec<Watts> {
        let cords = self.cords();
        cords
            .iter()
            .map(|c| up(c.share * needs[c.server]))
            .collect()
    }

    pub fn usable(&self, needs: &[Watts], grants: &[Watts]) -> Vec<Watts> {
        let mut usable = needs.to_vec();
        for cord in self.cords().iter().filter(|cord| cord.share > 0) {
            let borne = 1_000 * grants[cord.index] / cord.share;
            usable[cord.server] = usable[cord.server].min(borne);
        }
        usable
    }

    /// The second deal's wants, by the wants and grants of the first.
    pub fn second_wants(&self, needs: &[Watts], wants: &[Watts], grants: &[Watts]) -> Vec<Watts> {
        let usable = self.usable(needs, grants);
        let want = |cord: &Cord| {
            let used = up(cord.share * usable[cord.server]);
            if grants[cord.index] - used > 0 {
                used
            } else {
                wants[cord.index]
            }
        };
        self.cords().iter().map(want).collect()
    }
}

/// Thousandths of a watt, rounded up.
fn up(thousandths: Watts) -> Watts {
    thousandths / 1_000 + Watts::from(thousandths % 1_000 > 0)
}
