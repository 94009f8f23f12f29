//! The room as trees of breakers, each owning what hangs on it: limits, lows and refusal 9.

use crate::table::{CordEntry, NodeEntry, ServerEntry, Table};
use crate::{Refusal, Watts};
use std::ops::Range;

/// An accepted room.
#[derive(Clone, Debug)]
pub struct Room {
    /// What the shares of each server sum to.
    pub whole: Watts,
    /// The roots, in number order.
    pub trees: Vec<Breaker>,
    /// In table order, as are the cords.
    pub servers: Vec<Server>,
    pub cords: Vec<Cord>,
}

/// Any node. Its children: the nodes below it, by number, and after them its own cords, as the table has them.
#[derive(Clone, Debug)]
pub struct Breaker {
    pub number: u32,
    pub limit: Watts,
    pub children: Vec<Child>,
}

#[derive(Clone, Debug)]
pub enum Child {
    Breaker(Breaker),
    Cord(Cord),
}

#[derive(Clone, Debug)]
pub struct Server {
    pub rank: u32,
    pub least: Watts,
    pub greatest: Watts,
    /// The indexes of its cords.
    pub cords: Range<usize>,
}

#[derive(Clone, Copy, Debug)]
pub struct Cord {
    /// From 0, in table order.
    pub index: usize,
    pub node: u32,
    pub rank: u32,
    pub share: Watts,
    pub low: Watts,
}

/// The table and the room that the words describe, or the first fault (4 to 9).
pub fn checked(words: &[u32]) -> Result<(Table, Room), Refusal> {
    let table = Table::of_words(words)?;
    let room = Room::of_table(&table);
    match room.overfull() {
        Some(number) => Err(Refusal::new(9, number as usize)),
        None => Ok((table, room)),
    }
}

impl Room {
    /// The room that the words describe, or the first fault (4 to 9).
    pub fn of_words(words: &[u32]) -> Result<Room, Refusal> {
        let (_, room) = checked(words)?;
        Ok(room)
    }

    fn of_table(table: &Table) -> Room {
        let whole = table.whole.into();
        let mut servers = Vec::new();
        let mut cords = Vec::new();
        for entry in &table.servers {
            let first = cords.len();
            for &cord in &entry.cords {
                cords.push(Cord::of_entry(cords.len(), entry, cord, whole));
            }
            servers.push(Server::of_entry(entry, first..cords.len()));
        }
        Room {
            whole,
            trees: Hangings::new(table, &cords).trees(),
            servers,
            cords,
        }
    }

    /// The lowest-numbered breaker whose limit the lows beneath it exceed.
    fn overfull(&self) -> Option<u32> {
        self.trees.iter().filter_map(|root| root.lows().1).min()
    }
}

impl Breaker {
    /// The sum of the lows beneath, and the lowest number of a breaker here that they overfill.
    fn lows(&self) -> (Watts, Option<u32>) {
        let below: Vec<_> = self.children.iter().map(Child::lows).collect();
        let sum = below.iter().map(|(lows, _)| lows).sum();
        let deeper = below.iter().filter_map(|(_, overfull)| *overfull);
        let own = (sum > self.limit).then_some(self.number);
        (sum, deeper.chain(own).min())
    }
}

impl Child {
    fn lows(&self) -> (Watts, Option<u32>) {
        match self {
            Child::Breaker(breaker) => breaker.lows(),
            Child::Cord(cord) => (cord.low, None),
        }
    }
}

impl Server {
    fn of_entry(entry: &ServerEntry, cords: Range<usize>) -> Server {
        Server {
            rank: entry.rank,
            least: entry.least.into(),
            greatest: entry.greatest.into(),
            cords,
        }
    }
}

impl Cord {
    fn of_entry(index: usize, server: &ServerEntry, cord: CordEntry, whole: Watts) -> Cord {
        let share = cord.share.into();
        Cord {
            index,
            node: cord.node,
            rank: server.rank,
            share,
            low: carried(share, server.least.into(), whole),
        }
    }
}

/// What a cord of this share of a whole must carry of a load: ceil(share × load / whole).
pub fn carried(share: Watts, load: Watts, whole: Watts) -> Watts {
    (share * load + whole - 1) / whole
}

fn limit(node: &NodeEntry) -> Watts {
    Watts::from(node.rating) * Watts::from(node.percent) / 100
}

/// What hangs on each node (0: on none), noted once so that growing the trees is one walk.
struct Hangings<'a> {
    table: &'a Table,
    nodes: Vec<Vec<u32>>,
    cords: Vec<Vec<Cord>>,
}

impl Hangings<'_> {
    fn new<'a>(table: &'a Table, cords: &[Cord]) -> Hangings<'a> {
        let places = table.nodes.len() + 1;
        let mut hangings = Hangings {
            table,
            nodes: vec![Vec::new(); places],
            cords: vec![Vec::new(); places],
        };
        for (number, node) in (1..).zip(&table.nodes) {
            hangings.nodes[node.parent as usize].push(number);
        }
        for &cord in cords {
            hangings.cords[cord.node as usize].push(cord);
        }
        hangings
    }

    fn trees(&self) -> Vec<Breaker> {
        self.nodes[0].iter().map(|&root| self.grow(root)).collect()
    }

    fn grow(&self, number: u32) -> Breaker {
        let place = number as usize;
        let nodes = self.nodes[place].iter();
        let cords = self.cords[place].iter();
        let breakers = nodes.map(|&child| Child::Breaker(self.grow(child)));
        Breaker {
            number,
            limit: limit(&self.table.nodes[place - 1]),
            children: breakers.chain(cords.map(|&c| Child::Cord(c))).collect(),
        }
    }
}
