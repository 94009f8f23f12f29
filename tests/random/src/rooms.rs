//! Random rooms, their tables, sheets and demands.

use crate::dice::Dice;

/// The greatest figure of watts that a table or a demand may have.
pub const MOST: u32 = 16_777_215;

#[derive(Clone)]
pub struct Node {
    pub parent: u32,
    pub rating: u32,
    /// Written from version 2 on; in version 1 it is 80.
    pub percent: u32,
}

#[derive(Clone)]
pub struct Cord {
    pub node: u32,
    pub share: u32,
}

#[derive(Clone)]
pub struct Server {
    pub rank: u32,
    pub least: u32,
    pub greatest: u32,
    pub cords: Vec<Cord>,
}

#[derive(Clone)]
pub struct Room {
    pub version: u32,
    pub nodes: Vec<Node>,
    pub servers: Vec<Server>,
}

impl Room {
    /// What the shares of a server sum to.
    pub fn whole(&self) -> u32 {
        if self.version > 2 {
            10_000
        } else {
            1_000
        }
    }

    pub fn words(&self) -> Vec<u32> {
        let mut words = vec![self.version, self.nodes.len() as u32];
        for node in &self.nodes {
            words.extend([node.parent, node.rating]);
            words.extend((self.version > 1).then_some(node.percent));
        }
        words.push(self.servers.len() as u32);
        for server in &self.servers {
            words.extend([server.rank, server.least, server.greatest]);
            words.push(server.cords.len() as u32);
            words.extend(server.cords.iter().flat_map(|cord| [cord.node, cord.share]));
        }
        words
    }

    /// The room of a table that has a room's form, whatever its figures; for the shrinker.
    pub fn parse(words: &[u32]) -> Option<Room> {
        let mut left = words.iter().copied();
        let mut room = Room {
            version: left.next().filter(|version| matches!(version, 1..=3))?,
            nodes: Vec::new(),
            servers: Vec::new(),
        };
        for _ in 0..left.next()? {
            room.nodes.push(Node {
                parent: left.next()?,
                rating: left.next()?,
                percent: if room.version > 1 { left.next()? } else { 80 },
            });
        }
        for _ in 0..left.next()? {
            let (rank, least, greatest) = (left.next()?, left.next()?, left.next()?);
            let mut cords = Vec::new();
            for _ in 0..left.next()? {
                let (node, share) = (left.next()?, left.next()?);
                cords.push(Cord { node, share });
            }
            room.servers.push(Server {
                rank,
                least,
                greatest,
                cords,
            });
        }
        left.next().is_none().then_some(room)
    }

    pub fn cord_count(&self) -> usize {
        self.servers.iter().map(|server| server.cords.len()).sum()
    }

    /// For each node the sum, over its own cords alone, of their parts of a figure of the server.
    fn on_nodes(&self, figure: impl Fn(&Server) -> u32) -> Vec<u64> {
        let mut sums = vec![0; self.nodes.len()];
        for server in &self.servers {
            for cord in &server.cords {
                let part = u64::from(cord.share) * u64::from(figure(server));
                if let Some(sum) = at_node(&mut sums, cord.node) {
                    *sum += part.div_ceil(u64::from(self.whole()));
                }
            }
        }
        sums
    }

    /// For each node the sum of the lows beneath it, at any depth.
    pub fn lows_beneath(&self) -> Vec<u64> {
        let mut sums = self.on_nodes(|server| server.least);
        for (k, node) in self.nodes.iter().enumerate().rev() {
            let own = sums[k];
            if let Some(sum) = at_node(&mut sums, node.parent) {
                *sum += own;
            }
        }
        sums
    }
}

/// The sum of the node with this number; none for 0, or a number that damage has left.
fn at_node(sums: &mut [u64], number: u32) -> Option<&mut u64> {
    sums.get_mut((number as usize).wrapping_sub(1))
}

/// The seven-bit form of the words; of a word that has none, its low 28 bits'.
pub fn sheet(words: &[u32]) -> Vec<u8> {
    let mut bytes = Vec::with_capacity(2 * words.len());
    for word in words {
        let mut left = word & 0x0FFF_FFFF;
        while left > 127 {
            bytes.push(left as u8 | 0x80);
            left >>= 7;
        }
        bytes.push(left as u8);
    }
    bytes
}

/// A figure of watts whose size, small or large, is random too.
pub fn watts(dice: &mut Dice) -> u32 {
    (dice.roll() as u32 & MOST) >> dice.below(25)
}

/// A rating whose limit is `limit`, if there is one.
pub fn rating(dice: &mut Dice, limit: u64, percent: u32) -> u32 {
    let twin = u64::from(percent == 80 && limit.is_multiple_of(4) && dice.one_in(2));
    ((100 * limit).div_ceil(u64::from(percent)) + twin).min(u64::from(MOST)) as u32
}

/// Counts of nodes, servers and cords (at most).
pub type Sizes = (usize, usize, usize);

/// A room that is good, but for sizes beyond the limits (now and then) and lows that no rating
/// can carry (rare).
pub fn room(dice: &mut Dice) -> Room {
    let sizes = sizes(dice);
    let version = dice.within(1, 3);
    let mut room = bare(dice, version, sizes.0);
    if dice.one_in(12) {
        at_border(dice, &mut room);
    } else {
        fill(dice, &mut room, sizes);
    }
    room
}

/// Such a room, of this version and these sizes.
pub fn sized(dice: &mut Dice, version: u32, sizes: Sizes) -> Room {
    let mut room = bare(dice, version, sizes.0);
    fill(dice, &mut room, sizes);
    room
}

/// A room without servers, its nodes not yet rated.
fn bare(dice: &mut Dice, version: u32, nodes: usize) -> Room {
    Room {
        version,
        nodes: tree(dice, nodes, version),
        servers: Vec::new(),
    }
}

fn fill(dice: &mut Dice, room: &mut Room, (_, servers, cords): Sizes) {
    add_servers(dice, room, servers, cords);
    if !dice.one_in(50) {
        lower_leasts(room);
    }
    rate(dice, room);
}

/// Mostly small so that calls are fast.
fn sizes(dice: &mut Dice) -> Sizes {
    match dice.below(1000) {
        0..5 => dice.pick(&[(513, 512, 1024), (512, 513, 1024), (512, 512, 1027)]),
        5..30 => dice.pick(&[(512, 512, 1024), (1, 512, 1024), (512, 256, 1024)]),
        30..70 => (1 + dice.below(512), dice.below(513), 1024),
        70..250 => (1 + dice.below(40), dice.below(41), 1024),
        _ => (1 + dice.below(6), dice.below(6), 1024),
    }
}

/// A forest of one of several shapes, without ratings. From version 2 on nodes are all at 80, all at 100 or mixed.
fn tree(dice: &mut Dice, count: usize, version: u32) -> Vec<Node> {
    let shape = dice.below(8);
    let percents = match (version, dice.below(4)) {
        (1, _) | (_, 0) => [80, 80],
        (_, 1) => [100, 100],
        _ => [80, 100],
    };
    (0..count)
        .map(|k| {
            let parent = match shape {
                0 => k,
                1 => k.min(1),
                2 => k.div_ceil(2),
                3 => 0,
                4 => k - dice.below(k.min(4)),
                5 if dice.one_in(4) => 0,
                _ => dice.below(k + 1).max(k.min(1)),
            };
            Node {
                parent: parent as u32,
                rating: 0,
                percent: dice.pick(&percents),
            }
        })
        .collect()
}

fn add_servers(dice: &mut Dice, room: &mut Room, count: usize, mut cords_left: usize) {
    let (ranks, figures, cords) = (dice.below(4), dice.below(7), dice.below(6));
    let one_rank = dice.within(1, 16);
    for k in 0..count {
        let rank = match ranks {
            0 => one_rank,
            1 => 1 + k as u32 % 16,
            2 => dice.pick(&[1, one_rank, 16]),
            _ => dice.within(1, 16),
        };
        let (least, greatest) = range(dice, figures);
        // Each server still to come keeps a cord, so that the room's count can be reached exactly.
        let most = (cords_left.saturating_sub(count - k - 1)).clamp(1, 4);
        let cords = [1, 2, 4].get(cords).map_or(1 + dice.below(4), |c| *c);
        let cords = cord_list(dice, room, cords.min(most));
        cords_left -= cords.len().min(cords_left);
        room.servers.push(Server {
            rank,
            least,
            greatest,
            cords,
        });
    }
}

/// Least and greatest, in one of several styles.
fn range(dice: &mut Dice, style: usize) -> (u32, u32) {
    match style {
        0 => (dice.within(50, 300), dice.within(300, 1000)),
        1 => (dice.within(0, 4), dice.within(4, 12)),
        2 => (0, watts(dice)),
        3 => (0, MOST),
        4 => (MOST, MOST),
        _ => {
            let (a, b) = (watts(dice), watts(dice));
            (a.min(b), if style == 5 { a.min(b) } else { a.max(b) })
        }
    }
}

/// Cords whose shares sum to the room's whole: equal, all on one, or cut anywhere, and often 0.
fn cord_list(dice: &mut Dice, room: &Room, count: usize) -> Vec<Cord> {
    let (whole, parts) = (room.whole(), count as u32);
    let mut cuts: Vec<u32> = match dice.below(4) {
        0 => (1..parts).map(|k| whole * k / parts).collect(),
        1 => vec![dice.pick(&[0, whole]); count - 1],
        _ => (1..count).map(|_| dice.within(0, whole)).collect(),
    };
    cuts.sort_unstable();
    cuts.push(whole);
    let mut before = 0;
    let mut cord = |cut| {
        let share = cut - before;
        before = cut;
        let node = 1 + dice.below(room.nodes.len()) as u32;
        Cord { node, share }
    };
    cuts.into_iter().map(&mut cord).collect()
}

/// Halves the leasts until each node's greatest limit carries the lows beneath it.
fn lower_leasts(room: &mut Room) {
    let over = |(low, node): (u64, &Node)| low > u64::from(MOST) * u64::from(node.percent) / 100;
    while room.lows_beneath().into_iter().zip(&room.nodes).any(over) {
        for server in &mut room.servers {
            server.least /= 2;
        }
    }
}

/// Ratings from just enough for the lows to more than enough for all that can be asked from
/// below, so that limits bind at several depths.
fn rate(dice: &mut Dice, room: &mut Room) {
    let lows = room.lows_beneath();
    let mut asked = room.on_nodes(|server| server.greatest);
    let style = dice.below(6);
    for k in (0..room.nodes.len()).rev() {
        let spare = asked[k].saturating_sub(lows[k]);
        let limit = match style {
            0 => lows[k],
            1 => u64::from(MOST),
            2 => lows[k] + spare * dice.below(9) as u64 / 8,
            3 => lows[k] + spare * (6 + dice.below(4) as u64) / 8,
            _ => lows[k] + dice.roll() % (spare + 1),
        };
        room.nodes[k].rating = rating(dice, limit, room.nodes[k].percent);
        let passed = limit.min(asked[k]);
        if let Some(sum) = at_node(&mut asked, room.nodes[k].parent) {
            *sum += passed;
        }
    }
}

/// Servers of one rank and one cord each, which ask for about 65,536 watts together, and limits of
/// about as much: amounts and total weights on both sides of where products fit in 32 bits.
fn at_border(dice: &mut Dice, room: &mut Room) {
    let near = |dice: &mut Dice| dice.within(65_533, 65_538);
    for k in 0..room.nodes.len() {
        let limit = near(dice);
        room.nodes[k].rating = rating(dice, u64::from(limit), room.nodes[k].percent);
    }
    let (rank, asked) = (dice.within(1, 16), near(dice));
    let mut cuts: Vec<u32> = (0..dice.below(6)).map(|_| dice.within(0, asked)).collect();
    cuts.extend([0, asked]);
    cuts.sort_unstable();
    for cut in cuts.windows(2) {
        let cords = cord_list(dice, room, 1);
        room.servers.push(Server {
            rank,
            least: 0,
            greatest: cut[1] - cut[0],
            cords,
        });
    }
}

/// A good demand for each server.
pub fn demands(dice: &mut Dice, room: &Room) -> Vec<u32> {
    let style = dice.below(6);
    let mut demand = |server: &Server| match style {
        0 => MOST,
        1 => server.greatest,
        2 => dice.within(0, server.greatest),
        3 => watts(dice),
        _ => {
            let near = dice.pick(&[server.least, server.greatest, 0, MOST]);
            (near + dice.within(0, 2)).saturating_sub(1).min(MOST)
        }
    };
    room.servers.iter().map(&mut demand).collect()
}

#[cfg(test)]
mod tests {
    use super::{demands, room, Dice};
    use reference::plan::deals;
    use reference::Watts;
    use std::collections::BTreeSet;

    /// In a room of one node and no lows, with one rank, the wants are the weights and the grants
    /// the amount.
    #[test]
    fn splits_meet_the_border_of_short_products() {
        let mut dice = Dice(1);
        let mut met = BTreeSet::new();
        for _ in 0..100_000 {
            let drawn = room(&mut dice);
            let demands = demands(&mut dice, &drawn);
            let plain =
                |server: &super::Server| server.least == 0 && server.rank == drawn.servers[0].rank;
            if drawn.nodes.len() != 1 || !drawn.servers.iter().all(plain) {
                continue;
            }
            if let Ok(room) = reference::room::Room::of_words(&drawn.words()) {
                let deals = deals(&room, &demands);
                let sum = |figures: &[Watts]| figures.iter().sum::<Watts>();
                met.insert((sum(&deals.first_grants), sum(&deals.first_wants)));
            }
        }
        for amount in 65_534..=65_537 {
            for whole in amount..=65_537 {
                assert!(met.contains(&(amount, whole)), "{amount} of {whole}");
            }
        }
    }
}
