//! Join and Part of document 02, A.8 and A.10.

use super::table::Table;
use super::{tell, Outcome, Refusal, MOST_CORDS, MOST_NODES, MOST_SERVERS};

/// What is kept of a checked table: its counts, and where its servers start.
struct Hut<'a> {
    bytes: &'a [u8],
    version: u32,
    width: usize,
    nodes: usize,
    servers: usize,
    start: usize,
}

fn word(bytes: &[u8], at: usize) -> u32 {
    u32::from_le_bytes(bytes[4 * at..4 * at + 4].try_into().unwrap())
}

fn put(bytes: &mut [u8], at: usize, word: u32) {
    bytes[4 * at..4 * at + 4].copy_from_slice(&word.to_le_bytes());
}

impl Hut<'_> {
    fn of(bytes: &[u8]) -> Outcome<Hut<'_>> {
        let bytes = &bytes[..bytes.len() - bytes.len() % 4];
        Table(bytes).check()?;
        let (version, nodes) = (word(bytes, 0), word(bytes, 1) as usize);
        let width = if version == 1 { 2 } else { 3 };
        let start = 3 + width * nodes;
        Ok(Hut { bytes, version, width, nodes, servers: word(bytes, start - 1) as usize, start })
    }

    fn words(&self) -> usize {
        self.bytes.len() / 4
    }

    fn cords(&self) -> usize {
        (self.words() - self.start - 4 * self.servers) / 2
    }

    /// The index of the server at a place, or of the table's end.
    fn server(&self, place: usize) -> usize {
        (0..place).fold(self.start, |at, _| at + 4 + 2 * word(self.bytes, at + 3) as usize)
    }
}

/// Numbers of nodes moved in words of nodes, 0 staying 0.
fn move_parents(nodes: &mut [u8], width: usize, moved: impl Fn(u32) -> u32) {
    for node in nodes.chunks_exact_mut(4 * width) {
        let parent = word(node, 0);
        if parent != 0 {
            put(node, 0, moved(parent));
        }
    }
}

/// The nodes of cords moved in words of servers.
fn move_cords(servers: &mut [u8], moved: impl Fn(u32) -> u32) {
    let mut at = 0;
    while 4 * at < servers.len() {
        let count = word(servers, at + 3) as usize;
        for cord in (0..count).map(|c| at + 4 + 2 * c) {
            put(servers, cord, moved(word(servers, cord)));
        }
        at += 4 + 2 * count;
    }
}

/// Join: the nodes and servers of the second behind those of the first.
pub fn join(first: &[u8], second: &[u8], table: &mut [u8], answer: &mut [u8]) -> u32 {
    tell(answer, || {
        let (one, two) = (Hut::of(first)?, Hut::of(second)?);
        if one.version != two.version {
            return Err(Refusal(19, 0));
        }
        let sums = [one.nodes + two.nodes, one.servers + two.servers, one.cords() + two.cords()];
        let most = [MOST_NODES, MOST_SERVERS, MOST_CORDS];
        if let Some(place) = (0..3).find(|&i| most[i] < sums[i]) {
            return Err(Refusal(20, place as u64));
        }
        let words = one.words() + two.words() - 3;
        if table.len() / 4 < words {
            return Err(Refusal(12, words as u64));
        }
        let up = one.nodes as u32;
        let (behind, middle) = (one.start - 1, one.start + two.start - 4);
        let next = middle + 1 + one.words() - one.start;
        put(table, 0, one.version);
        put(table, 1, sums[0] as u32);
        table[8..4 * behind].copy_from_slice(&one.bytes[8..4 * behind]);
        table[4 * behind..4 * middle].copy_from_slice(&two.bytes[8..4 * (two.start - 1)]);
        move_parents(&mut table[4 * behind..4 * middle], one.width, |parent| parent + up);
        put(table, middle, sums[1] as u32);
        table[4 * (middle + 1)..4 * next].copy_from_slice(&one.bytes[4 * one.start..]);
        table[4 * next..4 * words].copy_from_slice(&two.bytes[4 * two.start..]);
        move_cords(&mut table[4 * next..4 * words], |node| node + up);
        Ok(words as u64)
    })
}

/// Part: the first nodes and servers, and the others. The answer's third number is put by the caller of this.
pub fn part(table: &[u8], cut: [u64; 2], first: &mut [u8], second: &mut [u8], answer: &mut [u8]) -> u32 {
    let Some(answer) = answer.first_chunk_mut::<24>() else {
        return 0;
    };
    let mut others = None;
    tell(&mut answer[..16], || {
        let counts = parted(table, cut, first, second)?;
        others = Some(counts[1]);
        Ok(counts[0])
    });
    if let Some(count) = others {
        answer[16..].copy_from_slice(&count.to_le_bytes());
    }
    1
}

fn parted(table: &[u8], cut: [u64; 2], first: &mut [u8], second: &mut [u8]) -> Outcome<[u64; 2]> {
    let hut = Hut::of(table)?;
    if cut[0] < 1 || hut.nodes as u64 <= cut[0] {
        return Err(Refusal(22, 0));
    }
    if (hut.servers as u64) < cut[1] {
        return Err(Refusal(22, 1));
    }
    let (nodes, servers) = (cut[0] as usize, cut[1] as usize);
    let (top, seam, end) = (2 + hut.width * nodes, hut.server(servers), hut.words());
    if let Some(index) = first_across(&hut, nodes as u32, top, seam) {
        return Err(Refusal(23, index as u64));
    }
    let counts = [top + 1 + seam - hut.start, 2 + hut.start - top + end - seam];
    for (count, output) in [(counts[0], first.len()), (counts[1], second.len())] {
        if output / 4 < count {
            return Err(Refusal(12, count as u64));
        }
    }
    put(first, 0, hut.version);
    put(first, 1, nodes as u32);
    first[8..4 * top].copy_from_slice(&hut.bytes[8..4 * top]);
    put(first, top, servers as u32);
    first[4 * (top + 1)..4 * counts[0]].copy_from_slice(&hut.bytes[4 * hut.start..4 * seam]);

    let down = nodes as u32;
    let middle = 2 + hut.start - 1 - top;
    put(second, 0, hut.version);
    put(second, 1, (hut.nodes - nodes) as u32);
    second[8..4 * middle].copy_from_slice(&hut.bytes[4 * top..4 * (hut.start - 1)]);
    move_parents(&mut second[8..4 * middle], hut.width, |parent| parent - down);
    put(second, middle, (hut.servers - servers) as u32);
    second[4 * (middle + 1)..4 * counts[1]].copy_from_slice(&hut.bytes[4 * seam..]);
    move_cords(&mut second[4 * (middle + 1)..4 * counts[1]], |node| node - down);
    Ok(counts.map(|count| count as u64))
}

/// The first word that names a node on the other side of the cut.
fn first_across(hut: &Hut, nodes: u32, top: usize, seam: usize) -> Option<usize> {
    let parent = (top..hut.start - 1).step_by(hut.width).find(|&i| (1..=nodes).contains(&word(hut.bytes, i)));
    let mut at = hut.start;
    let mut cord = None;
    while parent.is_none() && cord.is_none() && at < hut.words() {
        let count = word(hut.bytes, at + 3) as usize;
        let before = at < seam;
        cord = (0..count).map(|c| at + 4 + 2 * c).find(|&i| (word(hut.bytes, i) <= nodes) != before);
        at += 4 + 2 * count;
    }
    parent.or(cord)
}
