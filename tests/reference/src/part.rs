//! A joined hut parted (document 02, A.10), and its C call. Written from the documents alone, before
//! the product's own code of it was seen.

use crate::call::{answered, put_words, words, WORD};
use crate::room::checked;
use crate::table::{Table, Word};
use crate::{fits, Refusal};

/// How many nodes and servers, of those that come first, go to the first part.
#[derive(Clone, Copy)]
struct Cut {
    nodes: usize,
    servers: usize,
}

/// Part, with room for so many words of each part: the words of both.
pub fn part(
    table: &[u32],
    nodes: u64,
    servers: u64,
    spaces: [usize; 2],
) -> Result<[Vec<u32>; 2], Refusal> {
    let (table, _) = checked(table)?;
    let cut = Cut::of(&table, nodes, servers)?;
    if let Some(index) = table.said().iter().position(|word| cut.is_crossed(word)) {
        return Err(Refusal::new(23, index));
    }
    let parts = parted(table, cut).map(|part| part.words());
    fits(12, parts[0].len(), spaces[0])?;
    fits(12, parts[1].len(), spaces[1])?;
    Ok(parts)
}

impl Cut {
    /// Refusal 22: each part has a node; servers it may lack.
    fn of(table: &Table, nodes: u64, servers: u64) -> Result<Cut, Refusal> {
        let (all_nodes, all_servers) = (table.nodes.len() as u64, table.servers.len() as u64);
        if !(1..all_nodes).contains(&nodes) {
            return Err(Refusal::new(22, 0));
        }
        if servers > all_servers {
            return Err(Refusal::new(22, 1));
        }
        Ok(Cut {
            nodes: nodes as usize,
            servers: servers as usize,
        })
    }

    /// Does the word hang something of one part on a node of the other?
    fn is_crossed(self, word: &Word) -> bool {
        let in_first = |number: u32| number as usize <= self.nodes;
        match *word {
            Word::Figure(_) | Word::Parent { parent: 0, .. } => false,
            Word::Parent { node, parent } => in_first(node) != in_first(parent),
            Word::Cord { server, node } => (server < self.servers) != in_first(node),
        }
    }
}

/// The table up to the cut, and what follows it, its nodes numbered from 1.
fn parted(mut table: Table, cut: Cut) -> [Table; 2] {
    let second = Table {
        nodes: table.nodes.split_off(cut.nodes),
        servers: table.servers.split_off(cut.servers),
        ..table
    };
    [table, second.renumbered(|number| number - cut.nodes as u32)]
}

/// The C call.
pub fn call(
    table: &[u8],
    nodes: u64,
    servers: u64,
    first: &mut [u8],
    second: &mut [u8],
    answer: &mut [u8],
) -> u32 {
    answered(answer, || {
        let spaces = [first.len() / WORD, second.len() / WORD];
        let parts = part(&words(table), nodes, servers, spaces)?;
        put_words(&parts[0], first);
        put_words(&parts[1], second);
        Ok(parts.map(|part| part.len() as u64))
    })
}
