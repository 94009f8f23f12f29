//! Two huts joined (document 02, A.8), and its C call. Written from the documents alone, before the
//! product's own code of it was seen.

use crate::call::{answered, put_words, words, WORD};
use crate::room::checked;
use crate::table::{Table, MOST_CORDS, MOST_NODES, MOST_SERVERS};
use crate::{fits, Plan, Refusal};

/// Join, with room for so many words: the joined table's words.
pub fn join(first: &[u32], second: &[u32], room: usize) -> Result<Vec<u32>, Refusal> {
    let (first, _) = checked(first)?;
    let (second, _) = checked(second)?;
    if first.version != second.version {
        return Err(Refusal::new(19, 0));
    }
    let joined = joined(first, second);
    if let Some(place) = too_large(&joined) {
        return Err(Refusal::new(20, place));
    }
    let words = joined.words();
    fits(12, words.len(), room)?;
    Ok(words)
}

/// The second table's entries after the first's, with their nodes numbered on.
fn joined(mut first: Table, second: Table) -> Table {
    let count = first.nodes.len() as u32;
    let second = second.renumbered(|number| number + count);
    first.nodes.extend(second.nodes);
    first.servers.extend(second.servers);
    first
}

/// The first of the counts of nodes (0), servers (1) and cords (2) that no table may have.
fn too_large(table: &Table) -> Option<usize> {
    let counts = [table.nodes.len(), table.servers.len(), table.cord_count()];
    let most = [MOST_NODES, MOST_SERVERS, MOST_CORDS];
    let mut pairs = counts.into_iter().zip(most);
    pairs.position(|(count, most)| count > most as usize)
}

/// What the request says of the joined room's plan, by both rooms' plans and the first's count of nodes.
pub fn joined_plan(first: Plan, second: Plan, nodes: u32) -> Plan {
    let raised = second.held.iter().map(|&node| match node {
        0 => 0,
        _ => node + nodes,
    });
    Plan {
        freed: first.freed + second.freed,
        grants: [first.grants, second.grants].concat(),
        caps: [first.caps, second.caps].concat(),
        headroom: [first.headroom, second.headroom].concat(),
        held: first.held.into_iter().chain(raised).collect(),
    }
}

/// The C call.
pub fn call(first: &[u8], second: &[u8], table: &mut [u8], answer: &mut [u8]) -> u32 {
    answered(answer, || {
        let joined = join(&words(first), &words(second), table.len() / WORD)?;
        put_words(&joined, table);
        Ok([joined.len() as u64])
    })
}
