//! What several test files build with. Every expected figure in them comes from document 01's
//! text, or is worked by hand from it beside the test.

/// A node: parent, rating.
pub type Node = (u32, u32);
/// A server: rank, least, greatest and its cords, each a node and a share.
pub type Server<'a> = (u32, u32, u32, &'a [(u32, u32)]);

/// The words of a room table, good or bad.
pub fn table(nodes: &[Node], servers: &[Server]) -> Vec<u32> {
    let mut words = vec![1, nodes.len() as u32];
    for &(parent, rating) in nodes {
        words.extend([parent, rating]);
    }
    words.push(servers.len() as u32);
    for &(rank, least, greatest, cords) in servers {
        words.extend([rank, least, greatest, cords.len() as u32]);
        words.extend(cords.iter().flat_map(|&(node, share)| [node, share]));
    }
    words
}

/// Room H with this rating of node 2 (document 01's has 500).
pub fn room_h(rating: u32) -> Vec<u32> {
    let both: &[(u32, u32)] = &[(1, 500), (2, 500)];
    let one: &[(u32, u32)] = &[(2, 1000)];
    table(
        &[(0, 150), (0, rating)],
        &[(1, 100, 400, both), (1, 100, 400, one)],
    )
}
