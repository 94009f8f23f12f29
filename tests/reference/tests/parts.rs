//! A joined hut parted: tables written out by hand from request A.10, its refusals in order, and its C
//! call.

#[path = "common/bytes.rs"]
mod bytes;
mod common;

use bytes::{list, padded};
use common::{room_h, table, Server};
use reference::join::join;
use reference::part::{call, part};
use reference::Refusal;

const ANY: [usize; 2] = [1 << 20; 2];

/// Room H, then a root with a breaker beneath it and a server of its own: 31 words.
fn joined() -> Vec<u32> {
    let two: &[(u32, u32)] = &[(1, 500), (2, 500)];
    let servers: [Server; 3] = [
        (1, 100, 400, two),
        (1, 100, 400, &[(2, 1_000)]),
        (3, 10, 20, &[(4, 1_000)]),
    ];
    table(&[(0, 150), (0, 500), (0, 1_000), (3, 500)], &servers)
}

const SMALL: [u32; 13] = [1, 2, 0, 1_000, 1, 500, 1, 3, 10, 20, 1, 2, 1_000];

fn refused(table: &[u32], nodes: u64, servers: u64, spaces: [usize; 2]) -> (u64, u64) {
    let Refusal { number, place } = part(table, nodes, servers, spaces).expect_err("a refusal");
    (number, place)
}

#[test]
fn both_halves_come_back() {
    let parts = Ok([room_h(500), SMALL.to_vec()]);
    assert_eq!(part(&joined(), 2, 2, [21, 13]), parts);
    assert_eq!(join(&room_h(500), &SMALL, 31), Ok(joined()));
}

/// Three roots, each with a breaker beneath it, and two servers, on the second root's tree.
#[test]
fn a_part_may_lack_servers() {
    let on = |node: &'static [(u32, u32)]| -> Server { (7, 0, 9, node) };
    let nodes = [(0, 11), (1, 12), (0, 13), (3, 14), (0, 15), (5, 16)];
    let words = table(&nodes, &[on(&[(4, 1_000)]), on(&[(3, 1_000)])]);
    let first = vec![1, 2, 0, 11, 1, 12, 0];
    let second = [
        &[1, 4, 0, 13, 1, 14, 0, 15, 3, 16, 2][..],
        &[7, 0, 9, 1, 2, 1_000, 7, 0, 9, 1, 1, 1_000],
    ];
    assert_eq!(part(&words, 2, 0, [7, 23]), Ok([first, second.concat()]));
    let first = [
        &[1, 4, 0, 11, 1, 12, 0, 13, 3, 14, 2][..],
        &[7, 0, 9, 1, 4, 1_000, 7, 0, 9, 1, 3, 1_000],
    ];
    let second = vec![1, 2, 0, 15, 1, 16, 0];
    assert_eq!(part(&words, 4, 2, [23, 7]), Ok([first.concat(), second]));
}

#[test]
fn percents_and_shares_stay() {
    for (version, whole) in [(2, 1_000), (3, 10_000)] {
        let words = [
            &[version, 3, 0, 90, 100, 0, 80, 80, 2, 70, 100, 2][..],
            &[5, 0, 9, 1, 1, whole, 6, 0, 8, 2, 3, whole, 2, 0],
        ];
        let first = vec![version, 1, 0, 90, 100, 1, 5, 0, 9, 1, 1, whole];
        let second = [
            &[version, 2, 0, 80, 80, 1, 70, 100, 1][..],
            &[6, 0, 8, 2, 2, whole, 1, 0],
        ];
        let parts = Ok([first, second.concat()]);
        assert_eq!(part(&words.concat(), 1, 1, [12, 17]), parts);
    }
}

#[test]
fn the_table_is_judged_first() {
    for (nodes, servers) in [(0, 0), (1, 1), (u64::MAX, u64::MAX)] {
        assert_eq!(refused(&[], nodes, servers, [0; 2]), (4, 0));
        assert_eq!(refused(&joined()[..30], nodes, servers, [0; 2]), (4, 30));
        assert_eq!(refused(&room_h(187), nodes, servers, [0; 2]), (9, 2));
    }
}

/// The node count is judged before the server count, and both before any word.
#[test]
fn counts_out_of_range_are_22() {
    let far = [1 << 32, (1 << 32) + 2, 1 << 63, u64::MAX];
    for nodes in [&[0, 4, 5, 513][..], &far].concat() {
        assert_eq!(refused(&joined(), nodes, 2, ANY), (22, 0));
        assert_eq!(refused(&joined(), nodes, 4, ANY), (22, 0));
    }
    for servers in [&[4, 5, 513][..], &far].concat() {
        assert_eq!(refused(&joined(), 2, servers, [0; 2]), (22, 1));
        assert_eq!(refused(&joined(), 1, servers, ANY), (22, 1));
    }
    // A room of one node has no good count.
    for nodes in 0..3 {
        assert_eq!(refused(&[1, 1, 0, 7, 0], nodes, 0, ANY), (22, 0));
    }
}

/// The joined room: parents are words 2, 4, 6 and 8, servers start at 11, 19 and 25, and their cords'
/// nodes are words 15 and 17, 23 and 29.
#[test]
fn a_crossing_link_is_23_at_its_word() {
    // Server 1 has a cord on either side of a cut after node 1.
    assert_eq!(refused(&joined(), 1, 0, [0; 2]), (23, 15));
    for servers in 1..4 {
        assert_eq!(refused(&joined(), 1, servers, [0; 2]), (23, 17));
    }
    // After node 2, servers 1 and 2 belong to the first part and server 3 to the second.
    assert_eq!(refused(&joined(), 2, 0, [0; 2]), (23, 15));
    assert_eq!(refused(&joined(), 2, 1, [0; 2]), (23, 23));
    assert_eq!(refused(&joined(), 2, 3, [0; 2]), (23, 29));
    // After node 3 node 4 loses its parent, and a parent comes before every cord.
    for servers in 0..4 {
        assert_eq!(refused(&joined(), 3, servers, [0; 2]), (23, 8));
    }
}

/// With percents the parents are words 2, 5 and 8; the second and the third node hang on the first.
#[test]
fn the_first_crossing_parent_is_told() {
    let words = [2, 3, 0, 9, 80, 1, 9, 80, 1, 9, 80, 0];
    assert_eq!(refused(&words, 1, 0, [0; 2]), (23, 5));
    assert_eq!(refused(&words, 2, 0, [0; 2]), (23, 8));
}

/// A cord that carries nothing crosses as any other.
#[test]
fn a_share_of_0_is_a_cord() {
    let server: Server = (1, 0, 9, &[(1, 1_000), (2, 0)]);
    let words = table(&[(0, 9), (0, 9)], &[server]);
    assert_eq!(refused(&words, 1, 1, ANY), (23, 13));
}

#[test]
fn short_lists_are_12_at_the_words_needed() {
    for short in 0..21 {
        assert_eq!(refused(&joined(), 2, 2, [short, 13]), (12, 21));
        assert_eq!(refused(&joined(), 2, 2, [short, 0]), (12, 21));
    }
    for short in 0..13 {
        assert_eq!(refused(&joined(), 2, 2, [21, short]), (12, 13));
    }
}

/// Numbers, eight bytes each.
fn numbers(numbers: &[u64]) -> Vec<u8> {
    numbers.iter().flat_map(|n| n.to_le_bytes()).collect()
}

#[test]
fn the_call_fills_the_front_of_both_lists_and_the_answer() {
    for over in 0..4 {
        let (mut first, mut second) = (vec![0xAA; 84 + over], vec![0xAA; 55 - over]);
        let mut answer = vec![0xAA; 24 + over];
        let table = padded(&joined(), over);
        assert_eq!(call(&table, 2, 2, &mut first, &mut second, &mut answer), 1);
        assert_eq!(first, padded(&room_h(500), over));
        assert_eq!(second, padded(&SMALL, 3 - over));
        assert_eq!(answer[..24], numbers(&[0, 21, 13]));
        assert_eq!(answer[24..], vec![0xAA; over]);
    }
}

#[test]
fn a_refused_call_leaves_both_lists_and_the_last_eight_bytes() {
    let cases = [
        (2, 2, [83, 52], [12, 21]),
        (2, 2, [84, 51], [12, 13]),
        (3, 2, [84, 52], [23, 8]),
        ((1 << 32) + 2, 2, [84, 52], [22, 0]),
        (2, (1 << 32) + 2, [84, 52], [22, 1]),
    ];
    for (nodes, servers, lengths, told) in cases {
        let [mut first, mut second] = lengths.map(|length| vec![0xAA; length]);
        let mut answer = [0xAA; 24];
        let table = list(&joined());
        assert_eq!(
            call(&table, nodes, servers, &mut first, &mut second, &mut answer),
            1
        );
        assert_eq!([first, second], lengths.map(|length| vec![0xAA; length]));
        assert_eq!(answer[..16], numbers(&told));
        assert_eq!(answer[16..], [0xAA; 8]);
    }
}

#[test]
fn a_short_answer_buffer_stops_the_call() {
    for length in 0..24 {
        let (mut first, mut second) = ([0xAA; 84], [0xAA; 52]);
        let mut answer = vec![0xAA; length];
        for table in [&list(&joined())[..], &[]] {
            assert_eq!(call(table, 2, 2, &mut first, &mut second, &mut answer), 0);
        }
        assert_eq!((first, second), ([0xAA; 84], [0xAA; 52]));
        assert_eq!(answer, vec![0xAA; length]);
    }
}
