//! Where an input is turned back: every number with its place, and which of two faults is told.

mod common;

use common::{room_h, table, Node, Server};
use reference::{plan, read, write, Refusal};

const MOST: u32 = 16_777_215;
const GOOD_NODE: Node = (0, 1_000);

/// Write's answer to these words; Read's and Plan's must be the same.
fn refused(words: &[u32]) -> (u64, u64) {
    let refusal = write(words, 1 << 20).expect_err("a refusal");
    assert_eq!(plan(words, &[MOST + 1; 600], [0; 4]), Err(refusal));
    if words.iter().all(|&word| word < 1 << 28) {
        assert_eq!(read(&reference::number::bytes(words), 0), Err(refusal));
    }
    (refusal.number, refusal.place)
}

fn accepted(words: &[u32]) {
    let sheet = write(words, 1 << 20).expect("an accepted room");
    assert_eq!(read(&sheet, words.len()), Ok(words.to_vec()));
}

/// Room H with one word changed.
fn h_with(index: usize, word: u32) -> Vec<u32> {
    let mut words = room_h(500);
    words[index] = word;
    words
}

#[test]
fn a_missing_word_is_4_at_the_length() {
    let words = room_h(500);
    for length in 0..words.len() {
        assert_eq!(refused(&words[..length]), (4, length as u64));
    }
}

/// Room H's words: version, nodes, parent and rating twice, servers, then server 1 from 7 and
/// server 2 from 15.
#[test]
fn a_word_out_of_range_is_5_at_its_index() {
    let bad: [(usize, &[u32]); 20] = [
        (0, &[0, 4, 128, u32::MAX]),
        (1, &[0, 513, u32::MAX]),
        (2, &[1, 2]),
        (3, &[MOST + 1, u32::MAX]),
        (4, &[2, 3, u32::MAX]),
        (5, &[MOST + 1, u32::MAX]),
        (6, &[513, u32::MAX]),
        (7, &[0, 17, u32::MAX]),
        (8, &[MOST + 1, u32::MAX]),
        (9, &[MOST + 1, u32::MAX]),
        (10, &[0, 5, u32::MAX]),
        (11, &[0, 3, u32::MAX]),
        (12, &[1_001, u32::MAX]),
        (13, &[0, 3]),
        (14, &[1_001]),
        (15, &[0, 17]),
        (16, &[MOST + 1]),
        (17, &[MOST + 1]),
        (18, &[0, 5]),
        (19, &[0, 3, 513]),
    ];
    for (index, words) in bad {
        for &word in words {
            assert_eq!(refused(&h_with(index, word)), (5, index as u64), "{word}");
        }
    }
}

#[test]
fn the_ends_of_every_range_are_accepted() {
    accepted(&table(&[(0, MOST), (1, 0), (2, MOST)], &[]));
    accepted(&table(&[GOOD_NODE], &[(16, 0, 0, &[(1, 1000)])]));
    accepted(&table(&[GOOD_NODE], &[(1, 0, MOST, &[(1, 0), (1, 1000)])]));
    let four = [(1, 250), (2, 250), (2, 250), (1, 250)];
    accepted(&table(&[GOOD_NODE, (1, 0)], &[(1, 0, MOST, &four)]));
    let nodes: Vec<Node> = (0..512).map(|parent| (parent, MOST)).collect();
    let deepest: Server = (1, 0, MOST, &[(512, 1000)]);
    accepted(&table(&nodes, &vec![deepest; 512]));
    let exactly_the_limit: Server = (1, 13_421_772, 13_421_772, &[(1, 1000)]);
    accepted(&table(&[(0, MOST)], &[exactly_the_limit]));
}

#[test]
fn cords_are_counted_over_the_room() {
    let four: &[(u32, u32)] = &[(1, 250); 4];
    let three: &[(u32, u32)] = &[(1, 0), (1, 0), (1, 1000)];
    let two: &[(u32, u32)] = &[(1, 500); 2];
    let of = |cords| (1, 0, 9, cords);
    accepted(&table(&[GOOD_NODE], &vec![of(two); 512]));
    let full = vec![of(four); 256];
    accepted(&table(&[GOOD_NODE], &full));
    // Server 257 starts at word 5 + 256 × 12 and its fourth word counts its cords.
    let over = [full, vec![of(&[(1, 1000)])]].concat();
    assert_eq!(refused(&table(&[GOOD_NODE], &over)), (5, 3_080));
    // 255 × 4 + 3 = 1,023: one more cord has room, two have not.
    let nearly = [vec![of(four); 255], vec![of(three)]].concat();
    let last = |cords| [nearly.clone(), vec![of(cords)]].concat();
    accepted(&table(&[GOOD_NODE], &last(&[(1, 1000)])));
    let index = 5 + 255 * 12 + 10 + 3;
    assert_eq!(refused(&table(&[GOOD_NODE], &last(two))), (5, index));
}

#[test]
fn greatest_below_least_is_6_at_greatest() {
    assert_eq!(refused(&h_with(9, 99)), (6, 9));
    assert_eq!(refused(&h_with(17, 0)), (6, 17));
    accepted(&h_with(9, 100));
}

#[test]
fn shares_that_are_not_1000_are_7_at_the_rank() {
    assert_eq!(refused(&h_with(12, 499)), (7, 7));
    assert_eq!(refused(&h_with(14, 501)), (7, 7));
    assert_eq!(refused(&h_with(20, 0)), (7, 15));
    let thousand = [(1, 1_000); 4];
    assert_eq!(
        refused(&table(&[GOOD_NODE], &[(1, 0, 9, &thousand)])),
        (7, 5)
    );
}

#[test]
fn words_left_over_are_8_at_the_first() {
    let left_over = |words: &[u32]| [room_h(500), words.to_vec()].concat();
    assert_eq!(refused(&left_over(&[0])), (8, 21));
    assert_eq!(refused(&left_over(&[u32::MAX, 1, 2])), (8, 21));
    assert_eq!(refused(&[1, 1, 0, 0, 0, 0]), (8, 5));
    assert_eq!(refused(&left_over(&vec![7; 3_000_000])), (8, 21));
}

#[test]
fn lows_over_a_limit_are_9_at_the_lowest_node() {
    assert_eq!(refused(&room_h(187)), (9, 2));
    assert_eq!(refused(&h_with(3, 62)), (9, 1));
    accepted(&h_with(3, 63));
    // Two trees, the cords at the bottom of both; node 2 is the lowest that they overfill.
    let ratings = |two, four| [(0, 500), (0, two), (1, 500), (2, four), (3, 500)];
    let servers: [Server; 2] = [(1, 100, 100, &[(4, 1000)]), (2, 200, 200, &[(5, 1000)])];
    accepted(&table(&ratings(125, 125), &servers));
    assert_eq!(refused(&table(&ratings(124, 0), &servers)), (9, 2));
    assert_eq!(refused(&table(&ratings(125, 124), &servers)), (9, 4));
    let mut nodes = ratings(0, 0);
    nodes[0].1 = 249;
    assert_eq!(refused(&table(&nodes, &servers)), (9, 1));
    // A deeper node with a lower number in another tree than the first overfull root.
    let nodes = [(0, 500), (1, 0), (0, 0)];
    let servers: [Server; 2] = [(1, 1, 1, &[(3, 1000)]), (1, 1, 1, &[(2, 1000)])];
    assert_eq!(refused(&table(&nodes, &servers)), (9, 2));
}

#[test]
fn the_lowest_overfull_node_of_a_chain_is_told() {
    let mut nodes: Vec<Node> = (0..512).map(|parent| (parent, 10)).collect();
    let room = |nodes: &[Node]| table(nodes, &[(1, 8, 9, &[(512, 1000)])]);
    accepted(&room(&nodes));
    nodes[511].1 = 9;
    assert_eq!(refused(&room(&nodes)), (9, 512));
    nodes[300].1 = 9;
    assert_eq!(refused(&room(&nodes)), (9, 301));
}

/// Room H's refusal, with space for so many entries of each list.
fn plan_refused(demands: &[u32], spaces: [usize; 4]) -> (u64, u64) {
    let refusal = plan(&room_h(500), demands, spaces).expect_err("a refusal");
    (refusal.number, refusal.place)
}

#[test]
fn demands_of_another_length_are_10_at_the_count() {
    for demands in [&[][..], &[1], &[1, 1, 1], &[MOST + 1; 513]] {
        assert_eq!(plan_refused(demands, [0; 4]), (10, 2));
    }
    let none = plan(&[1, 1, 0, 0, 0], &[5], [0; 4]);
    assert_eq!(none, Err(refusal(10, 0)));
}

#[test]
fn a_demand_too_great_is_11_at_the_first() {
    assert_eq!(plan_refused(&[MOST + 1, 0], [0; 4]), (11, 0));
    assert_eq!(plan_refused(&[MOST, u32::MAX], [0; 4]), (11, 1));
    assert_eq!(plan_refused(&[u32::MAX, MOST + 1], [3, 2, 3, 3]), (11, 0));
    assert!(plan(&room_h(500), &[MOST, MOST], [3, 2, 3, 3]).is_ok());
}

fn refusal(number: u64, place: u64) -> Refusal {
    Refusal { number, place }
}

#[test]
fn an_output_too_short_is_12_at_the_length_needed() {
    let words = room_h(500);
    let sheet = write(&words, 28).expect("room H");
    for room in [0, 1, 20] {
        assert_eq!(read(&sheet, room), Err(refusal(12, 21)));
    }
    for room in [0, 21, 27] {
        assert_eq!(write(&words, room), Err(refusal(12, 28)));
    }
    for room in [0, 2] {
        assert_eq!(plan_refused(&[0, 0], [room, 0, 0, 0]), (12, 3));
    }
}

#[test]
fn a_cap_list_too_short_is_13_at_the_count_of_servers() {
    for room in [0, 1] {
        assert_eq!(plan_refused(&[0, 0], [3, room, 0, 0]), (13, 2));
    }
}

#[test]
fn a_headroom_list_too_short_is_14_at_the_count_of_cords() {
    for room in [0, 1, 2] {
        assert_eq!(plan_refused(&[0, 0], [3, 2, room, 0]), (14, 3));
    }
}

#[test]
fn a_held_list_too_short_is_15_at_the_count_of_cords() {
    for room in [0, 1, 2] {
        assert_eq!(plan_refused(&[0, 0], [3, 2, 3, room]), (15, 3));
    }
}

#[test]
fn all_bytes_are_judged_before_any_word() {
    assert_eq!(read(&[0x03, 0x80], 0), Err(refusal(3, 1)));
    assert_eq!(read(&[0x00, 0x00, 0x80, 0x00], 0), Err(refusal(2, 2)));
    let late = [vec![0x05; 100_000], vec![0xFF; 4]].concat();
    assert_eq!(read(&late, 0), Err(refusal(1, 100_000)));
    assert_eq!(read(&late[..100_000], 0), Err(refusal(5, 0)));
}

#[test]
fn words_are_judged_one_by_one() {
    // An earlier word out of range, before the missing one.
    assert_eq!(refused(&[4]), (5, 0));
    assert_eq!(refused(&[1, 2, 0, 5, 2]), (5, 4));
    // Greatest below least, before the count of cords is looked at, or missed.
    assert_eq!(refused(&[1, 1, 0, 500, 1, 1, 5, 4, 9]), (6, 7));
    assert_eq!(refused(&[1, 1, 0, 500, 1, 1, 5, 4]), (6, 7));
    assert_eq!(refused(&[1, 1, 0, 500, 1, 17, 5, 4]), (5, 5));
    // The shares of a server, after its last one, before the next server's words.
    assert_eq!(refused(&[1, 1, 0, 500, 2, 1, 4, 5, 1, 1, 999, 0]), (7, 5));
    assert_eq!(refused(&[1, 1, 0, 500, 2, 1, 4, 5, 1, 1, 999]), (7, 5));
    assert_eq!(
        refused(&[1, 1, 0, 500, 1, 1, 4, 5, 2, 1, 1_000, 2]),
        (5, 11)
    );
    assert_eq!(refused(&[1, 1, 0, 500, 1, 1, 4, 5, 2, 1, 999, 1]), (4, 12));
    // Words left over, before the lows.
    let overfull = room_h(187);
    assert_eq!(refused(&[overfull, vec![0]].concat()), (8, 21));
    // A later server's fault, before the lows of an earlier one.
    let servers = [(1, 400, 400, &[(1, 1000)][..]), (1, 5, 4, &[(1, 1000)])];
    assert_eq!(refused(&table(&[(0, 1)], &servers)), (6, 13));
}

#[test]
fn the_table_is_judged_before_the_demands_and_these_before_the_lists() {
    // `refused` hands bad demands and no room to every bad table; here is the rest of the order.
    assert_eq!(plan_refused(&[MOST + 1], [0; 4]), (10, 2));
    assert_eq!(plan_refused(&[0, MOST + 1], [0; 4]), (11, 1));
    assert_eq!(plan_refused(&[0, 0], [2, 1, 2, 2]), (12, 3));
    assert_eq!(plan_refused(&[0, 0], [3, 1, 2, 2]), (13, 2));
    assert_eq!(plan_refused(&[0, 0], [3, 2, 2, 2]), (14, 3));
    assert_eq!(plan_refused(&[0, 0], [3, 2, 3, 2]), (15, 3));
}
