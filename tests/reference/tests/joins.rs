//! Two huts joined: tables written out by hand from request A.8, its refusals in order, and its C call.

#[path = "common/bytes.rs"]
mod bytes;
mod common;

use bytes::{list, padded};
use common::{room_h, table, Node, Server};
use reference::join::{call, join};
use reference::{plan, Plan, Refusal};

const MOST: u32 = 16_777_215;
const ANY: usize = 1 << 20;

/// A room of one server on a breaker beneath a root.
const SMALL: [u32; 13] = [1, 2, 0, 1_000, 1, 500, 1, 3, 10, 20, 1, 2, 1_000];

/// Room H's words but for version and count of nodes: its nodes, then its servers without their count.
const H_NODES: [u32; 4] = [0, 150, 0, 500];
const H_SERVERS: [u32; 14] = [1, 100, 400, 2, 1, 500, 2, 500, 1, 100, 400, 1, 2, 1_000];

fn refused(first: &[u32], second: &[u32], room: usize) -> (u64, u64) {
    let Refusal { number, place } = join(first, second, room).expect_err("a refusal");
    (number, place)
}

#[test]
fn the_second_follows_the_first() {
    let joined = [
        &[1, 4][..],
        &H_NODES,
        &[0, 1_000, 3, 500, 3],
        &H_SERVERS,
        &[3, 10, 20, 1, 4, 1_000],
    ];
    assert_eq!(join(&room_h(500), &SMALL, 31), Ok(joined.concat()));
    let turned = [
        &[1, 4, 0, 1_000, 1, 500, 0, 150, 0, 500, 3][..],
        &[3, 10, 20, 1, 2, 1_000],
        &[1, 100, 400, 2, 3, 500, 4, 500],
        &[1, 100, 400, 1, 4, 1_000],
    ];
    assert_eq!(join(&SMALL, &room_h(500), ANY), Ok(turned.concat()));
}

#[test]
fn a_hut_without_servers_is_joined_too() {
    let bare = [1, 1, 0, 7, 0];
    assert_eq!(join(&bare, &bare, 7), Ok(vec![1, 2, 0, 7, 0, 7, 0]));
    let first = [1, 3, 0, 1_000, 1, 500, 0, 7, 1, 3, 10, 20, 1, 2, 1_000];
    assert_eq!(join(&SMALL, &bare, 15), Ok(first.to_vec()));
    let last = [1, 3, 0, 7, 0, 1_000, 2, 500, 1, 3, 10, 20, 1, 3, 1_000];
    assert_eq!(join(&bare, &SMALL, 15), Ok(last.to_vec()));
}

/// In versions 2 and 3 a node has three words; only its parent is a number of a node.
#[test]
fn percents_and_shares_stay() {
    for (version, whole) in [(2, 1_000), (3, 10_000)] {
        let chain = [version, 2, 0, 90, 100, 1, 80, 80, 1, 5, 0, 9, 1, 2, whole];
        let joined = [
            &[version, 4, 0, 90, 100, 1, 80, 80, 0, 90, 100, 3, 80, 80, 2][..],
            &[5, 0, 9, 1, 2, whole, 5, 0, 9, 1, 4, whole],
        ];
        assert_eq!(join(&chain, &chain, 27), Ok(joined.concat()));
    }
}

/// Room H twice, its plans worked out by hand in second_reading.rs: at 400 and 400, and at 100 and 100.
#[test]
fn the_plan_has_both_plans() {
    let twice = join(&room_h(500), &room_h(500), ANY).expect("room H twice");
    let lists = |demands: &[u32]| plan(&twice, demands, [6, 4, 6, 6]);
    let last_full = Plan {
        freed: 13,
        grants: vec![50, 50, 100, 120, 120, 280],
        caps: vec![100, 100, 240, 280],
        headroom: vec![70, 83, 167, 0, 0, 0],
        held: vec![0, 0, 0, 3, 0, 4],
    };
    assert_eq!(lists(&[100, 100, 400, 400]), Ok(last_full));
    let both_full = Plan {
        freed: 26,
        grants: vec![120, 120, 280, 120, 120, 280],
        caps: vec![240, 280, 240, 280],
        headroom: vec![0; 6],
        held: vec![1, 0, 2, 3, 0, 4],
    };
    assert_eq!(lists(&[400; 4]), Ok(both_full));
    let refusal = |number, place| Err(Refusal { number, place });
    assert_eq!(lists(&[400; 3]), refusal(10, 4));
    assert_eq!(lists(&[400, 400, 400, MOST + 1]), refusal(11, 3));
}

/// Room H, damaged in turn for every refusal of a table, with its place.
fn damaged() -> [(Vec<u32>, u64, u64); 6] {
    let with = |index: usize, word| {
        let mut words = room_h(500);
        words[index] = word;
        words
    };
    [
        (room_h(500)[..20].to_vec(), 4, 20),
        (with(4, 2), 5, 4),
        (with(17, 99), 6, 17),
        (with(20, 999), 7, 15),
        ([room_h(500), vec![0]].concat(), 8, 21),
        (room_h(187), 9, 2),
    ]
}

#[test]
fn a_table_is_refused_with_its_own_place() {
    for (bad, number, place) in damaged() {
        assert_eq!(refused(&bad, &SMALL, 0), (number, place));
        assert_eq!(refused(&SMALL, &bad, 0), (number, place));
    }
    assert_eq!(refused(&[], &[], 0), (4, 0));
}

/// Even an overfull node of the first table is told before a missing word of the second.
#[test]
fn the_first_table_is_judged_whole_before_the_second() {
    for (bad, number, place) in damaged() {
        for (other, ..) in damaged() {
            assert_eq!(refused(&bad, &other, 0), (number, place));
        }
    }
}

#[test]
fn versions_that_differ_are_19() {
    let bare = |version| match version {
        1 => vec![1, 1, 0, 0, 0],
        _ => vec![version, 1, 0, 0, 80, 0],
    };
    for (first, second) in [(1, 2), (1, 3), (2, 1), (2, 3), (3, 1), (3, 2)] {
        assert_eq!(refused(&bare(first), &bare(second), 0), (19, 0));
    }
    // Both tables are judged before.
    assert_eq!(refused(&bare(2), &room_h(187), 0), (9, 2));
    assert_eq!(refused(&room_h(187), &bare(2), 0), (9, 2));
    // Counts are judged after.
    let most = bare_room(512);
    assert_eq!(refused(&most, &bare(2), 0), (19, 0));
}

fn bare_room(nodes: usize) -> Vec<u32> {
    table(&vec![(0, 9); nodes], &[])
}

/// A room of one node, with so many servers of so many cords each.
fn full_room(servers: usize, cords: usize) -> Vec<u32> {
    let last: &[(u32, u32)] = &[(1, 0), (1, 0), (1, 0), (1, 1_000)];
    table(&[(0, 9)], &vec![(1, 0, 9, &last[4 - cords..]); servers])
}

#[test]
fn counts_too_large_are_20_at_the_first_of_them() {
    let good = |first: &[u32], second: &[u32]| join(first, second, ANY).map(|words| words.len());
    assert_eq!(good(&bare_room(511), &bare_room(1)), Ok(1_027));
    assert_eq!(refused(&bare_room(512), &bare_room(1), 0), (20, 0));
    assert_eq!(refused(&bare_room(1), &bare_room(512), 0), (20, 0));
    assert_eq!(refused(&bare_room(257), &bare_room(256), ANY), (20, 0));
    // Two nodes and 512 servers of one cord: 2 + 4 + 1 + 512 × 6 words.
    assert_eq!(good(&full_room(500, 1), &full_room(12, 1)), Ok(3_079));
    assert_eq!(refused(&full_room(500, 1), &full_room(13, 1), 0), (20, 1));
    // 1,024 cords at 256 servers: 2 + 4 + 1 + 256 × 12 words.
    assert_eq!(good(&full_room(200, 4), &full_room(56, 4)), Ok(3_079));
    // 800 + 225 = 1,025 cords at 275 servers.
    assert_eq!(refused(&full_room(200, 4), &full_room(75, 3), 0), (20, 2));
    // 513 servers with 1,026 cords; and 513 nodes with 513 servers.
    assert_eq!(refused(&full_room(256, 2), &full_room(257, 2), 0), (20, 1));
    let wide = |nodes: usize, servers: usize| {
        let server: Server = (1, 0, 9, &[(1, 1_000)]);
        table(&vec![(0, 9); nodes], &vec![server; servers])
    };
    assert_eq!(refused(&wide(256, 256), &wide(257, 257), 0), (20, 0));
}

#[test]
fn a_short_list_is_12_at_the_words_needed() {
    for room in 0..31 {
        assert_eq!(refused(&room_h(500), &SMALL, room), (12, 31));
    }
    // The longest table: 512 nodes of three words, 512 servers and 1,024 cords.
    let nodes: Vec<Node> = vec![(0, MOST); 256];
    let two: &[(u32, u32)] = &[(255, 500), (256, 500)];
    let one = table(&nodes, &vec![(1, 0, MOST, two); 256]);
    let percents = one[2..514].chunks(2).flat_map(|n| [n[0], n[1], 100]);
    let half = [vec![2, 256], percents.collect(), one[514..].to_vec()].concat();
    assert_eq!(refused(&half, &half, 5_634), (12, 5_635));
    assert_eq!(join(&half, &half, 5_635).map(|t| t.len()), Ok(5_635));
}

#[test]
fn the_call_fills_the_front_of_list_and_answer() {
    let bare = [1, 1, 0, 7, 0];
    for over in 0..4 {
        let mut table = vec![0xAA; 28 + over];
        let mut answer = vec![0xAA; 16 + over];
        let (first, second) = (padded(&bare, over), padded(&bare, 3 - over));
        assert_eq!(call(&first, &second, &mut table, &mut answer), 1);
        assert_eq!(table, padded(&[1, 2, 0, 7, 0, 7, 0], over));
        assert_eq!(
            answer[..16],
            [0, 0, 0, 0, 0, 0, 0, 0, 7, 0, 0, 0, 0, 0, 0, 0]
        );
        assert_eq!(answer[16..], vec![0xAA; over]);
    }
}

#[test]
fn a_refused_call_leaves_the_list() {
    let bare = list(&[1, 1, 0, 7, 0]);
    for length in 0..28 {
        let mut table = vec![0xAA; length];
        let mut answer = [0xAA; 17];
        assert_eq!(call(&bare, &bare, &mut table, &mut answer), 1);
        assert_eq!(table, vec![0xAA; length]);
        assert_eq!(
            answer[..16],
            [12, 0, 0, 0, 0, 0, 0, 0, 7, 0, 0, 0, 0, 0, 0, 0]
        );
        assert_eq!(answer[16], 0xAA);
    }
    // Three bytes of a word are none of it: the second table ends after four words.
    let mut table = [0xAA; 28];
    let mut answer = [0xAA; 16];
    assert_eq!(call(&bare, &bare[..19], &mut table, &mut answer), 1);
    assert_eq!(answer, [4, 0, 0, 0, 0, 0, 0, 0, 4, 0, 0, 0, 0, 0, 0, 0]);
    assert_eq!(table, [0xAA; 28]);
}

#[test]
fn a_short_answer_buffer_stops_the_call() {
    let bare = list(&[1, 1, 0, 7, 0]);
    for length in 0..16 {
        let mut table = [0xAA; 28];
        let mut answer = vec![0xAA; length];
        assert_eq!(call(&bare, &bare, &mut table, &mut answer), 0);
        assert_eq!(call(&[], &[], &mut table, &mut answer), 0);
        assert_eq!(table, [0xAA; 28]);
        assert_eq!(answer, vec![0xAA; length]);
    }
}
