//! Judging a given list of grants: rooms worked by hand from request A.9.

mod common;

use common::{room_h, table, Server};
use reference::judge::Verdict::{self, AboveWant, BelowLow, OverLimit, Passes, Short};
use reference::{call, judge::judge, plan, Refusal};

fn refused(number: u64, place: u64) -> Result<Verdict, Refusal> {
    Err(Refusal { number, place })
}

/// Lows 50, 50 and 100, first wants 200, 200 and 400, limits 120 and 400.
#[test]
fn room_h_judged() {
    let judged = |grants: [u32; 3]| judge(&room_h(500), &[400, 400], &grants).expect("accepted");
    assert_eq!(judged([120, 133, 267]), Passes);
    assert_eq!(judged([120, 200, 200]), Passes);
    assert_eq!(judged([120, 50, 350]), Passes);
    assert_eq!(judged([49, 133, 267]), BelowLow(0));
    assert_eq!(judged([120, 49, 99]), BelowLow(1));
    // A cord below its low comes before one above its want, wherever they stand.
    assert_eq!(judged([201, 49, 267]), BelowLow(1));
    assert_eq!(judged([201, 133, 401]), AboveWant(0));
    assert_eq!(judged([120, 50, 401]), AboveWant(2));
    // So does a cord above its want before a node over its limit.
    assert_eq!(judged([121, 201, 267]), AboveWant(1));
    assert_eq!(judged([121, 200, 201]), OverLimit(1));
    assert_eq!(judged([119, 200, 201]), OverLimit(2));
    assert_eq!(judged([119, 133, 266]), Short { root: 1, rank: 1 });
    assert_eq!(judged([120, 133, 266]), Short { root: 2, rank: 1 });
}

/// Plan answers with the second deal's grants. Server 1 wants 200 W by each cord and gets 120 by the
/// first, so the second deal leaves it 120 by the other too; server 2 has the 200 W that it wants. That
/// leaves 80 W of node 2 to nobody, where the first deal's wants could take all 400.
#[test]
fn plans_own_grants_need_not_pass() {
    let demands = [400, 200];
    let planned = plan(&room_h(500), &demands, [3, 2, 3, 3]).expect("accepted");
    assert_eq!(planned.grants, [120, 120, 200]);
    let verdict = judge(&room_h(500), &demands, &planned.grants);
    assert_eq!(verdict, Ok(Short { root: 2, rank: 1 }));
    assert_eq!(judge(&room_h(500), &demands, &[120, 200, 200]), Ok(Passes));
}

/// Servers of ranks 16 and 1 want 60 W each of a limit of 80: from rank 2 on 60 at most, in all 80.
#[test]
fn the_highest_short_rank_is_named() {
    let room = table(
        &[(0, 100)],
        &[(16, 0, 60, &[(1, 1000)]), (1, 0, 60, &[(1, 1000)])],
    );
    let judged = |grants: [u32; 2]| judge(&room, &[60, 60], &grants).expect("accepted");
    assert_eq!(judged([60, 20]), Passes);
    assert_eq!(judged([59, 21]), Short { root: 1, rank: 16 });
    assert_eq!(judged([60, 19]), Short { root: 1, rank: 1 });
    assert_eq!(judged([59, 20]), Short { root: 1, rank: 16 });
    assert_eq!(judged([20, 60]), Short { root: 1, rank: 16 });
}

/// Root 1 is short at rank 1 alone, and root 2 at rank 16: the root comes first.
#[test]
fn the_lowest_short_root_is_named() {
    let servers: [Server; 3] = [
        (1, 0, 10, &[(1, 1000)]),
        (16, 0, 10, &[(2, 1000)]),
        (3, 0, 10, &[(2, 1000)]),
    ];
    let room = table(&[(0, 100), (0, 100)], &servers);
    let judged = |grants: [u32; 3]| judge(&room, &[10; 3], &grants).expect("accepted");
    assert_eq!(judged([9, 9, 10]), Short { root: 1, rank: 1 });
    assert_eq!(judged([10, 9, 10]), Short { root: 2, rank: 16 });
    assert_eq!(judged([10, 10, 9]), Short { root: 2, rank: 3 });
    assert_eq!(judged([10, 10, 10]), Passes);
}

/// A child limited to 30 W beneath a root of 80: its cords may have 30 in sum, whichever has them.
#[test]
fn limits_beneath_the_root_count() {
    let room = table(
        &[(0, 100), (1, 38)],
        &[
            (2, 0, 40, &[(2, 1000)]),
            (1, 0, 40, &[(2, 1000)]),
            (1, 0, 90, &[(1, 1000)]),
        ],
    );
    let judged = |grants: [u32; 3]| judge(&room, &[40, 40, 90], &grants).expect("accepted");
    assert_eq!(judged([30, 0, 50]), Passes);
    assert_eq!(judged([30, 1, 49]), OverLimit(2));
    assert_eq!(judged([30, 1, 50]), OverLimit(1));
    assert_eq!(judged([29, 0, 51]), Short { root: 1, rank: 2 });
    assert_eq!(judged([30, 0, 49]), Short { root: 1, rank: 1 });
}

#[test]
fn refusals_come_in_order() {
    let room = room_h(500);
    for count in [0, 1, 2, 4, 2000] {
        assert_eq!(judge(&room, &[400, 400], &vec![0; count]), refused(21, 3));
    }
    assert_eq!(judge(&room, &[400], &[]), refused(10, 2));
    assert_eq!(judge(&room, &[400, 16_777_216], &[]), refused(11, 1));
    assert_eq!(judge(&room_h(187), &[], &[]), refused(9, 2));
    assert_eq!(judge(&[], &[], &[]), refused(4, 0));
    let empty = table(&[(0, 100)], &[]);
    assert_eq!(judge(&empty, &[], &[0]), refused(21, 0));
    assert_eq!(judge(&empty, &[], &[]), Ok(Passes));
}

fn bytes(words: &[u32]) -> Vec<u8> {
    words.iter().flat_map(|word| word.to_le_bytes()).collect()
}

#[test]
fn the_call_answers_in_thirty_two_bytes() {
    let table = bytes(&room_h(500));
    let numbers = |grants: &[u32], answer: &mut [u8]| {
        call::judge(&table, &bytes(&[400, 400]), &bytes(grants), answer)
    };
    for length in 0..32 {
        let mut answer = vec![0xAA; length];
        assert_eq!(numbers(&[120, 133, 267], &mut answer), 0);
        assert_eq!(answer, vec![0xAA; length]);
    }
    let expected = |four: [u8; 4]| -> Vec<u8> {
        let eights = four.iter().flat_map(|&low| [low, 0, 0, 0, 0, 0, 0, 0]);
        eights.chain([0xAA; 3]).collect()
    };
    for (grants, four) in [
        ([120, 133, 267], [0, 0, 0, 0]),
        ([120, 49, 267], [0, 1, 1, 0]),
        ([120, 133, 401], [0, 2, 2, 0]),
        ([121, 133, 267], [0, 3, 1, 0]),
        ([120, 133, 266], [0, 4, 2, 1]),
    ] {
        let mut answer = [0xAA; 35];
        assert_eq!(numbers(&grants, &mut answer), 1);
        assert_eq!(answer[..], expected(four));
    }
    let mut answer = [0xAA; 35];
    assert_eq!(numbers(&[120, 133], &mut answer), 1);
    assert_eq!(answer[..16], expected([21, 3, 0, 0])[..16]);
    assert_eq!(answer[16..], [0xAA; 19]);
}
