//! Version 2 of the table (request A.3): a percent for each node. Version 3 (request A.11): shares of ten thousand.

mod common;

use common::{room_h, table, Node, Server};
use reference::{plan, read, write, Plan, Refusal};

const MOST: u32 = 16_777_215;

/// The words of a version 2 table: one of version 1, with a percent after each rating.
fn second(table: &[u32], percents: &[u32]) -> Vec<u32> {
    let (nodes, servers) = table[2..].split_at(2 * percents.len());
    let with_percent = |(node, percent): (&[u32], &u32)| [node[0], node[1], *percent];
    let nodes = nodes.chunks(2).zip(percents).flat_map(with_percent);
    [2, table[1]]
        .into_iter()
        .chain(nodes)
        .chain(servers.iter().copied())
        .collect()
}

/// The words of the version 3 table with every share tenfold: those of version 2, server by server.
fn third(words: &[u32]) -> Vec<u32> {
    let mut made = words.to_vec();
    made[0] = 3;
    let mut rank = 2 + 3 * words[1] as usize + 1;
    while rank < words.len() {
        let cords = words[rank + 3] as usize;
        for cord in 0..cords {
            made[rank + 5 + 2 * cord] *= 10;
        }
        rank += 4 + 2 * cords;
    }
    made
}

fn planned(table: &[u32], demands: &[u32]) -> Plan {
    plan(table, demands, [1_024, 512, 1_024, 1_024]).expect("an accepted room")
}

fn refused(words: &[u32]) -> (u64, u64) {
    let refusal = write(words, 1 << 20).expect_err("a refusal");
    assert_eq!(plan(words, &[], [0; 4]), Err(refusal));
    assert_eq!(read(&reference::number::bytes(words), 0), Err(refusal));
    (refusal.number, refusal.place)
}

fn accepted(words: &[u32]) {
    let sheet = write(words, 1 << 20).expect("an accepted room");
    assert_eq!(read(&sheet, words.len()), Ok(words.to_vec()));
}

/// Room S with these ratings.
fn room_s(ratings: [u32; 3]) -> Vec<u32> {
    let server = |rank, cords| (rank, 270, 500, cords);
    let (left, right): (&[_], &[_]) = (&[(2, 1000)], &[(3, 1000)]);
    table(
        &[(0, ratings[0]), (1, ratings[1]), (1, ratings[2])],
        &[
            server(2, left),
            server(1, left),
            server(1, right),
            server(1, right),
        ],
    )
}

/// Room S's limits, by other ratings: 1,240 W or 1,300 W at 100 percent are 1,550 W or 1,625 W at 80.
#[test]
fn a_limit_goes_by_the_percent() {
    let grants = |ratings, percents| planned(&second(&room_s(ratings), percents), &[430; 4]).grants;
    assert_eq!(grants([1_550, 938, 938], &[80; 3]), [430, 270, 270, 270]);
    assert_eq!(grants([1_240, 750, 750], &[100; 3]), [430, 270, 270, 270]);
    assert_eq!(
        grants([1_300, 938, 750], &[100, 80, 100]),
        [430, 281, 294, 295]
    );
    // Of 1,550 W rank 1 has 1,120: 310 over its lows. By excesses of 160 and 320 the left gets 103, the right 207.
    assert_eq!(grants([1_550, 938, 938], &[100; 3]), [430, 373, 373, 374]);
}

#[test]
fn the_greatest_limit_is_the_greatest_rating() {
    let all: Server = (1, MOST, MOST, &[(1, 1000)]);
    let full = table(&[(0, MOST)], &[all]);
    assert_eq!(refused(&full), (9, 1));
    assert_eq!(refused(&second(&full, &[80])), (9, 1));
    accepted(&second(&full, &[100]));
    assert_eq!(planned(&second(&full, &[100]), &[MOST]).grants, [MOST]);
}

#[test]
fn eighty_throughout_is_version_1() {
    for rating in [188, 250, 500] {
        let one = room_h(rating);
        let two = second(&one, &[80, 80]);
        assert_eq!(planned(&one, &[400, 300]), planned(&two, &[400, 300]));
    }
    assert_eq!(refused(&second(&room_h(187), &[80, 80])), (9, 2));
    accepted(&second(&room_h(187), &[80, 100]));
    accepted(&second(&room_h(150), &[80, 100]));
    assert_eq!(refused(&second(&room_h(149), &[80, 100])), (9, 2));
}

#[test]
fn any_other_percent_is_5_at_its_index() {
    for percent in [0, 1, 79, 81, 90, 99, 101, MOST] {
        assert_eq!(refused(&second(&room_h(500), &[percent, 80])), (5, 4));
        assert_eq!(refused(&second(&room_h(500), &[100, percent])), (5, 7));
    }
    let large = [2, 1, 0, 0, u32::MAX, 0];
    assert_eq!(
        write(&large, 9),
        Err(Refusal {
            number: 5,
            place: 4
        })
    );
}

/// A percent is looked at after its rating and before the next node.
#[test]
fn words_are_judged_one_by_one() {
    let words = second(&room_h(500), &[80, 100]);
    for length in 0..words.len() {
        assert_eq!(refused(&words[..length]), (4, length as u64));
    }
    assert_eq!(refused(&[words.clone(), vec![0]].concat()), (8, 23));
    assert_eq!(refused(&[2, 2, 0, MOST + 1, 90, 2]), (5, 3));
    assert_eq!(refused(&[2, 2, 0, 500, 90, 2]), (5, 4));
    assert_eq!(refused(&[2, 2, 0, 500, 80, 2]), (5, 5));
}

#[test]
fn a_version_is_1_2_or_3() {
    for version in [0, 4, 5, 128, MOST] {
        assert_eq!(refused(&[version]), (5, 0));
    }
    assert_eq!(refused(&[2]), (4, 1));
    assert_eq!(refused(&[3]), (4, 1));
}

#[test]
fn shares_tenfold_are_version_2() {
    for percents in [[80, 80], [80, 100]] {
        let two = second(&room_h(500), &percents);
        assert_eq!(
            planned(&two, &[400, 300]),
            planned(&third(&two), &[400, 300])
        );
    }
    assert_eq!(refused(&third(&second(&room_h(187), &[80, 80]))), (9, 2));
    accepted(&third(&second(&room_h(150), &[80, 100])));
}

/// One server of 100 to 400 W with cords on two nodes of 125 W: their limits are 100 W.
fn fine(first: u32, last: u32) -> Vec<u32> {
    vec![
        3, 2, 0, 125, 80, 0, 125, 80, 1, 1, 100, 400, 2, 1, first, 2, last,
    ]
}

/// Of a load of 400 W a share of 3,333 carries 133.32, and one of 6,667 carries 266.68; of 100 W, 33.33 and 66.67. With 100 W for
/// each cord the second bears floor(10,000 × 100 / 6,667) = 149 W, of which the first carries 49.66: 50 W, and 50 are stranded.
#[test]
fn shares_are_of_ten_thousand() {
    let plan = planned(&fine(3_333, 6_667), &[400]);
    assert_eq!(
        (plan.freed, plan.grants, plan.caps),
        (50, vec![50, 100], vec![149])
    );
    // A ten-thousandth less on the second: it bears 150 W.
    assert_eq!(planned(&fine(3_334, 6_666), &[400]).caps, [150]);
}

/// On one node of 1,000 W, limit 800: of the greatest 400 W the shares carry 133.32 and 266.68, so that the ceilings are 134 and
/// 267. With no demand the cords want their lows, 34 and 67. All of 401 − 101 = 300 W are lent, to each what is left to its ceiling.
#[test]
fn ceilings_go_by_ten_thousand() {
    let room = [3, 1, 0, 1_000, 80, 1, 1, 100, 400, 2, 1, 3_333, 1, 6_667];
    let plan = planned(&room, &[0]);
    assert_eq!((plan.grants, plan.headroom), (vec![34, 67], vec![100, 200]));
}

/// The room S that lends, its root's limit 1,400 W at 100 percent.
#[test]
fn ceilings_go_by_the_percent() {
    let room = second(&room_s([1_400, 938, 750]), &[100, 80, 100]);
    let plan = planned(&room, &[430, 270, 300, 330]);
    assert_eq!(plan.headroom, [4, 16, 27, 23]);
}

#[test]
fn shares_of_version_3_sum_to_ten_thousand() {
    accepted(&fine(0, 10_000));
    assert_eq!(refused(&fine(500, 500)), (7, 9));
    assert_eq!(refused(&fine(3_333, 6_666)), (7, 9));
    assert_eq!(refused(&fine(10_000, 10_000)), (7, 9));
    assert_eq!(refused(&fine(10_001, 0)), (5, 14));
    assert_eq!(refused(&fine(0, 10_001)), (5, 16));
    let two = second(&room_h(500), &[80, 80]);
    let coarse = [&[3], &two[1..]].concat();
    assert_eq!(refused(&coarse), (7, 9));
    let fine = [&[2], &third(&two)[1..]].concat();
    assert_eq!(refused(&fine), (5, 14));
}

/// The longest table: 512 nodes of three words, 512 servers and 1,024 cords.
#[test]
fn the_greatest_room_has_5635_words() {
    let nodes: Vec<Node> = (0..512).map(|parent| (parent, MOST)).collect();
    let two: &[(u32, u32)] = &[(511, 500), (512, 500)];
    let one = table(&nodes, &vec![(1, 0, MOST, two); 512]);
    let words = second(&one, &[100; 512]);
    assert_eq!(words.len(), 5_635);
    accepted(&words);
    assert_eq!(refused(&[words, vec![1]].concat()), (8, 5_635));
}
