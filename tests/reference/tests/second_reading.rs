//! Headroom (A.1) and held (A.5), worked out by hand from documents 01 and 02 with A.2 in force, before
//! the modules were run.

use reference::{plan, print, read, Plan};

const ROOM_H: [u8; 28] = [
    0x01, 0x02, 0x00, 0x96, 0x01, 0x00, 0xF4, 0x03, 0x02, 0x01, 0x64, 0x90, 0x03, 0x02, 0x01, 0xF4,
    0x03, 0x02, 0xF4, 0x03, 0x01, 0x64, 0x90, 0x03, 0x01, 0x02, 0xE8, 0x07,
];

fn room_h() -> Vec<u32> {
    read(&ROOM_H, 21).unwrap()
}

/// Node 1 the root, 2 the left (SA, SB) and 3 the right (SC, SD).
fn room_s(root_rating: u32) -> Vec<u32> {
    let mut table = vec![1, 3, 0, root_rating, 1, 938, 1, 938, 4];
    for (rank, node) in [(2, 2), (1, 2), (1, 3), (1, 3)] {
        table.extend([rank, 270, 500, 1, node, 1_000]);
    }
    table
}

fn planned(table: &[u32], demands: &[u32], cords: usize) -> Plan {
    plan(table, demands, [cords, demands.len(), cords, cords]).unwrap()
}

/// Limits 120 and 400; lows 50, 50, 100; ceilings 200, 200, 400.
///
/// First deal: wants 200, 200, 400. Root 1 asks 120, root 2 asks 400. Root 1 deals 120 - 50 = 70. Root
/// 2 deals 250 over 150 and 300: floor(250 x 150 / 450) = 83, then 167. Grants 120, 133, 267; usable
/// 240, 267; used 120, 120, 267; stranded 0, 13, 0.
/// Second deal: wants 200, 120, 400. Root 1 asks 120 of 200, root 2 asks 400 of 520. Root 2 passes 70
/// and 167 of 250, and the other 13 goes over 0 and 133. Grants 120, 120, 280.
///
/// Headroom: root 1 min(120, 200) - 120 = 0; root 2 min(400, 600) - 400 = 0.
/// Held: cord 1 120 of 200, and node 1 cuts: 1. Cord 2 120 of 120: 0. Cord 3 280 of 400, and node 2
/// cuts: 2.
#[test]
fn room_h_at_400_and_400() {
    let plan = planned(&room_h(), &[400, 400], 3);
    assert_eq!(plan.freed, 13);
    assert_eq!(plan.grants, [120, 120, 280]);
    assert_eq!(plan.caps, [240, 280]);
    assert_eq!(plan.headroom, [0, 0, 0]);
    assert_eq!(plan.held, [1, 0, 2]);
    let lines = [
        "freed 13",
        "server 1 cap 240",
        "cord 1 node 1 grant 120 headroom 0 held 1",
        "cord 2 node 2 grant 120 headroom 0 held 0",
        "server 2 cap 280",
        "cord 1 node 2 grant 280 headroom 0 held 2",
        "",
    ];
    assert_eq!(print(Some(&ROOM_H), b"400\n400\n"), lines.join("\n"));
}

/// Wants are the lows: 50, 50, 100. Root 1 asks 50 and root 2 asks 150, neither cut; grants are the lows.
///
/// Headroom: root 1 min(120, 200) - 50 = 70, all of it to its one cord. Root 2 min(400, 600) - 150 =
/// 250 over 200 - 50 = 150 and 400 - 100 = 300: floor(250 x 150 / 450) = 83, then 167.
/// Held: every cord has its want.
#[test]
fn room_h_at_100_and_100() {
    let plan = planned(&room_h(), &[100, 100], 3);
    assert_eq!(plan.freed, 0);
    assert_eq!(plan.grants, [50, 50, 100]);
    assert_eq!(plan.caps, [100, 100]);
    assert_eq!(plan.headroom, [70, 83, 167]);
    assert_eq!(plan.held, [0, 0, 0]);
}

/// Limits 1240, 750, 750. One-cord servers strand nothing, so both deals have wants of 430.
/// Left: rank 2 min(750 - 270, 430) = 430, rank 1 min(750 - 430, 430) = 320, cut. Right: rank 1
/// min(750, 860) = 750, cut. Root: rank 2 min(1240 - 810, 430) = 430, uncut; rank 1 min(1240 - 430, 320 +
/// 750) = 810, cut. The root deals 810 - 810 = 0 at rank 1.
///
/// Headroom: min(1240, 750 + 750) - (430 + 810) = 0.
/// Held: SA has its want. The others have 270 of 430, and of the two nodes that cut above each of them
/// the root is nearer the root: 1.
#[test]
fn room_s_at_1550() {
    let plan = planned(&room_s(1_550), &[430; 4], 4);
    assert_eq!(plan.grants, [430, 270, 270, 270]);
    assert_eq!(plan.headroom, [0, 0, 0, 0]);
    assert_eq!(plan.held, [0, 1, 1, 1]);
    // A.5's claim: the root's grants sum to its limit; nothing ranks below SB, SC and SD.
    assert_eq!(plan.grants.iter().sum::<u32>(), 1_240);
}

/// Limit 1300. Left and right ask as before. Root: rank 2 min(1300 - 810, 430) = 430; rank 1 min(1300 -
/// 430, 1070) = 870, cut. It deals 60 over 50 and 210: floor(60 x 50 / 260) = 11, then 49; the right
/// deals floor(49 x 160 / 320) = 24, then 25. In the second deal all 60 is in use and passed first.
///
/// Headroom: min(1300, 1500) - (430 + 870) = 0. Held: as at 1,550.
#[test]
fn room_s_at_1625() {
    let plan = planned(&room_s(1_625), &[430; 4], 4);
    assert_eq!(plan.grants, [430, 281, 294, 295]);
    assert_eq!(plan.headroom, [0, 0, 0, 0]);
    assert_eq!(plan.held, [0, 1, 1, 1]);
    assert_eq!(plan.grants.iter().sum::<u32>(), 1_300);
}

/// Limit 1400. Left: rank 2 min(480, 430) = 430, rank 1 min(320, 270) = 270: 700. Right: min(750, 630) =
/// 630. Root: rank 2 min(590, 430) = 430, rank 1 min(970, 900) = 900: 1330. Nothing is cut, and every
/// grant is the want.
///
/// Headroom: min(1400, 1500) - 1330 = 70 over 750 - 700 = 50 and 750 - 630 = 120: floor(70 x 50 / 170) =
/// 20, then 50. Left 20 over 70 and 230: floor(20 x 70 / 300) = 4, then 16. Right 50 over 200 and 170:
/// floor(50 x 200 / 370) = 27, then 23.
#[test]
fn room_s_at_1750() {
    let plan = planned(&room_s(1_750), &[430, 270, 300, 330], 4);
    assert_eq!(plan.grants, [430, 270, 300, 330]);
    assert_eq!(plan.headroom, [4, 16, 27, 23]);
    assert_eq!(plan.held, [0, 0, 0, 0]);
}

/// A root that cuts below a cord's rank only is not what holds that cord. Limits 300 and, for node 2
/// on node 1, 100; lows 0. On node 2 rank 2 wants 200: it asks 100, cut. On node 1 rank 1 wants 300: the
/// root asks min(300, 100) = 100 at rank 2, uncut, and min(200, 300) = 200 at rank 1, cut.
/// Held: the first cord, 100 of 200, by 2; the second, 200 of 300, by 1.
#[test]
fn a_cut_at_a_lower_rank_does_not_count() {
    let mut table = vec![1, 2, 0, 375, 1, 125, 2];
    table.extend([2, 0, 200, 1, 2, 1_000]);
    table.extend([1, 0, 300, 1, 1, 1_000]);
    let plan = planned(&table, &[200, 300], 2);
    assert_eq!(plan.grants, [100, 200]);
    assert_eq!(plan.headroom, [0, 0]);
    assert_eq!(plan.held, [2, 1]);
}

/// A cut above a cord's rank counts, though the cord's own rank is not cut there. Limits 100 and, for
/// node 2 on node 1, 40. On node 1 rank 2 wants 200, low 0; on node 2 rank 1 wants 80, low 40. Node 2
/// asks min(40, 80) = 40, cut. The root asks min(100 - 40, 200) = 60 at rank 2, cut, and min(100 - 60,
/// 40) = 40 at rank 1, uncut. Held: both by 1, whose grants sum to 60 + 40 = 100.
#[test]
fn a_cut_at_a_higher_rank_counts() {
    let mut table = vec![1, 2, 0, 125, 1, 50, 2];
    table.extend([2, 0, 200, 1, 1, 1_000]);
    table.extend([1, 40, 80, 1, 2, 1_000]);
    let plan = planned(&table, &[200, 80], 2);
    assert_eq!(plan.grants, [60, 40]);
    assert_eq!(plan.headroom, [0, 0]);
    assert_eq!(plan.held, [1, 1]);
}
