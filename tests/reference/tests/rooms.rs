//! Document 01's rooms, its near misses, and some more rooms worked by hand.

mod common;

use common::{room_h, table, Server};
use reference::deal::split;
use reference::plan::{deals, Deals};
use reference::room::Room;
use reference::{plan, Plan, Refusal};

fn planned(table: &[u32], demands: &[u32]) -> Plan {
    plan(table, demands, [1_024, 512, 1_024, 1_024]).expect("an accepted room")
}

fn grants(table: &[u32], demands: &[u32]) -> Vec<u32> {
    planned(table, demands).grants
}

fn dealt(table: &[u32], demands: &[u32]) -> Deals {
    deals(&Room::of_words(table).expect("an accepted room"), demands)
}

#[test]
fn room_h_is_dealt_twice() {
    let deals = dealt(&room_h(500), &[400, 400]);
    assert_eq!(deals.first_wants, [200, 200, 400]);
    assert_eq!(deals.first_grants, [120, 133, 267]);
    assert_eq!(deals.usable, [240, 267]);
    assert_eq!(deals.used, [120, 120, 267]);
    assert_eq!(deals.stranded, [0, 13, 0]);
    assert_eq!(deals.second_wants, [200, 120, 400]);
    let answer = Plan {
        freed: 13,
        grants: vec![120, 120, 280],
        caps: vec![240, 280],
        headroom: vec![0, 0, 0],
        held: vec![1, 0, 2],
    };
    assert_eq!(deals.answer(), answer);
    assert_eq!(plan(&room_h(500), &[400, 400], [3, 2, 3, 3]), Ok(answer));
}

/// Node 2 has 250 W beyond its lows in the second deal, as in the first. It passes on 120 − 50 = 70
/// and 267 − 100 = 167; its 13 W left all go to server 2, since cord 2 wants no more than it uses.
/// By whole excesses, 70 and 300, cord 2 would get floor(13 × 70 / 370) = 2 of them, over its want.
#[test]
fn watts_in_use_are_passed_on_first() {
    let deals = dealt(&room_h(500), &[400, 400]);
    assert_eq!(deals.second_grants, [120, 50 + 70, 100 + 167 + 13]);
    assert_eq!(deals.caps, [240, 280]);
}

/// Under a root with limit 120: node 2 (limit 80), with a cord of server 1 and all of server 2, beside
/// server 3. Node 3 (limit 20) holds server 1 to 40 W. All lows are 0.
///
/// First deal: wants 50, 50, 100 and 60. Node 2 requests 80, the root 120, which it splits over 80 and
/// 60: 68 and 52. Node 2 splits 68 over 50 and 100: 22 and 46. Server 1 can use 40, 20 on each cord,
/// so 2 W are stranded.
///
/// Second deal: wants 20 for cord 2. Node 2 still requests 80 and the root 120; 66 and 52 are passed on
/// and 2 remain, split by 80 − 66 = 14 and 60 − 52 = 8: floor(28 / 22) = 1 and 1. Node 2 passes on 20
/// and 46, and its 1 W left goes to server 2.
#[test]
fn watts_in_use_are_passed_on_through_nodes() {
    let room = table(
        &[(0, 150), (1, 100), (0, 25)],
        &[
            (1, 0, 100, &[(3, 500), (2, 500)]),
            (1, 0, 100, &[(2, 1000)]),
            (1, 0, 60, &[(1, 1000)]),
        ],
    );
    let deals = dealt(&room, &[100, 100, 60]);
    assert_eq!(deals.first_grants, [20, 22, 46, 52]);
    assert_eq!(deals.used, [20, 20, 46, 52]);
    assert_eq!(deals.second_wants, [50, 20, 100, 60]);
    assert_eq!(deals.second_grants, [20, 20, 47, 53]);
    assert_eq!(deals.caps, [40, 47, 53]);
}

/// Both limits met by the lows on node 2: cord 1 gets 120 at first, of which 70 are stranded.
#[test]
fn room_h_rated_188_is_accepted() {
    let plan = planned(&room_h(188), &[400, 400]);
    assert_eq!(plan.freed, 70);
    assert_eq!(plan.grants, [50, 50, 100]);
    assert_eq!(plan.caps, [100, 100]);
}

#[test]
fn room_h_rated_187_is_refused() {
    let refusal = Refusal {
        number: 9,
        place: 2,
    };
    assert_eq!(reference::write(&room_h(187), 28), Err(refusal));
    assert_eq!(plan(&room_h(187), &[400, 400], [3, 2, 3, 3]), Err(refusal));
}

fn room_s(rating: u32) -> Vec<u32> {
    table(
        &[(0, rating), (1, 938), (1, 938)],
        &[
            (2, 270, 500, &[(2, 1000)]),
            (1, 270, 500, &[(2, 1000)]),
            (1, 270, 500, &[(3, 1000)]),
            (1, 270, 500, &[(3, 1000)]),
        ],
    )
}

#[test]
fn room_s_gives_the_higher_rank_first() {
    let plan = planned(&room_s(1_550), &[430; 4]);
    assert_eq!(plan.grants, [430, 270, 270, 270]);
    assert_eq!(plan.caps, [430, 270, 270, 270]);
    assert_eq!(plan.freed, 0);
}

#[test]
fn room_s_with_a_greater_root_loses_no_watt() {
    let plan = planned(&room_s(1_625), &[430; 4]);
    assert_eq!(plan.grants, [430, 281, 294, 295]);
    assert_eq!(plan.caps, [430, 281, 294, 295]);
}

fn lent(table: &[u32], demands: &[u32]) -> Vec<u32> {
    planned(table, demands).headroom
}

/// Node 1 has ceiling 120, its limit, below its cord's 200, and its Requests are 120; node 2 has ceiling
/// 400, below 200 + 400, and Requests 400, of 120 + 400 wanted: nothing is left to lend. With demands of
/// 100 each cord wants its low. Node 1 lends 120 − 50 = 70, and node 2 lends 400 − 150 = 250 by
/// 200 − 50 = 150 and 400 − 100 = 300: floor(250 × 150 / 450) = 83 and 167.
#[test]
fn room_h_lends_what_no_cord_requests() {
    assert_eq!(lent(&room_h(500), &[400, 400]), [0, 0, 0]);
    assert_eq!(lent(&room_h(500), &[100, 100]), [70, 83, 167]);
}

/// Node 2, with limit 800, has ceiling 200 + 400 = 600. Cord 2 wants 200 at first and gets them, but
/// its server can use only 240, 120 on each cord. So its second want is 120, and the Requests there
/// are 520. By first wants no child would have a weight.
#[test]
fn headroom_goes_by_second_wants() {
    let deals = dealt(&room_h(1_000), &[400, 400]);
    assert_eq!(deals.second_wants, [200, 120, 400]);
    assert_eq!(deals.headroom, [0, 80, 0]);
}

/// Room S, all ceilings 500, the two nodes' 750. With demands of 430 the root's ceiling is its limit,
/// 1,240 or 1,300, below 750 + 750. Its Requests are 430 at rank 2, and at rank 1 the rest, 810 or 870
/// of 320 + 750: nobody lends.
///
/// With a root of 1,750 (limit 1,400) and demands 430, 270, 300, 330 all wants are met: Requests 700
/// and 630, and 1,330 at the root, which lends 70 by 50 and 120: floor(70 × 50 / 170) = 20 and 50. The
/// left node splits 20 by 70 and 230, the right 50 by 200 and 170.
#[test]
fn room_s_lends_through_its_nodes() {
    assert_eq!(lent(&room_s(1_550), &[430; 4]), [0; 4]);
    assert_eq!(lent(&room_s(1_625), &[430; 4]), [0; 4]);
    assert_eq!(lent(&room_s(1_750), &[430, 270, 300, 330]), [4, 16, 27, 23]);
}

/// Room S with a root of 2,000 (limit 1,600; ceiling 750 + 750). The left node's Requests, 430 and
/// 320, are cut to its limit: its cords are 110 W short of their wants, and it gets no headroom. The
/// root's 1,500 − 750 − 630 = 120 all go to the right, by 200 and 170.
#[test]
fn a_full_breaker_is_lent_nothing() {
    let deals = dealt(&room_s(2_000), &[430, 430, 300, 330]);
    assert_eq!(deals.second_grants, [430, 320, 300, 330]);
    assert_eq!(deals.headroom, [0, 0, 64, 56]);
}

/// A root with limit 100 over a node with limit 50, whose cord wants 10 of 90, and a cord that wants
/// 20 of 60. The weights are 50 − 10 and 60 − 20; 100 − 30 = 70 are split evenly. By the cords' own
/// ceilings, 80 and 40, the node would be lent 46 and pass its limit.
#[test]
fn a_breaker_weighs_by_its_own_ceiling() {
    let room = table(
        &[(0, 125), (1, 63)],
        &[(1, 0, 90, &[(2, 1000)]), (1, 0, 60, &[(1, 1000)])],
    );
    assert_eq!(lent(&room, &[10, 20]), [35, 35]);
}

/// One watt over a node and a cord of equal weights, and then over two cords: the last has it.
#[test]
fn headroom_is_split_in_the_order_of_the_children() {
    let beneath: Server = (1, 0, 1, &[(2, 1000)]);
    let own: Server = (1, 0, 1, &[(1, 1000)]);
    let nodes = [(0, 2), (1, 9)];
    assert_eq!(lent(&table(&nodes, &[own, beneath]), &[0, 0]), [1, 0]);
    assert_eq!(lent(&table(&nodes, &[beneath, own]), &[0, 0]), [0, 1]);
    assert_eq!(lent(&table(&nodes, &[own, own]), &[0, 0]), [0, 1]);
}

/// Three cords of 333, 333 and 334 thousandths of 100 W have ceilings 34, 34 and 34.
#[test]
fn ceilings_are_rounded_up() {
    let cords = [(1, 333), (1, 333), (1, 334)];
    let room = table(&[(0, 1_000)], &[(1, 0, 100, &cords)]);
    assert_eq!(lent(&room, &[0]), [34, 34, 34]);
}

fn held(table: &[u32], demands: &[u32]) -> Vec<u32> {
    planned(table, demands).held
}

/// Each node asks for its whole limit, 120 of 200 and 400 of 120 + 400. Cord 2 has the 120 W that it
/// wants in the second deal.
#[test]
fn room_h_is_held_by_both_roots() {
    assert_eq!(held(&room_h(500), &[400, 400]), [1, 0, 2]);
    // Node 2 with 800 W is not cut; and with needs of 200 the cords want 100, 100 and 200, which all get.
    assert_eq!(held(&room_h(1_000), &[400, 400]), [1, 0, 0]);
    assert_eq!(held(&room_h(500), &[200, 200]), [0; 3]);
}

/// At rank 1 node 2 asks for 750 − 430 = 320 of 430 and node 3 for 750 of 860, so that both are cut. So
/// is the root where it has 1,240 − 430 = 810, or 1,300 − 430 = 870, for 1,070; it comes before them. At
/// 1,600 it asks for all 1,070.
#[test]
fn room_s_is_held_nearest_the_root() {
    assert_eq!(held(&room_s(1_550), &[430; 4]), [0, 1, 1, 1]);
    assert_eq!(held(&room_s(1_625), &[430; 4]), [0, 1, 1, 1]);
    assert_eq!(held(&room_s(2_000), &[430; 4]), [0, 2, 3, 3]);
    assert_eq!(held(&room_s(2_000), &[430, 320, 375, 375]), [0; 4]);
}

/// A root with limit 100 over a node with limit 50. On the node: rank 3 wanting 60, and rank 1 wanting
/// 10 with low 5. On the root: rank 2 wanting 80, and rank 3 wanting 5. All other lows are 0.
///
/// The node asks for 50 − 5 = 45 of 60 at rank 3 and for 5 of 10 at rank 1. The root asks for all of
/// 45 + 5 at rank 3, for 100 − 50 − 5 = 45 of 80 at rank 2, and for all of 5 at rank 1: it is cut at
/// rank 2 alone. That holds the cord of rank 1 beneath the node, and not the one of rank 3.
#[test]
fn a_cut_at_a_higher_rank_holds_and_one_at_a_lower_does_not() {
    let room = table(
        &[(0, 125), (1, 63)],
        &[
            (3, 0, 60, &[(2, 1000)]),
            (1, 5, 10, &[(2, 1000)]),
            (2, 0, 80, &[(1, 1000)]),
            (3, 0, 5, &[(1, 1000)]),
        ],
    );
    let plan = planned(&room, &[60, 10, 80, 5]);
    assert_eq!(plan.grants, [45, 5, 45, 5]);
    assert_eq!(plan.held, [2, 1, 1, 0]);
}

/// A root with limit 500 over node 2 (300) over node 3 (100), and node 4 (40), a root of its own. Servers
/// by rank, low and want: 9, 0, 150 on node 3; 6, 0, 400 on node 2; 4, 10, 50 on node 3; 3, 0, 300 on
/// node 1; 2, 20, 60 on node 2; 1, 30, 30 on node 1; and 9, 0, 200, half on node 4 and half on node 2.
///
/// First deal, at rank 9: node 4 asks for 40 of 100, node 3 for 100 − 10 = 90 of 150, and node 2 and the
/// root for all of 90 + 100. So the last server has 40 and 100, and can use 80: 60 W are stranded, and
/// its cord on node 2 wants 40 in the second deal.
///
/// Second deal. Node 4: 40 of 100, cut at 9. Node 3: 90 of 150 and, at rank 4, 100 − 90 = 10 of 50, cut
/// at 9 and 4. Node 2: at rank 9 all of 90 + 40; at 6, 300 − 130 − 10 − 20 = 140 of 400; at 4,
/// 300 − 270 − 20 = 10, all; at 2, 300 − 280 = 20 of 60: cut at 6 and 2. The root: at 9, 6 and 4 all of
/// 130, 140 and 10; at 3, 500 − 280 − 20 − 30 = 170 of 300; at 2 and 1 all of 20 and 30: cut at 3.
///
/// From the root down: rank 9 meets its first cut from 9 up in node 3; rank 6 in node 2; rank 4 in node
/// 2, cut at 6, before node 3, cut at 4 itself; rank 3 in the root; rank 2 in the root, cut at 3, before
/// node 2, cut at 2 itself. Rank 1 has its want, beneath a full root, and so has the cord that wants 40.
#[test]
fn a_cut_above_at_a_higher_rank_comes_before_a_cut_below() {
    let room = table(
        &[(0, 625), (1, 375), (2, 125), (0, 50)],
        &[
            (9, 0, 150, &[(3, 1000)]),
            (6, 0, 400, &[(2, 1000)]),
            (4, 10, 50, &[(3, 1000)]),
            (3, 0, 300, &[(1, 1000)]),
            (2, 20, 60, &[(2, 1000)]),
            (1, 30, 80, &[(1, 1000)]),
            (9, 0, 200, &[(4, 500), (2, 500)]),
        ],
    );
    let demands = [150, 400, 50, 300, 60, 0, 200];
    let first_grants = [90, 80, 10, 170, 20, 30, 40, 100];
    assert_eq!(dealt(&room, &demands).first_grants, first_grants);
    let answer = Plan {
        freed: 60,
        grants: vec![90, 140, 10, 170, 20, 30, 40, 40],
        caps: vec![90, 140, 10, 170, 20, 30, 80],
        headroom: vec![0; 8],
        held: vec![3, 2, 2, 1, 1, 0, 4, 0],
    };
    assert_eq!(planned(&room, &demands), answer);
}

#[test]
fn a_room_without_servers_frees_nothing() {
    let empty = Plan {
        freed: 0,
        grants: vec![],
        caps: vec![],
        headroom: vec![],
        held: vec![],
    };
    assert_eq!(plan(&[1, 1, 0, 0, 0], &[], [0; 4]), Ok(empty.clone()));
    assert_eq!(plan(&table(&[(0, 9), (1, 9)], &[]), &[], [7; 4]), Ok(empty));
}

/// Root limit 150, child limit 100.
#[test]
fn weights_are_excesses_not_wants() {
    let room = table(
        &[(0, 188), (1, 125)],
        &[(1, 0, 1_000, &[(2, 1000)]), (1, 0, 100, &[(1, 1000)])],
    );
    assert_eq!(grants(&room, &[1_000, 100]), [75, 75]);
}

#[test]
fn sixty_watts_over_50_and_210_stay_sixty() {
    assert_eq!(split(60, &[50, 210]), [11, 49]);
    let room = table(
        &[(0, 75)],
        &[(1, 0, 50, &[(1, 1000)]), (1, 0, 210, &[(1, 1000)])],
    );
    assert_eq!(grants(&room, &[50, 210]), [11, 49]);
}

/// Around 65,536, where products stop to fit in 32 bits: a watt short of the weights, the first
/// child's one watt rounds down to nothing, and the running part in the middle is a half or so
/// below its weights.
#[test]
fn splits_around_65_536_watts() {
    assert_eq!(split(65_534, &[1, 32_767, 32_767]), [0, 32_767, 32_767]);
    assert_eq!(split(65_535, &[1, 32_767, 32_767]), [1, 32_767, 32_767]);
    assert_eq!(split(65_535, &[1, 32_767, 32_768]), [0, 32_767, 32_768]);
    assert_eq!(split(65_536, &[1, 32_767, 32_769]), [0, 32_767, 32_769]);
    assert_eq!(split(65_535, &[1, 1]), [32_767, 32_768]);
    let room = table(
        &[(0, 81_919)],
        &[
            (1, 0, 1, &[(1, 1000)]),
            (1, 0, 32_767, &[(1, 1000)]),
            (1, 0, 32_768, &[(1, 1000)]),
        ],
    );
    assert_eq!(grants(&room, &[65_536; 3]), [0, 32_767, 32_768]);
}

#[test]
fn nothing_is_dealt_where_nothing_is_wanted() {
    assert_eq!(split(0, &[0, 0]), [0, 0]);
    assert_eq!(split(0, &[]), []);
    assert_eq!(split(5, &[0, 5, 0]), [0, 5, 0]);
}

/// 3 W over two equal cords are lows of 2 W each: 1 W is too little for either.
#[test]
fn lows_are_rounded_up() {
    let halves: Server = (1, 3, 3, &[(1, 500), (2, 500)]);
    let refused = plan(&table(&[(0, 3), (0, 2)], &[halves]), &[3], [2, 1, 2, 2]);
    assert_eq!(
        refused,
        Err(Refusal {
            number: 9,
            place: 2
        })
    );
    let plan = planned(&table(&[(0, 3), (0, 3)], &[halves]), &[3]);
    assert_eq!(plan.grants, [2, 2]);
    assert_eq!(plan.caps, [3]);
}

/// In room H server 2's cord has nothing stranded: wanting only its 267 it could not reach 280.
#[test]
fn only_a_cord_with_stranded_watts_wants_less() {
    let deals = dealt(&room_h(500), &[400, 400]);
    assert_eq!(deals.second_wants[2], 400);
    assert_eq!(deals.second_grants[2], 280);
}

#[test]
fn a_need_is_raised_to_least_and_cut_to_greatest() {
    let room = table(&[(0, 1_000)], &[(1, 100, 400, &[(1, 1000)])]);
    assert_eq!(grants(&room, &[0]), [100]);
    assert_eq!(grants(&room, &[99]), [100]);
    assert_eq!(grants(&room, &[101]), [101]);
    assert_eq!(grants(&room, &[399]), [399]);
    assert_eq!(grants(&room, &[16_777_215]), [400]);
}

/// One watt over two equal weights is floor(1/2) for the first child and the rest for the second,
/// so the grants show which child comes last.
#[test]
fn child_nodes_come_before_own_cords() {
    let nodes = [(0, 2), (1, 9)];
    let beneath: Server = (1, 0, 1, &[(2, 1000)]);
    let own: Server = (1, 0, 1, &[(1, 1000)]);
    assert_eq!(grants(&table(&nodes, &[beneath, own]), &[1, 1]), [0, 1]);
    assert_eq!(grants(&table(&nodes, &[own, beneath]), &[1, 1]), [1, 0]);
}

#[test]
fn child_nodes_stand_in_number_order() {
    let nodes = [(0, 2), (1, 9), (1, 9)];
    let second: Server = (1, 0, 1, &[(2, 1000)]);
    let third: Server = (1, 0, 1, &[(3, 1000)]);
    assert_eq!(grants(&table(&nodes, &[second, third]), &[1, 1]), [0, 1]);
    assert_eq!(grants(&table(&nodes, &[third, second]), &[1, 1]), [1, 0]);
}

#[test]
fn own_cords_stand_in_table_order() {
    let cord: Server = (1, 0, 1, &[(1, 1000)]);
    assert_eq!(grants(&table(&[(0, 2)], &[cord; 3]), &[1; 3]), [0, 0, 1]);
    assert_eq!(grants(&table(&[(0, 3)], &[cord; 3]), &[1; 3]), [0, 1, 1]);
}

/// Limit 11, wants 10, 5 and 5 at ranks 3, 2 and 1, lows 0, 1 and 2. Rank 3 has 11 − 3 = 8,
/// rank 2 has 11 − 8 − 2 = 1, rank 1 has 11 − 9 = 2.
#[test]
fn a_higher_rank_leaves_the_lower_ranks_their_lows() {
    let room = table(
        &[(0, 14)],
        &[
            (1, 2, 5, &[(1, 1000)]),
            (3, 0, 10, &[(1, 1000)]),
            (2, 1, 5, &[(1, 1000)]),
        ],
    );
    assert_eq!(grants(&room, &[5, 10, 5]), [2, 8, 1]);
}

/// A share of 0 carries nothing and holds nobody back. Grants on one node add up.
#[test]
fn cords_may_share_a_node_and_carry_nothing() {
    let cords = [(1, 0), (2, 300), (2, 700), (1, 0)];
    let room = table(&[(0, 0), (0, 100)], &[(16, 10, 90, &cords)]);
    // Limit 80, lows 3 and 7, wants 27 and 63: 70 W over 24 and 56 are 21 and 49.
    let plan = planned(&room, &[90]);
    assert_eq!(plan.grants, [0, 24, 56, 0]);
    assert_eq!(plan.caps, [80]);
    assert_eq!(plan.freed, 0);
}

/// The greatest figures that a table can hold.
#[test]
fn the_greatest_watts_are_dealt_exactly() {
    let most = 16_777_215;
    let cord: Server = (8, 0, most, &[(1, 1000)]);
    let room = table(&[(0, most)], &vec![cord; 512]);
    let plan = planned(&room, &[most; 512]);
    // floor(16,777,215 × 80 / 100) = 13,421,772 = 512 × 26,214 + 204.
    assert_eq!(plan.grants.iter().sum::<u32>(), 13_421_772);
    assert_eq!(plan.grants.iter().filter(|&&g| g == 26_215).count(), 204);
    assert_eq!(plan.grants.iter().filter(|&&g| g == 26_214).count(), 308);
    assert_eq!(plan.caps, plan.grants);
    assert_eq!(plan.headroom, [0; 512]);
}

/// One cord, all of whose watts are lent: it wants nothing, and may have all of the node's limit.
#[test]
fn the_greatest_headroom_is_lent_exactly() {
    let most = 16_777_215;
    let room = table(&[(0, most)], &[(8, 0, most, &[(1, 1000)])]);
    assert_eq!(lent(&room, &[0]), [13_421_772]);
}

/// 512 servers, each with one cord held to 0 W: all that its other cord gets is stranded.
#[test]
fn freed_sums_over_all_cords() {
    let most = 16_777_215;
    let cords = [(1, 999), (2, 1)];
    let room = table(&[(0, 0), (0, most)], &vec![(1, 0, most, &cords[..]); 512]);
    let plan = planned(&room, &[most; 512]);
    // Wants of ceil(16,777,215 / 1000) = 16,778 W each, 8,590,336 W in all, pass node 2 whole.
    assert_eq!(plan.freed, 8_590_336);
    assert_eq!(plan.caps, [0; 512]);
    assert_eq!(plan.grants, [0; 1_024]);
}

/// A chain of 512 breakers, the narrowest (limit 8) in the middle.
#[test]
fn a_chain_of_512_breakers_lets_through_its_narrowest() {
    let mut nodes: Vec<(u32, u32)> = (0..512).map(|parent| (parent, 1_000)).collect();
    nodes[255].1 = 10;
    let deepest: &[(u32, u32)] = &[(512, 1000)];
    let room = table(&nodes, &[(2, 1, 9, deepest), (1, 1, 9, deepest)]);
    let plan = planned(&room, &[6, 9]);
    assert_eq!(plan.grants, [6, 2]);
    assert_eq!(plan.held, [0, 256]);
}
