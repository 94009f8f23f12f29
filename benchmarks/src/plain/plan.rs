//! Plan: the demands, both deals and what servers can use of them.

use super::deal::{name_holders, Deals, Starts};
use super::list::List;
use super::table::{carried, Room, Table};
use super::{tell, Outcome, Refusal, MOST_CORDS, MOST_SERVERS, MOST_WATTS};

/// A figure a cord, with room for three more, and a figure a server.
pub type Cords = List<u32, { MOST_CORDS + 3 }>;
pub type Servers = List<u32, MOST_SERVERS>;

/// The lists that a plan is written to.
pub struct Lists<'a> {
    pub grants: &'a mut [u8],
    pub caps: &'a mut [u8],
    pub headroom: &'a mut [u8],
    pub held: &'a mut [u8],
}

/// Plan: a grant, its headroom and its holder for each cord and a cap for each server, at the fronts of their lists.
pub fn plan(table: &[u8], demands: &[u8], lists: Lists, answer: &mut [u8]) -> u32 {
    tell(answer, || {
        let mut room = Room::empty();
        Table(table).scan(&mut room)?;
        check_lists(&room, Table(demands), &lists)?;
        Ok(plan_room(&room, Table(demands), lists))
    })
}

/// Refusals 10 and 11.
pub fn check_demands(room: &Room, demands: Table) -> Outcome<()> {
    if demands.len() != room.server_count {
        return Err(Refusal(10, room.server_count as u64));
    }
    match demands.words().position(|demand| demand > MOST_WATTS) {
        Some(large) => Err(Refusal(11, large as u64)),
        None => Ok(()),
    }
}

/// Refusals 10 to 15.
fn check_lists(room: &Room, demands: Table, lists: &Lists) -> Outcome<()> {
    check_demands(room, demands)?;
    let (cords, servers) = (room.cord_count, room.server_count);
    let lists = [
        (12, &lists.grants, cords),
        (13, &lists.caps, servers),
        (14, &lists.headroom, cords),
        (15, &lists.held, cords),
    ];
    for (number, list, needed) in lists {
        if list.len() / 4 < needed {
            return Err(Refusal(number, needed as u64));
        }
    }
    Ok(())
}

/// The plan, into lists long enough; the freed watts.
fn plan_room(room: &Room, demands: Table, lists: Lists) -> u64 {
    let needs = needs(room, demands);
    let mut wants = Cords::new();
    let mut ceilings = Cords::new();
    for c in 0..room.cord_count {
        let server = usize::from(room.servers[c]);
        wants[c] = carried(room.shares[c].into(), needs[server], room.whole);
        ceilings[c] = carried(room.shares[c].into(), room.ranges[server].1, room.whole);
    }
    let deals = Deals::of(room);
    let mut granted = Cords::new();
    deals.deal(room, Starts::lows(room), &wants, &mut granted);
    let mut used = Cords::new();
    let freed = reclaim(room, &usable(room, &needs, &granted), &granted, &mut wants, &mut used);
    let left = deals.deal(room, Starts::used(room, &used), &wants, &mut granted);
    put(granted.front(room.cord_count), lists.grants);
    put(usable(room, &needs, &granted).front(room.server_count), lists.caps);
    deals.lend(room, &left.slack, &wants, &mut ceilings);
    put(ceilings.front(room.cord_count), lists.headroom);
    // The grants are stored: their list takes the holders.
    name_holders(room, &left.cuts, &wants, &mut granted);
    put(granted.front(room.cord_count), lists.held);
    freed
}

/// Each server's need.
pub fn needs(room: &Room, demands: Table) -> Servers {
    let mut needs = Servers::new();
    for (server, demand) in demands.words().enumerate() {
        let (least, greatest) = room.ranges[server];
        needs[server] = demand.max(least).min(greatest);
    }
    needs
}

/// Each server's usable watts, by its need and its cords' grants.
fn usable(room: &Room, needs: &Servers, granted: &Cords) -> Servers {
    let mut usable = Servers::new();
    for server in 0..room.server_count {
        usable[server] = needs[server];
    }
    for c in 0..room.cord_count {
        let share = u64::from(room.shares[c]);
        let server = usize::from(room.servers[c]);
        if share != 0 {
            let most = u64::from(room.whole) * u64::from(granted[c]) / share;
            usable[server] = u64::from(usable[server]).min(most) as u32;
        }
    }
    usable
}

/// A cord with stranded watts wants its used watts from now on; the sum of stranded watts, and each cord's used watts.
fn reclaim(room: &Room, usable: &Servers, granted: &Cords, wants: &mut Cords, used: &mut Cords) -> u64 {
    let mut freed = 0;
    for c in 0..room.cord_count {
        let watts = carried(room.shares[c].into(), usable[usize::from(room.servers[c])], room.whole);
        let stranded = granted[c] - watts;
        freed += u64::from(stranded);
        used[c] = watts;
        // Without a branch, which would be predicted badly.
        let some = u32::from(stranded > 0);
        wants[c] = some * watts + (1 - some) * wants[c];
    }
    freed
}

fn put(list: &[u32], bytes: &mut [u8]) {
    for (word, place) in list.iter().zip(bytes.chunks_exact_mut(4)) {
        place.copy_from_slice(&word.to_le_bytes());
    }
}
