//! Demands, the two deals and what they answer.

use crate::deal::{first_deal, second_deal};
use crate::headroom::headroom;
use crate::held::held;
use crate::room::{carried, Room, Server};
use crate::{Plan, Refusal, Watts};

const MOST_DEMAND: u32 = 16_777_215;

/// Everything computed on the way to a plan: one figure a cord or one a server, in table order.
#[derive(Clone, Debug, PartialEq, Eq)]
pub struct Deals {
    pub needs: Vec<Watts>,
    pub first_wants: Vec<Watts>,
    pub first_grants: Vec<Watts>,
    /// After the first deal, as are the used and stranded watts.
    pub usable: Vec<Watts>,
    pub used: Vec<Watts>,
    pub stranded: Vec<Watts>,
    pub second_wants: Vec<Watts>,
    pub second_grants: Vec<Watts>,
    pub caps: Vec<Watts>,
    pub headroom: Vec<Watts>,
    /// Node numbers, or 0.
    pub held: Vec<u32>,
}

/// Refusals 10 and 11.
pub fn check_demands(room: &Room, demands: &[u32]) -> Result<(), Refusal> {
    if demands.len() != room.servers.len() {
        return Err(Refusal::new(10, room.servers.len()));
    }
    match demands.iter().position(|&demand| demand > MOST_DEMAND) {
        Some(index) => Err(Refusal::new(11, index)),
        None => Ok(()),
    }
}

/// Both deals, for one good demand a server.
pub fn deals(room: &Room, demands: &[u32]) -> Deals {
    let needs = needs(room, demands);
    let first_wants = carried_by_cords(room, &needs);
    let first_grants = first_deal(room, &first_wants);
    let usable = usable(room, &needs, &first_grants);
    let used = carried_by_cords(room, &usable);
    let stranded = pairs(&first_grants, &used, |grant, used| grant - used);
    let second_wants = second_wants(&first_wants, &used, &stranded);
    let second_grants = second_deal(room, &second_wants, &used);
    let caps = self::usable(room, &needs, &second_grants);
    let headroom = headroom(room, &second_wants);
    let held = held(room, &second_wants, &second_grants);
    Deals {
        needs,
        first_wants,
        first_grants,
        usable,
        used,
        stranded,
        second_wants,
        second_grants,
        caps,
        headroom,
        held,
    }
}

/// The first deal's wants, for one good demand a server.
pub(crate) fn first_wants(room: &Room, demands: &[u32]) -> Vec<Watts> {
    carried_by_cords(room, &needs(room, demands))
}

fn needs(room: &Room, demands: &[u32]) -> Vec<Watts> {
    pairs(&room.servers, demands, |server, &demand| {
        Watts::from(demand).max(server.least).min(server.greatest)
    })
}

impl Deals {
    pub fn answer(&self) -> Plan {
        Plan {
            freed: narrow(self.stranded.iter().sum()),
            grants: self.second_grants.iter().map(|&w| narrow(w)).collect(),
            caps: self.caps.iter().map(|&w| narrow(w)).collect(),
            headroom: self.headroom.iter().map(|&w| narrow(w)).collect(),
            held: self.held.clone(),
        }
    }
}

/// Each cord's part of its server's load, rounded up.
fn carried_by_cords(room: &Room, loads: &[Watts]) -> Vec<Watts> {
    let of_server = |(server, &load): (&Server, &Watts)| -> Vec<Watts> {
        let cords = room.cords[server.cords.clone()].iter();
        cords
            .map(|cord| carried(cord.share, load, room.whole))
            .collect()
    };
    room.servers.iter().zip(loads).flat_map(of_server).collect()
}

/// The most that each server can draw of its need before a cord passes its grant.
fn usable(room: &Room, needs: &[Watts], grants: &[Watts]) -> Vec<Watts> {
    pairs(&room.servers, needs, |server, &need| {
        let cords = room.cords[server.cords.clone()].iter();
        let loaded = cords.filter(|cord| cord.share > 0);
        let borne = loaded.map(|cord| room.whole * grants[cord.index] / cord.share);
        borne.fold(need, Watts::min)
    })
}

/// Only a cord with stranded watts wants less than before.
fn second_wants(first: &[Watts], used: &[Watts], stranded: &[Watts]) -> Vec<Watts> {
    let lowered = pairs(used, stranded, |&used, &stranded| {
        (stranded > 0).then_some(used)
    });
    pairs(first, &lowered, |&want, lowered| lowered.unwrap_or(want))
}

fn pairs<A, B, C>(left: &[A], right: &[B], join: impl Fn(&A, &B) -> C) -> Vec<C> {
    left.iter().zip(right).map(|(a, b)| join(a, b)).collect()
}

/// A grant, a cap or a cord's headroom is at most 16,777,215 W, and freed at most 1,024 times that: all
/// of them fit.
fn narrow<N: TryFrom<Watts>>(watts: Watts) -> N {
    let Ok(narrow) = N::try_from(watts) else {
        unreachable!("{watts} W in an answer");
    };
    narrow
}
