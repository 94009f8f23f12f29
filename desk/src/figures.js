// Figures that the picture shows beside those of the plan. All are asked of Plan, on huts that are made for
// the question, so that no watt is computed here.

import { tableOf, sumsBeneath, FULL_PERCENT, MOST_WATTS, MOST_NODES } from './hut.js';

/// A server that takes whatever it can get, on one breaker.
const eager = (node, share) => ({ rank: 1, least: 0, greatest: MOST_WATTS, cords: [{ node, share }] });

/// The limit of each node: what Plan grants a server that asks for everything, on that node alone.
export function limitsOf(hut, calls) {
  const whole = hut.version >= 3 ? 10000 : 1000;
  const alone = {
    version: hut.version,
    nodes: hut.nodes.map(node => ({ ...node, parent: 0 })),
    servers: hut.nodes.map((_, place) => eager(place + 1, whole)),
  };
  const demands = hut.nodes.map(() => MOST_WATTS);
  return calls.plan(tableOf(alone).words, demands, hut.nodes.length).grants;
}

/// Servers in turn, in groups that have no more cords than there can be nodes.
function groupsOf(servers) {
  const groups = [[]];
  let cords = 0;
  servers.forEach((server, place) => {
    cords += server.cords.length;
    if (cords > MOST_NODES) {
      groups.push([]);
      cords = server.cords.length;
    }
    groups.at(-1).push(place);
  });
  return groups.filter(group => group.length > 0);
}

/// What each server needs, and what each cord carries of it: the caps and grants that Plan gives where every cord has
/// a breaker of its own that carries any load.
export function unlimitedPlan(hut, demands, calls) {
  const plans = groupsOf(hut.servers).map(group => {
    let node = 0;
    const servers = group.map(place => ({
      ...hut.servers[place],
      cords: hut.servers[place].cords.map(({ share }) => ({ node: ++node, share })),
    }));
    const nodes = Array.from({ length: node }, () => ({ parent: 0, rating: MOST_WATTS, percent: FULL_PERCENT }));
    const apart = { version: Math.max(hut.version, 2), nodes, servers };
    return calls.plan(tableOf(apart).words, group.map(place => demands[place]), node);
  });
  return { caps: plans.flatMap(({ caps }) => caps), grants: plans.flatMap(({ grants }) => grants) };
}

/// The figures of a hut that do not depend on demands. They are there also where lows exceed a limit (9).
export function fixedFigures(hut, calls) {
  const { grants: lows } = unlimitedPlan(hut, hut.servers.map(() => 0), calls);
  return { limits: limitsOf(hut, calls), lows, lowsBeneath: sumsBeneath(hut, lows) };
}

/// All figures of a hut and its demands, with the plan; or Plan's refusal.
export function planFigures(hut, words, demands, fixed, calls) {
  const plan = calls.plan(words, demands, fixed.lows.length);
  if (plan.number !== 0) return plan;
  const { caps: needs, grants: wants } = unlimitedPlan(hut, demands, calls);
  return {
    ...fixed,
    ...plan,
    demands,
    needs,
    wants,
    grantsBeneath: sumsBeneath(hut, plan.grants),
    headroomBeneath: sumsBeneath(hut, plan.headroom),
  };
}
