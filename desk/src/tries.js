// Trying a change: servers of one kind are hung on a breaker one after the other, and the proved code is
// asked each time, until it refuses or a cord is held that was not.

import { tableOf, cordsOf, scaleOf } from './hut.js';

/// The hut with `count` servers of a kind more. A kind is { rank, least, greatest }.
export function enlarged(hut, node, kind, count) {
  const more = Array.from({ length: count }, (_, k) => ({
    name: `new ${k + 1}`, ...kind, cords: [{ node, share: scaleOf(hut.version) }],
  }));
  return { version: hut.version, nodes: hut.nodes, servers: [...hut.servers, ...more] };
}

/// What hanging `count` servers more comes to: { refusal }, or { held } with the first cord that is newly
/// held, or neither.
export function tryCount(base, node, kind, count, calls) {
  const { hut, demands, heldBefore } = base;
  const larger = enlarged(hut, node, kind, count);
  const { words } = tableOf(larger);
  const all = [...demands, ...Array(count).fill(kind.demand)];
  const cords = cordsOf(larger);
  const plan = calls.plan(words, all, cords.length);
  if (plan.number !== 0) return { refusal: plan, larger };
  const place = plan.held.findIndex((holder, at) => holder > 0 && !heldBefore[at]);
  return place < 0 ? {} : { held: { cord: cords[place], holder: plan.held[place] }, larger };
}

/// How many more fit: { fit, stop }, stop being what the next one comes to. Pauses now and then, so that the
/// page stays quick; gives null where `stale` says that the question is no longer asked.
export async function howMany(base, node, kind, calls, stale = () => false) {
  let since = Date.now();
  for (let count = 1; ; count++) {
    const outcome = tryCount(base, node, kind, count, calls);
    if (outcome.refusal || outcome.held) return { fit: count - 1, stop: outcome };
    if (Date.now() - since > 30) {
      await new Promise(resolve => { setTimeout(resolve); });
      if (stale()) return null;
      since = Date.now();
    }
  }
}
