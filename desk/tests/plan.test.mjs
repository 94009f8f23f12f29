// Plans as the page makes them: prints, refusals and the figures that are asked of Plan.

import test from 'node:test';
import assert from 'node:assert/strict';
import { hutOf, cordsOf, sumsBeneath } from '../src/hut.js';
import { printOf, refusedPrint, demandsOf } from '../src/print.js';
import { fixedFigures, planFigures } from '../src/figures.js';
import { tellText, tellSheet, tellDemands, whyCord } from '../src/words.js';
import { check } from '../src/check.js';
import { bytes, text, calls, huts, refusals, ROOM_H } from './desk.mjs';

/// What hutplan prints for a sheet and lines of demands, made as the page makes it.
function printed(sheet, lines) {
  const read = calls.read(sheet);
  if (read.number !== 0) return refusedPrint(read);
  const hut = hutOf(read.words);
  const plan = calls.plan(read.words, demandsOf(lines), cordsOf(hut).length);
  return plan.number === 0 ? printOf(hut, plan) : refusedPrint(plan);
}

test('the samples print as they do by hand', () => {
  for (const name of ['room-h', 'room-s']) {
    assert.equal(printed(bytes(`samples/${name}.bin`), text(`samples/${name}.demands`)), text(`samples/${name}.print`));
  }
});

test('random huts print as the reference implementation says', () => {
  for (const { sheet, demands, print } of huts) assert.equal(printed(sheet, demands), print);
});

test('demands are read as hutplan reads them', () => {
  assert.deepEqual(demandsOf('400\n12345678'), [400, 12345678]);
  assert.deepEqual(demandsOf(''), []);
  assert.deepEqual(demandsOf('\n'), [16777216]);
  assert.deepEqual(demandsOf('x\n123456789\n 1\n'), [16777216, 16777216, 16777216]);
  assert.equal(demandsOf('7\n'.repeat(600)).length, 513);
  assert.deepEqual(demandsOf(`${'7\n'.repeat(512)}\n`).slice(511), [7, 16777216]);
});

/// Document 01's own words for a limit and for what a cord carries, beside what Plan was asked for.
const limitOf = (hut, node) => Math.floor((node.rating * (hut.version === 1 ? 80 : node.percent)) / 100);
const carried = (hut, share, load) => {
  const scale = hut.version === 3 ? 10000n : 1000n;
  return Number((BigInt(share) * BigInt(load) + scale - 1n) / scale);
};

test('limits, lows, needs and wants that are asked of Plan are those of the specification', () => {
  for (const { sheet, demands: lines } of huts) {
    const read = calls.read(sheet);
    if (read.number !== 0) continue;
    const hut = hutOf(read.words);
    const fixed = fixedFigures(hut, calls);
    assert.deepEqual(fixed.limits, hut.nodes.map(node => limitOf(hut, node)));
    assert.deepEqual(fixed.lows, cordsOf(hut).map(({ share, server }) => carried(hut, share, hut.servers[server].least)));
    const demands = demandsOf(lines);
    const figures = planFigures(hut, read.words, demands, fixed, calls);
    if (figures.number !== 0) continue;
    const needs = hut.servers.map(({ least, greatest }, place) => Math.min(Math.max(demands[place], least), greatest));
    assert.deepEqual(figures.needs, needs);
    assert.deepEqual(figures.wants, cordsOf(hut).map(({ share, server }) => carried(hut, share, needs[server])));
    figures.limits.forEach((limit, node) => assert.ok(figures.grantsBeneath[node] + figures.headroomBeneath[node] <= limit));
  }
});

test('sums beneath a node are over any depth', () => {
  const hut = hutOf([1, 3, 0, 9, 1, 9, 2, 9, 2, 1, 0, 1, 1, 3, 1000, 1, 0, 1, 1, 2, 1000]);
  assert.deepEqual(sumsBeneath(hut, [5, 7]), [12, 12, 5]);
});

test('every refusal of a random sheet is told, with its place', () => {
  const met = new Set();
  for (const { sheet, demands } of huts) {
    const read = calls.read(sheet);
    const hut = read.number === 0 ? hutOf(read.words) : null;
    const refused = read.number !== 0 ? read : calls.plan(read.words, demandsOf(demands), cordsOf(hut).length);
    if (refused.number === 0) continue;
    met.add(refused.number);
    const told = hut ? tellDemands(refusals, refused, hut) : tellSheet(refusals, refused, sheet);
    assert.match(told.title, new RegExp(`^Refused ${refused.number}, `));
    assert.ok(told.says.includes(refusals[refused.number].means) && told.mend.length > 0);
    assert.doesNotMatch(told.says, /undefined|NaN/);
  }
  assert.deepEqual([...met].sort((a, b) => a - b), [1, 2, 3, 4, 5, 6, 7, 8, 9, 10, 11]);
});

test('lows above a limit are told with both figures', () => {
  const content = 'breaker b 12 W\nserver s rank 1 from 10 to 20 W\n cord 100% on b';
  const { hut, refusal } = check(content, calls);
  const told = tellText(refusals, refusal, hut, fixedFigures(hut, calls));
  assert.match(told.says, /^Breaker b: .*The lows beneath it sum to 10 W, and it carries 9 W\.$/);
});

test('why a cord gets what it gets', () => {
  const { hut, words } = check(ROOM_H, calls);
  const figures = planFigures(hut, words, [400, 400], fixedFigures(hut, calls), calls);
  const cords = cordsOf(hut);
  const why = place => whyCord(hut, figures, cords[place], place);
  assert.match(why(0), /^Held by left\. It wants 200 W and gets 120 W/);
  assert.match(why(1), /^Of the 200 W that it would carry it keeps the 120 W that web could use after the first deal/);
  assert.match(why(2), /^Held by right/);
});

test('a refused sheet is told by the thing that its place means', () => {
  const says = (...sheet) => {
    const content = Uint8Array.from(sheet);
    return tellSheet(refusals, calls.read(content), content).says;
  };
  const roomH = [...bytes('samples/room-h.bin')];
  const spoilt = (at, byte) => roomH.map((own, place) => (place === at ? byte : own));
  assert.match(says(9), /^The version, 9, at byte 0: /);
  assert.match(says(...spoilt(5, 2)), /^The parent of breaker 2, 2, at byte 5: /);
  assert.match(says(...spoilt(14, 3)), /^The breaker of cord 1 of server 1, 3, at byte 14: /);
  assert.match(says(...spoilt(11, 1).slice(0, 13), 0), /^The greatest of server 1, /);
  assert.match(says(...spoilt(15, 0xf5)), /^Server 1 at byte 9: /);
  assert.match(says(...roomH, 7), /^The number at byte 28: /);
  assert.match(says(...roomH.slice(0, 20)), /^Behind its 15 numbers: /);
  assert.match(says(...spoilt(6, 0xbb).map((own, place) => (place === 7 ? 1 : own))), /^Breaker 2: /);
});
