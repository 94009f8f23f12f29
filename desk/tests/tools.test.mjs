// The tools' own modules: trials, two huts, judgements, rows of the picture.

import test from 'node:test';
import assert from 'node:assert/strict';
import { check } from '../src/check.js';
import { cordsOf } from '../src/hut.js';
import { fixedFigures, planFigures } from '../src/figures.js';
import { grantsOf, tellVerdict } from '../src/judging.js';
import { opened } from '../src/files.js';
import { releasesIn } from '../src/release.js';
import { rowsOf } from '../src/rows.js';
import { howMany, tryCount } from '../src/tries.js';
import { bytes, calls, refusals, ROOM_H } from './desk.mjs';

const planned = (content, demands) => {
  const { hut, words } = check(content, calls);
  return { hut, words, cords: cordsOf(hut), figures: planFigures(hut, words, demands, fixedFigures(hut, calls), calls) };
};

/// By hand: a rating of 1000 W carries 800. Beside a server that asks for 200, three more that do fit. Where all ask
/// for their least, 100, seven more fit, and with the eighth the lows pass 800.
test('a trial stops at the first server that is refused or has a cord held', async () => {
  const { hut, figures } = planned('breaker b 1000 W\nserver s rank 1 from 100 to 200 W\n cord 100% on b', [200]);
  const base = { hut, demands: [200], heldBefore: figures.held };
  const kind = { rank: 1, least: 100, greatest: 200, demand: 200 };
  const { fit, stop } = await howMany(base, 1, kind, calls);
  assert.equal(fit, 3);
  assert.equal(stop.held.holder, 1);
  assert.deepEqual(tryCount(base, 1, kind, 3, calls), {});
  assert.equal(tryCount(base, 1, kind, 8, calls).refusal.number, 9);
  assert.equal((await howMany({ ...base, demands: [100] }, 1, { ...kind, demand: 0 }, calls)).fit, 7);
  assert.equal((await howMany(base, 1, { ...kind, rank: 17 }, calls)).stop.refusal.number, 5);
});

test('a trial is given up where it is no longer asked', async () => {
  const { hut } = planned('breaker b 16777215 W at 100%', []);
  const kind = { rank: 1, least: 0, greatest: 1, demand: 1 };
  const answer = await howMany({ hut, demands: [], heldBefore: [] }, 1, kind, calls, () => true);
  assert.ok(answer === null || answer.fit === 512);
});

test('pasted grants are whole numbers, one a line', () => {
  assert.deepEqual(grantsOf('120\n 133 \n267\n\n'), { grants: [120, 133, 267] });
  assert.deepEqual(grantsOf(''), { grants: [] });
  assert.deepEqual(grantsOf('1\n\n2'), { wrong: 1 });
  assert.deepEqual(grantsOf('1\n-2'), { wrong: 1 });
  assert.deepEqual(grantsOf('99999999999'), { grants: [4294967295] });
});

test('a verdict names the cord or breaker, with both figures', () => {
  const { hut, cords, figures } = planned(ROOM_H, [400, 400]);
  const says = (verdict, what, rank, grants) => tellVerdict({ verdict, what, rank }, { hut, cords }, figures, grants).says;
  assert.match(says(1, 1, 0, [120, 49, 267]), /^Cord 2 of web has 49 W, less than its low of 50 W\.$/);
  assert.match(says(2, 2, 0, [120, 133, 401]), /^Cord 1 of db has 401 W, more than its want of 400 W\.$/);
  assert.match(says(3, 2, 0, [120, 134, 267]), /^The grants beneath right sum to 401 W; it carries 400 W\.$/);
  assert.match(says(4, 2, 1, [120, 133, 266]), /^Beneath right the cords of rank 1 and above/);
});

test('the rows of the picture are the breakers, each with its breakers and then its cords', () => {
  const content = 'breaker a 90 W\nserver s rank 1 from 0 to 9 W\n cord 50% on a\n cord 50% on c\nbreaker b 9 W\nbreaker c under a 90 W\n';
  const { hut, cords, figures } = planned(content, [9]);
  const rows = view => rowsOf(hut, cords, { folded: new Set(), search: '', onlyHeld: false, held: figures.held, ...view })
    .map(({ kind, place, depth }) => `${kind} ${place} ${depth}`);
  assert.deepEqual(rows({}), ['node 0 0', 'node 2 1', 'cord 1 2', 'cord 0 1', 'node 1 0']);
  assert.deepEqual(rows({ folded: new Set(['c']) }), ['node 0 0', 'node 2 1', 'cord 0 1', 'node 1 0']);
  assert.deepEqual(rows({ search: 'B' }), ['node 1 0']);
  assert.deepEqual(rows({ search: 'c', folded: new Set(['a']) }), ['node 0 0', 'node 2 1']);
  assert.deepEqual(rows({ onlyHeld: true }), []);
});

test('a file is a sheet or a text, or is told why it is neither', () => {
  const encoder = new TextEncoder();
  assert.equal(opened('hut.txt', encoder.encode('breaker é 5 W\r\n'), refusals, calls).text, 'breaker é 5 W\n');
  assert.match(opened('x', bytes('samples/room-h.bin'), refusals, calls).text, /^version 1\n\nbreaker b1 150 W\n/);
  assert.match(opened('room.bin', new Uint8Array(), refusals, calls).refused.title, /^Refused 4, /);
  assert.match(opened('photo.png', Uint8Array.of(0x89, 0x50, 0x4e, 0x47), refusals, calls).refused.title, /^Refused /);
});

// ---- Releases

const mark = number => `hutplan release ${String(number).padStart(4, '0')} by Yerkozan`;
const image = (...parts) => Uint8Array.from(Buffer.concat(parts.map(part => Buffer.from(part, 'latin1'))));

/// Bytes as a file of Intel HEX: sixteen a line, from an address on, and the line that ends it.
function hexOf(bytes) {
  const line = record => {
    const sum = record.reduce((all, byte) => all + byte, 0);
    return `:${Buffer.from([...record, -sum & 255]).toString('hex').toUpperCase()}\r\n`;
  };
  const lines = [];
  for (let at = 0; at < bytes.length; at += 16) {
    const part = bytes.slice(at, at + 16);
    lines.push(line([part.length, at >> 8, at & 255, 0, ...part]));
  }
  return lines.join('') + line([0, 0, 0, 1]);
}

test('a release is found in an image by its mark, and nowhere else', () => {
  assert.deepEqual(releasesIn(image('\x7fELF\0\0', mark(7), '\0\xff')), [7]);
  assert.deepEqual(releasesIn(image(mark(1234))), [1234]);
  assert.deepEqual(releasesIn(image(mark(2), '\0', mark(1), mark(2))), [1, 2]);
  assert.deepEqual(releasesIn(image('hutplan release 00x1 by Yerkozan hutplan release 1 by Yerkozan')), []);
  assert.deepEqual(releasesIn(image('')), []);
});

test('a release is found in a file of Intel HEX, also across lines', () => {
  const bytes = image('\0'.repeat(21), mark(42), '\xff'.repeat(9));
  assert.deepEqual(releasesIn(image(hexOf(bytes))), [42]);
  assert.deepEqual(releasesIn(image(hexOf(image('\0'.repeat(64))))), []);
});

test('the proved code carries the mark of the release that it tells', { skip: !calls.has('release') && 'not in this build' }, () => {
  assert.deepEqual(releasesIn(bytes('target/chips/wasm32/hutplan.wasm')), [calls.release().release]);
  assert.deepEqual(releasesIn(bytes('target/desk/hutplan.html')), [calls.release().release]);
});

test('an image that is opened gets a sentence on its release, and a hut is still a hut', { skip: !calls.has('release') && 'not in this build' }, () => {
  const own = calls.release().release;
  const told = (name, content) => opened(name, content, refusals, calls);
  assert.deepEqual(told('unit.elf', image('\x7fELF\0', mark(own))), { says: `unit.elf has release ${own} of hutplan in it; the release of this page.` });
  assert.deepEqual(told('unit.bin', image('\0\x01', mark(own + 1))),
    { says: `unit.bin has release ${own + 1} of hutplan in it; this page is of release ${own}.` });
  assert.match(told('unit.hex', image(hexOf(image('\0', mark(3))))).says, /^unit\.hex has release 3 of hutplan in it/);
  assert.match(told('two.bin', image('\0', mark(1), '\0', mark(2))).says, /the marks of several releases of hutplan: 1, 2\.$/);
  assert.match(told('old.elf', image('\x7fELF\0\0')).refused.title, /^Refused /);
  for (const [name, content] of [['unit.s19', 'S00600004844521B\nS9030000FC\n'], ['old.hex', hexOf(image('\0'.repeat(64)))]]) {
    assert.match(told(name, image(content)).refused.says, /searched for its release as ELF, as raw bytes and as Intel HEX, not as S-records/);
  }
  assert.equal(told('hut.txt', image(`# ${mark(9)}\nbreaker a 5 W\n`)).text, `# ${mark(9)}\nbreaker a 5 W\n`);
});
