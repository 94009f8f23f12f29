// The calls through wasm: any bytes are answered, and memory grows where it must.

import test from 'node:test';
import assert from 'node:assert/strict';
import { readsBack } from '../src/check.js';
import { bytes, calls, text } from './desk.mjs';

test('a sheet of a megabyte is judged to its last byte', () => {
  const long = new Uint8Array(1 << 20).fill(1);
  assert.equal(calls.read(long).number, 5);
  long[long.length - 1] = 0x80;
  assert.deepEqual(calls.read(long), { number: 3, place: long.length - 1 });
});

test('empty bytes are refused as the document says', () => {
  assert.deepEqual(calls.read(new Uint8Array()), { number: 4, place: 0 });
});

test('what is saved reads back', () => {
  const sheet = bytes('samples/room-h.bin');
  const { words } = calls.read(sheet);
  assert.ok(readsBack(sheet, words, calls));
  assert.ok(!readsBack(sheet, [...words.slice(0, -1), 999], calls));
  assert.ok(!readsBack(sheet.slice(1), words, calls));
});

test('the sender names servers in turn, as in the specification', () => {
  assert.deepEqual(calls.send(5, 3, 4), { number: 0, named: [3, 4, 0, 1], position: 2 });
  assert.deepEqual(calls.send(5, 3, 9), { number: 0, named: [3, 4, 0, 1, 2], position: 3 });
  assert.deepEqual(calls.send(5, 0, 0), { number: 27, place: 0 });
  assert.deepEqual(calls.send(5, 5, 1), { number: 28, place: 1 });
});

/// Requests A.8 to A.10: tried as soon as the build has the calls.
const request = (name, act) => test(`the call ${name}`, { skip: !calls.has(name) && `${name} is not in this build` }, act);
const ROOM_H = [1, 2, 0, 150, 0, 500, 2, 1, 100, 400, 2, 1, 500, 2, 500, 1, 100, 400, 1, 2, 1000];

request('join', () => {
  const joined = [1, 4, 0, 150, 0, 500, 0, 150, 0, 500, 4, ...ROOM_H.slice(7), 1, 100, 400, 2, 3, 500, 4, 500, 1, 100, 400, 1, 4, 1000];
  assert.deepEqual(calls.join(ROOM_H, ROOM_H), { number: 0, words: joined });
  const { words } = calls.read(bytes('samples/room-s-full-load.bin'));
  assert.deepEqual(calls.join(ROOM_H, words), { number: 19, place: 0 });
});

request('part', () => {
  const { words } = calls.join(ROOM_H, ROOM_H);
  assert.deepEqual(calls.part(words, 2, 2), { number: 0, first: ROOM_H, second: ROOM_H });
  assert.deepEqual(calls.part(words, 4, 2), { number: 22, place: 0 });
  assert.deepEqual(calls.part(words, 2, 1), { number: 23, place: 23 });
});

request('judge', () => {
  assert.deepEqual(calls.judge(ROOM_H, [400, 400], [120, 133, 267]), { number: 0, verdict: 0, what: 0, rank: 0 });
  assert.deepEqual(calls.judge(ROOM_H, [400, 400], [120, 49, 267]), { number: 0, verdict: 1, what: 1, rank: 0 });
  assert.deepEqual(calls.judge(ROOM_H, [400, 400], [120, 134, 267]), { number: 0, verdict: 3, what: 2, rank: 0 });
  assert.deepEqual(calls.judge(ROOM_H, [400, 400], [120, 133, 266]), { number: 0, verdict: 4, what: 2, rank: 1 });
  assert.deepEqual(calls.judge(ROOM_H, [400, 400], [120, 133]), { number: 21, place: 3 });
});

request('release', () => {
  const header = Number(text('include/hutplan.h').match(/^#define HUTPLAN_RELEASE (\d+)$/m)[1]);
  assert.deepEqual(calls.release(), { number: 0, release: header, version: 3 });
});

test('the build tells which calls it has', () => {
  assert.ok(calls.has('plan') && !calls.has('nothing'));
});
