// The text form: what it describes, what it gives back, and where it says that a text is wrong.

import test from 'node:test';
import assert from 'node:assert/strict';
import { readText, writeText } from '../src/text.js';
import { check } from '../src/check.js';
import { hutOf, tableOf } from '../src/hut.js';
import { bytes, text, calls, huts, ROOM_H } from './desk.mjs';

const accepted = content => {
  const result = check(content, calls);
  assert.deepEqual([result.problems, result.refusal], [undefined, undefined]);
  return result;
};

/// What a span has of the text.
const marked = (content, { line, from, to }) => content.split('\n')[line].slice(from, to);

test('room H from text is the sample sheet', () => {
  assert.deepEqual(accepted(ROOM_H).sheet, bytes('samples/room-h.bin'));
});

test('a pasted schedule is the sheet that hutschedule makes of it', () => {
  assert.deepEqual(accepted(text('samples/hut.schedule')).sheet, bytes('samples/hut.bin'));
});

test('amperes and volts give the rating of the schedule', () => {
  const content = 'breaker main 200 A 240 V\nbreaker a under main 20 A 120 V\nbreaker b under main 60A 120V\n';
  assert.deepEqual(accepted(content).sheet, bytes('samples/hut.bin'));
});

test('a schedule goes on with named breakers and servers', () => {
  const content = '0 200 240\n1 20 120\nbreaker rack under 2 1000 W\nserver s rank 3 from 1 to 2 W\n cord 100% on b2\n';
  assert.deepEqual(accepted(content).words, [1, 3, 0, 48000, 1, 2400, 2, 1000, 1, 3, 1, 2, 1, 2, 1000]);
});

test('the version follows from what is written, or is given', () => {
  const hut = (percent, share) => `breaker b 100 W${percent}\nserver s rank 1 from 0 to 1 W\n cord ${share} on b\n cord ${share} on b\n`;
  assert.equal(accepted(hut('', '50%')).words[0], 1);
  assert.equal(accepted(hut(' at 100%', '50%')).words[0], 2);
  assert.deepEqual(accepted('breaker b 100 W\nserver s rank 1 from 0 to 1 W\n cord 33.33% on b\n cord 66.67% on 1\n').words,
    [3, 1, 0, 100, 80, 1, 1, 0, 1, 2, 1, 3333, 1, 6667]);
  assert.deepEqual(accepted(`version 3\n${hut('', '50%')}`).words.slice(0, 5), [3, 1, 0, 100, 80]);
});

test('text, table, text: every sample and every random hut comes back', () => {
  const sheets = ['room-h', 'room-s', 'room-s-full-load', 'hut'].map(name => bytes(`samples/${name}.bin`));
  const good = [...sheets, ...huts.map(hut => hut.sheet)].filter(sheet => calls.read(sheet).number === 0);
  assert.ok(good.length >= 500);
  for (const sheet of good) {
    const { words } = calls.read(sheet);
    const content = writeText(hutOf(words));
    const back = accepted(content);
    assert.deepEqual(back.sheet, sheet);
    assert.equal(writeText(back.hut), content);
  }
});

test('a table is the words of its hut', () => {
  const { words } = calls.read(bytes('samples/room-s-full-load.bin'));
  assert.deepEqual(tableOf(hutOf(words)).words, words);
});

const UNCLEAR = [
  ['braeker b 5 W', 'braeker'],
  ['breaker 5 W', '5'],
  ['breaker b 5', ''],
  ['breaker b 5.5 W', '5.5'],
  ['breaker b 20 A 120', ''],
  ['breaker b 5 W at 80', ''],
  ['breaker b 5 W extra', 'extra'],
  ['breaker b under c 5 W', 'c'],
  ['breaker b 5 W\nbreaker b 6 W', 'b'],
  ['breaker b 5 W\n0 20 120', '0 20 120'],
  ['version 1\nbreaker b 5 W at 100%', '100%'],
  ['version 1\nversion 2', '2'],
  ['cord 50% on b', 'cord 50% on b'],
  ['breaker b 5 W\nserver s rank 1 from 1 to 2', ''],
  ['breaker b 5 W\nserver s rank\n  cord 100% on b\n  cord what', ''],
  ['breaker b 5 W\nserver s rank 1 from 1 to 2 W\ncord 33.333% on b', '33.333'],
  ['version 2\nbreaker b 5 W\nserver s rank 1 from 1 to 2 W\ncord 33.33% on b', '33.33%'],
  ['breaker b 5 W\nserver s rank 1 from 1 to 2 W\ncord 50 on b', 'on'],
];

test('where a text cannot be understood, the word is marked', () => {
  for (const [content, word] of UNCLEAR) {
    const { problems } = check(content, calls);
    assert.equal(problems?.length, 1, content);
    assert.equal(marked(content, problems[0].span), word, content);
    assert.ok(problems[0].says.length > 0);
  }
});

const SERVER = 'server s rank 1 from 10 to 20 W\n';
const REFUSED = [
  ['', 5, null],
  ['version 9\nbreaker b 5 W', 5, '9'],
  ['breaker b 16777216 W', 5, '16777216 W'],
  ['breaker b 99999999999999999999 W', 5, '99999999999999999999 W'],
  ['breaker b under c 5 W\nbreaker c 5 W', 5, 'c'],
  ['breaker b under 7 5 W', 5, '7'],
  ['breaker b 5 W at 90%', 5, '90%'],
  [`breaker b 50 W\n${SERVER.replace('rank 1', 'rank 17')} cord 100% on b`, 5, '17'],
  [`breaker b 50 W\n${SERVER}`, 5, 'server s rank 1 from 10 to 20 W'],
  [`breaker b 50 W\n${SERVER} cord 100% on 2`, 5, '2'],
  [`breaker b 50 W\n${SERVER} cord 100.1% on b`, 5, '100.1%'],
  [`breaker b 50 W\n${SERVER.replace('to 20', 'to 9')} cord 100% on b`, 6, '9'],
  [`breaker b 50 W\n${SERVER} cord 60% on b\n cord 30% on b`, 7, 's'],
  [`breaker a 500 W\nbreaker b under a 12 W\n${SERVER} cord 100% on b`, 9, 'b'],
  ['0 20 120\n1  20 120', 24, '1  20 120'],
  ['0 20 120\n1 21 120', 25, '21'],
  ['0 20 120\n2 20 120', 26, '2 20 120'],
  ['breaker b 10000 A 120 V', 24, '10000 A 120 V'],
  ['breaker b 21 A 120 V', 25, '21'],
  ['breaker b 20 A 99 V', 26, '99'],
];

test('a refusal is that of the proved code, and marks what it means', () => {
  for (const [content, number, word] of REFUSED) {
    const { refusal } = check(content, calls);
    assert.equal(refusal?.number, number, content);
    assert.equal(refusal.span && marked(content, refusal.span), word, content);
  }
});

test('more breakers, servers or cords than a sheet can have are refused', () => {
  const breakers = count => Array.from({ length: count }, (_, k) => `breaker b${k} 9 W`).join('\n');
  const servers = count => Array.from({ length: count }, (_, k) => `server s${k} rank 1 from 0 to 1 W\n cord 100% on 1`).join('\n');
  assert.deepEqual(check(breakers(513), calls).refusal.part, { kind: 'count of nodes' });
  assert.deepEqual(check(`breaker b 9 W\n${servers(513)}`, calls).refusal.part, { kind: 'count of servers' });
  accepted(`${breakers(512)}\n${servers(512)}`);
});

test('any text at all gets an answer', () => {
  const pieces = ['breaker', 'server', 'cord', 'b', '%', '5', '0.5', 'W', 'A', '\n', ' ', '#', '\u0000', '\ud800', 'é', 'under', 'on'];
  let seed = 1;
  const roll = below => {
    seed = (seed * 48271) % 2147483647;
    return seed % below;
  };
  for (let trial = 0; trial < 3000; trial++) {
    const content = Array.from({ length: roll(30) }, () => pieces[roll(pieces.length)]).join(roll(2) ? ' ' : '');
    const { problems, refusal, sheet } = check(content, calls);
    assert.equal([problems, refusal, sheet].filter(Boolean).length, 1, JSON.stringify(content));
    for (const { span } of problems ?? []) assert.ok(span.to > span.from && span.line >= 0);
  }
  assert.equal(readText('\r\n\r\n').problems.length, 0);
});
