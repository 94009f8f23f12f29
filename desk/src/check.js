// A text checked by the proved calls: what it describes, or the refusal with the place in the text that it
// means.

import { tableOf, hutOf, MOST_NODES, MOST_SERVERS } from './hut.js';
import { readText } from './text.js';

const encoder = new TextEncoder();

/// The largest hut's text has some 100,000 characters.
const MOST_CHARACTERS = 1000000;

/// The span of what a word of the table stands for.
export function spanOf(hut, { kind, node, server, cord }) {
  if (kind === 'version') return hut.at.version ?? null;
  // Of a count that is too large, the first thing that is too much.
  if (kind === 'count of nodes') return hut.nodes[MOST_NODES]?.at.line ?? null;
  if (kind === 'count of servers') return hut.servers[MOST_SERVERS]?.at.line ?? null;
  if (node !== undefined) return hut.nodes[node].at[kind] ?? hut.nodes[node].at.line;
  if (cord !== undefined) return hut.servers[server].cords[cord].at[kind];
  if (server !== undefined) return hut.servers[server].at[kind] ?? hut.servers[server].at.line;
  return null;
}

/// What a refusal of the table means: { part, span }, a part as tableOf tells it; of 7, whose place is that of
/// the server, `also` has the shares.
function meantBy(hut, parts, { number, place }) {
  if (number === 9) return { part: { kind: 'lows', node: place - 1 }, span: hut.nodes[place - 1].at.name };
  const part = parts[place];
  if (number === 7) {
    const { at, cords } = hut.servers[part.server];
    return { part: { kind: 'shares', server: part.server }, span: at.name, also: cords.map(cord => cord.at.share) };
  }
  return { part, span: part ? spanOf(hut, part) : null };
}

/// The ratings and parents of the schedule's lines, put into its nodes; or a refusal.
function schedule(hut, calls) {
  if (hut.schedule.length === 0) return null;
  const lines = hut.schedule.map(({ text }) => `${text}\n`).join('');
  const answer = calls.schedule(encoder.encode(lines));
  if (answer.number !== 0) {
    const { spans, whole } = hut.schedule[answer.place];
    return { ...answer, part: { kind: 'line', node: answer.place }, span: answer.number === 25 ? spans[1] : whole };
  }
  hutOf(answer.words).nodes.forEach(({ parent, rating }, place) => {
    Object.assign(hut.nodes[place], { parent, rating });
  });
  return null;
}

/// Ratings in amperes and volts, each as a schedule's line without a parent; or a refusal.
function ampereRatings(hut, calls) {
  const nodes = hut.nodes.filter(node => node.amperes);
  if (nodes.length === 0) return null;
  const lines = nodes.map(node => `0 ${node.amperes.text} ${node.volts.text}\n`).join('');
  const answer = calls.schedule(encoder.encode(lines));
  if (answer.number !== 0) {
    const node = nodes[answer.place];
    const spans = { 24: node.at.rating, 25: node.amperes.span, 26: node.volts.span };
    return { ...answer, part: { kind: 'amperes', node: hut.nodes.indexOf(node) }, span: spans[answer.number] };
  }
  hutOf(answer.words).nodes.forEach(({ rating }, place) => { nodes[place].rating = rating; });
  return null;
}

const TOO_LONG = {
  span: { line: 0, from: 0, to: 1 },
  says: 'The text has more than a million characters, ten times as many as the largest hut needs.',
};

/// What a text comes to: { problems } where it cannot be understood; { refusal } with the part and the span
/// that it means; or { hut, words, sheet }.
export function check(text, calls) {
  if (text.length > MOST_CHARACTERS) return { hut: null, problems: [TOO_LONG] };
  const { hut, problems } = readText(text);
  if (problems.length > 0) return { hut, problems };
  const early = schedule(hut, calls) ?? ampereRatings(hut, calls);
  if (early) return { hut, refusal: early };
  const { words, parts } = tableOf(hut);
  const written = calls.write(words);
  if (written.number !== 0) return { hut, refusal: { ...written, ...meantBy(hut, parts, written) } };
  return { hut, words, sheet: written.sheet };
}

/// Whether a sheet reads back as these words: what is saved is compared first.
export function readsBack(sheet, words, calls) {
  const read = calls.read(sheet);
  if (read.number !== 0 || read.words.length !== words.length) return false;
  return read.words.every((word, place) => word === words[place]);
}
