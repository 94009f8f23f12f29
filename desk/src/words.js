// Refusals and figures told in words. What each refusal means, and what to do, comes from
// docs/refusals.json; here its place becomes the thing that was written.

import { partAt, scaleOf } from './hut.js';

const grouped = new Intl.NumberFormat('en-GB');

export const figure = number => grouped.format(number);
export const watts = number => `${grouped.format(number)} W`;
export const counted = (count, one, many = `${one}s`) => `${figure(count)} ${count === 1 ? one : many}`;

/// What is allowed, for each kind of word of the table.
const RANGES = {
  version: () => 'A version is 1, 2 or 3.',
  'count of nodes': () => 'A hut has 1 to 512 breakers.',
  parent: () => 'A breaker stands below the one that feeds it.',
  rating: () => 'A rating goes from 0 to 16,777,215 W.',
  percent: () => 'The percent is 80 or 100.',
  'count of servers': () => 'A hut has at most 512 servers.',
  rank: () => 'A rank goes from 1 to 16.',
  least: () => 'Watts go from 0 to 16,777,215.',
  greatest: () => 'Watts go from 0 to 16,777,215.',
  'count of cords': () => 'A server has 1 to 4 cords, and the hut at most 1,024.',
  node: hut => `This hut has breakers 1 to ${hut.nodes.length}.`,
  share: () => 'A share goes from 0 to 100%.',
};

const nodeName = (hut, place) => hut.nodes[place]?.name ?? place + 1;
const serverName = (hut, place) => hut.servers[place]?.name ?? place + 1;

/// The thing that a part of the table belongs to.
export function thingOf(hut, { kind, node, server, cord }) {
  if (kind === 'line' || kind === 'amperes' || kind === 'lows') return `breaker ${nodeName(hut, node)}`;
  if (kind === 'shares') return `server ${serverName(hut, server)}`;
  if (node !== undefined) return `the ${kind} of breaker ${nodeName(hut, node)}`;
  if (cord !== undefined) {
    return `the ${kind === 'node' ? 'breaker' : kind} of cord ${cord + 1} of server ${serverName(hut, server)}`;
  }
  if (server !== undefined) return `the ${kind} of server ${serverName(hut, server)}`;
  return `the ${kind.replace('nodes', 'breakers')}`;
}

/// What is known of this very refusal, beyond its meaning.
function detail(refusal, hut, figures) {
  const { number, part } = refusal;
  if (number === 5) return RANGES[part.kind]?.(hut) ?? '';
  if (number === 7) {
    const { cords } = hut.servers[part.server];
    const sum = cords.reduce((total, cord) => total + cord.share, 0);
    return `They sum to ${(100 * sum) / scaleOf(hut.version)}%.`;
  }
  if (number === 9 && figures) {
    const [lows, limit] = [figures.lowsBeneath[part.node], figures.limits[part.node]];
    return `The lows beneath it sum to ${watts(lows)}, and it carries ${watts(limit)}.`;
  }
  return '';
}

const sentence = text => (text ? text[0].toUpperCase() + text.slice(1) : text);

/// A refusal of the text: { title, says, mend }.
export function tellText(table, refusal, hut, figures) {
  const { name, means, mend } = table[refusal.number];
  const where = refusal.part ? `${sentence(thingOf(hut, refusal.part))}: ` : '';
  const more = detail(refusal, hut, figures);
  return { title: `Refused ${refusal.number}, ${name}`, says: `${where}${means}${more ? ` ${more}` : ''}`, mend };
}

/// The numbers of a sheet up to one that was refused, with the byte where each starts: a byte below 128 ends a
/// number, and each has seven bits of it, the lowest first.
function numbersOn(bytes, count) {
  const numbers = [];
  for (let at = 0; numbers.length < count && at < bytes.length;) {
    const start = at;
    let [value, place] = [0, 1];
    do {
      value += (bytes[at] % 128) * place;
      place *= 128;
      at += 1;
    } while (at < bytes.length && bytes[at - 1] >= 128);
    numbers.push({ value, start });
  }
  return numbers;
}

/// Where a sheet is refused: its place is a byte, a number or a breaker.
function sheetPlace(number, place, bytes) {
  if (number <= 3) return `Byte ${place}, counted from 0`;
  if (number === 4) return `Behind its ${counted(place, 'number')}`;
  if (number === 9) return `Breaker ${place}`;
  const numbers = numbersOn(bytes, place + 1);
  const { start, value } = numbers[place];
  if (number === 8) return `The number at byte ${start}`;
  const part = partAt(numbers.map(each => each.value), place);
  const thing = number === 7 ? `server ${part.server + 1}` : `${thingOf(NO_NAMES, part)}, ${figure(value)},`;
  return `${sentence(thing)} at byte ${start}`;
}

/// A hut whose names are not known: its things go by their numbers.
const NO_NAMES = { nodes: [], servers: [] };

/// A refusal of a sheet that was opened.
export function tellSheet(table, { number, place }, bytes) {
  const { name, means, cause, mend } = table[number];
  return { title: `Refused ${number}, ${name}`, says: `${sheetPlace(number, place, bytes)}: ${means} ${cause}`, mend };
}

/// A refusal of Plan: of the demands.
export function tellDemands(table, { number, place }, hut) {
  const { name, means, mend } = table[number];
  const where = number === 11 ? `Server ${serverName(hut, place)}: ` : '';
  const more = number === 10 ? ` The hut has ${counted(place, 'server')}.` : '';
  return { title: `Refused ${number}, ${name}`, says: `${where}${means}${more}`, mend };
}

/// Any other refusal: of the bus, of two huts, of a judgement.
export function tellPlain(table, { number, place }) {
  const { name, means, mend, place: what } = table[number];
  return { title: `Refused ${number}, ${name}`, says: `${means} Place: ${place} (${what}).`, mend };
}

/// Why a cord gets what it gets.
export function whyCord(hut, figures, cord, place) {
  const [grant, want] = [watts(figures.grants[place]), watts(figures.wants[place])];
  const holder = figures.held[place];
  if (holder > 0) {
    const { name } = hut.nodes[holder - 1];
    return `Held by ${name}. It wants ${want} and gets ${grant}: the cords beneath ${name} take all of its \
${watts(figures.limits[holder - 1])}, and those of lower ranks there have just their lows.`;
  }
  if (figures.grants[place] < figures.wants[place]) {
    const { name } = hut.servers[cord.server];
    return `Of the ${want} that it would carry it keeps the ${grant} that ${name} could use after the first deal, \
when another of its cords carried no more. The rest was freed for others.`;
  }
  return `It gets all that it wants, ${want}.`;
}
