// The text form of a hut (docs/DESK.md): read into a hut with the place of everything that was written,
// and written from a hut.
//
// A span is { line, from, to }: a line's place and a range of its characters. A problem is { span, says }:
// the text cannot be understood there. Whether a figure is allowed is no matter of this module.

import { scaleOf, hasPercents, MOST_WORD, USUAL_PERCENT } from './hut.js';

const TOKEN = /(\d+(?:\.\d+)?)|(%)|(\p{L}[\p{L}\p{N}_.\-/]*)|(\S)/gu;

/// Lines whose words are known: a text is read at every keystroke, and all lines but one are as they were.
const known = new Map();
const MOST_KNOWN = 8192;

function wordsIn(content) {
  const found = known.get(content);
  if (found) return found;
  const made = Array.from(content.replace(/#.*/, '').matchAll(TOKEN), match => ({
    text: match[0],
    kind: match[1] ? 'number' : match[2] ? 'percent' : match[3] ? 'word' : 'other',
    from: match.index,
  }));
  if (known.size >= MOST_KNOWN) known.clear();
  known.set(content, made);
  return made;
}

/// The words of a line, up to its comment.
export const tokensOf = (content, line) => wordsIn(content)
  .map(({ text, kind, from }) => ({ text, kind, span: { line, from, to: from + text.length } }));

/// Thrown where a line cannot be understood; it becomes a problem.
class Unclear extends Error {
  constructor(span, says) {
    super(says);
    this.span = span;
  }
}

/// Takes a line's words in turn.
class Line {
  constructor(tokens, end) {
    this.tokens = tokens;
    this.end = end;
    this.at = 0;
  }

  get next() { return this.tokens[this.at]; }

  is(text) { return this.next?.text.toLowerCase() === text; }

  take() { return this.tokens[this.at++]; }

  fail(says) { throw new Unclear(this.next?.span ?? this.end, says); }

  word(text, says) {
    if (!this.is(text)) this.fail(says);
    return this.take();
  }

  name(what) {
    if (this.next?.kind !== 'word') this.fail(`The name of ${what} belongs here. A name begins with a letter.`);
    return this.take();
  }

  /// A breaker's name or its number.
  reference() {
    if (this.next?.kind === 'number') return this.whole('a breaker');
    return this.name('a breaker');
  }

  whole(what) {
    const token = this.next;
    if (token?.kind !== 'number') this.fail(`A number belongs here: ${what}.`);
    if (token.text.includes('.')) this.fail(`A whole number belongs here: ${what}.`);
    this.take();
    return { ...token, value: Math.min(Number(token.text), MOST_WORD) };
  }

  skip() { this.at = this.tokens.length; }

  done() {
    if (this.next) this.fail(`The line should have ended before “${this.next.text}”.`);
  }
}

/// The span of several words from the first to the last.
const across = (first, last) => ({ ...first.span, to: last.span.to });

// ---- Lines, by their first word

function versionLine(line, hut) {
  const version = line.whole('the version of the sheet');
  if (hut.version !== undefined) throw new Unclear(version.span, 'The version stands once.');
  hut.version = version.value;
  hut.at.version = version.span;
}

/// `breaker NAME [under BREAKER] (WATTS W | AMPERES A VOLTS V) [at PERCENT %]`
function breakerLine(line, hut, whole) {
  const name = line.name('the breaker');
  const node = { name: name.text, at: { line: whole, name: name.span } };
  if (line.is('under')) {
    line.take();
    node.under = line.reference();
    node.at.parent = node.under.span;
  }
  const figure = line.whole('the rating in watts (150 W), or amperes and volts (20 A 120 V)');
  if (line.is('a')) {
    line.take();
    node.amperes = figure;
    node.volts = line.whole('the volts');
    node.at.rating = across(figure, line.word('v', 'V belongs behind the volts.'));
  } else {
    node.rating = figure.value;
    node.at.rating = across(figure, line.word('w', 'W belongs behind a rating in watts, and A behind amperes.'));
  }
  if (line.is('at')) percentOf(line, node);
  hut.nodes.push(node);
}

function percentOf(line, node) {
  line.take();
  const percent = line.whole('the percent of the rating that the breaker may carry');
  node.percent = percent.value;
  node.at.percent = across(percent, line.word('%', '% belongs behind the percent.'));
}

/// `server NAME rank RANK from WATTS to WATTS W`
function serverLine(line, hut, whole) {
  hut.serverUnclear = true;
  const name = line.name('the server');
  line.word('rank', 'The word rank belongs here, and then its number.');
  const rank = line.whole('the rank');
  line.word('from', 'The word from belongs here, and then the least watts.');
  const least = line.whole('the least watts');
  line.word('to', 'The word to belongs here, and then the greatest watts.');
  const greatest = line.whole('the greatest watts');
  const at = { line: whole, name: name.span, rank: rank.span, least: least.span, greatest: greatest.span };
  line.word('w', 'W belongs behind the greatest watts.');
  line.done();
  hut.serverUnclear = false;
  hut.servers.push({
    name: name.text, rank: rank.value, least: least.value, greatest: greatest.value, cords: [], at,
  });
}

/// `cord SHARE % on BREAKER`
function cordLine(line, hut, whole) {
  // A server's line that is not understood is told already.
  if (hut.serverUnclear) {
    line.skip();
    return;
  }
  const server = hut.servers.at(-1);
  if (!server) throw new Unclear(whole, 'A cord stands below its server.');
  const share = line.next;
  if (share?.kind !== 'number') line.fail('The cord’s share of its server’s load belongs here, as 50%.');
  if ((share.text.split('.')[1] ?? '').length > 2) line.fail('A share has at most two decimals.');
  line.take();
  const percent = line.word('%', '% belongs behind the share.');
  line.word('on', 'The word on belongs here, and then the breaker.');
  const on = line.reference();
  server.cords.push({ hundredths: hundredthsOf(share.text), on,
    at: { line: whole, share: across(share, percent), node: on.span } });
}

const hundredthsOf = text => {
  const [whole, part = ''] = text.split('.');
  return Math.min(Number(whole) * 100 + Number(part.padEnd(2, '0')), MOST_WORD);
};

/// A line of a schedule, `PARENT AMPERES VOLTS`, is kept as it is: Schedule reads it.
function scheduleLine(hut, whole, tokens, text) {
  if (hut.nodes.length > hut.schedule.length) {
    throw new Unclear(whole, 'Lines of a schedule stand before all other breakers, since they count breakers from 1.');
  }
  const at = { line: whole, name: whole, parent: whole, rating: whole };
  hut.nodes.push({ name: `b${hut.schedule.length + 1}`, at });
  hut.schedule.push({ text: text.replace(/#.*/, '').trimEnd(), whole, spans: tokens.map(({ span }) => span) });
}

const LINES = { version: versionLine, breaker: breakerLine, server: serverLine, cord: cordLine };

function readLine(hut, text, line) {
  const tokens = tokensOf(text, line);
  if (tokens.length === 0) return;
  const whole = across(tokens[0], tokens.at(-1));
  if (tokens[0].kind === 'number') {
    scheduleLine(hut, whole, tokens, text);
    return;
  }
  const read = LINES[tokens[0].text.toLowerCase()];
  if (!read) {
    throw new Unclear(tokens[0].span,
      'A line begins with version, breaker, server or cord, or is a line of a schedule, as 0 200 240.');
  }
  const rest = new Line(tokens.slice(1), { line, from: whole.to, to: whole.to + 1 });
  read(rest, hut, whole);
  rest.done();
}

// ---- Names to numbers, and the version

function resolve(hut, problems) {
  const numbers = new Map();
  // A line that is not understood may be the one that has the name.
  const complete = problems.length === 0;
  const unique = (names, entries, what) => entries.forEach((entry, place) => {
    if (names.has(entry.name)) {
      problems.push({ span: entry.at.name, says: `Another ${what} is named ${entry.name} already.` });
    } else names.set(entry.name, place + 1);
  });
  unique(numbers, hut.nodes, 'breaker');
  unique(new Map(), hut.servers, 'server');
  const numberOf = reference => {
    if (!reference) return 0;
    if (reference.value !== undefined) return reference.value;
    if (numbers.has(reference.text)) return numbers.get(reference.text);
    if (complete) problems.push({ span: reference.span, says: `No breaker is named ${reference.text}.` });
    return 0;
  };
  for (const node of hut.nodes) node.parent = numberOf(node.under);
  for (const cord of hut.servers.flatMap(server => server.cords)) cord.node = numberOf(cord.on);
}

/// Without a line for it, the version is the lowest that has all that is written.
function versionOf(hut) {
  if (hut.version !== undefined) return hut.version;
  if (hut.servers.some(server => server.cords.some(cord => cord.hundredths % 10 !== 0))) return 3;
  return hut.nodes.some(node => node.percent !== undefined) ? 2 : 1;
}

function fitVersion(hut, problems) {
  hut.version = versionOf(hut);
  for (const node of hut.nodes) {
    if (node.percent !== undefined && !hasPercents(hut.version)) {
      const says = 'Breakers have a percent from version 2 on. In version 1 all carry 80%.';
      problems.push({ span: node.at.percent, says });
    }
    node.percent ??= USUAL_PERCENT;
  }
  const parts = 10000 / scaleOf(hut.version);
  for (const cord of hut.servers.flatMap(server => server.cords)) {
    if (cord.hundredths % parts !== 0) {
      problems.push({ span: cord.at.share, says: 'Before version 3 a share goes by tenths of a percent.' });
    }
    cord.share = Math.floor(cord.hundredths / parts);
  }
}

/// The hut that a text describes, with what is wrong with the text. A node in amperes has no rating yet,
/// and the lines of a schedule stand in `schedule`: Schedule gives their ratings.
export function readText(text) {
  const hut = { version: undefined, nodes: [], servers: [], schedule: [], at: {} };
  const problems = [];
  text.split('\n').forEach((content, line) => {
    try {
      readLine(hut, content.replace(/\r$/, ''), line);
    } catch (error) {
      if (!(error instanceof Unclear)) throw error;
      problems.push({ span: error.span, says: error.message });
    }
  });
  resolve(hut, problems);
  fitVersion(hut, problems);
  problems.sort((a, b) => a.span.line - b.span.line || a.span.from - b.span.from);
  return { hut, problems };
}

// ---- Writing

/// A share as a percentage, exactly.
export function percentText(share, version) {
  const hundredths = share * (10000 / scaleOf(version));
  return `${String(hundredths / 100)}%`;
}

/// The text of a hut, which reads back as the same hut.
export function writeText(hut) {
  const nameOf = number => hut.nodes[number - 1].name;
  const lines = [`version ${hut.version}`, ''];
  for (const node of hut.nodes) {
    const under = node.parent > 0 ? ` under ${nameOf(node.parent)}` : '';
    const at = hasPercents(hut.version) ? ` at ${node.percent}%` : '';
    lines.push(`breaker ${node.name}${under} ${node.rating} W${at}`);
  }
  for (const server of hut.servers) {
    lines.push('', `server ${server.name} rank ${server.rank} from ${server.least} to ${server.greatest} W`);
    for (const cord of server.cords) {
      lines.push(`  cord ${percentText(cord.share, hut.version)} on ${nameOf(cord.node)}`);
    }
  }
  return `${lines.join('\n')}\n`;
}
