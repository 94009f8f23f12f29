// Two huts made one, and one made two, by Join and Part. The calls work on tables, which have no names; here
// the names of the texts are put beside them again.

import { check, spanOf } from './check.js';
import { markField, numberField, onSubmit, told, wholeIn } from './forms.js';
import { hutOf, tableOf } from './hut.js';
import { offer, openFile } from './files.js';
import { escaped } from './picture.js';
import { writeText } from './text.js';
import { tellText, tellPlain, thingOf, counted } from './words.js';

/// Names in turn, where one that is taken already gets a number behind it.
function distinct(names) {
  const taken = new Set();
  return names.map(name => {
    let own = name;
    for (let number = 2; taken.has(own); number++) own = `${name}-${number}`;
    taken.add(own);
    return own;
  });
}

/// The hut of a table, with these names for its breakers and its servers.
function withNames(words, nodeNames, serverNames) {
  const hut = hutOf(words);
  const give = (entries, names) => distinct(names).forEach((name, place) => { entries[place].name = name; });
  give(hut.nodes, nodeNames);
  give(hut.servers, serverNames);
  return hut;
}

const namesOf = entries => entries.map(({ name }) => name);

/// The two huts in one: { hut }, or { refusal } of Join.
export function joined(first, second, calls) {
  const answer = calls.join(first.words, second.words);
  if (answer.number !== 0) return { refusal: answer };
  const both = list => [...namesOf(first.hut[list]), ...namesOf(second.hut[list])];
  return { hut: withNames(answer.words, both('nodes'), both('servers')) };
}

/// The hut in two: { first, second }, or { refusal } of Part.
export function parted({ hut, words }, nodes, servers, calls) {
  const answer = calls.part(words, nodes, servers);
  if (answer.number !== 0) return { refusal: answer };
  const [nodeNames, serverNames] = [namesOf(hut.nodes), namesOf(hut.servers)];
  return {
    first: withNames(answer.first, nodeNames.slice(0, nodes), serverNames.slice(0, servers)),
    second: withNames(answer.second, nodeNames.slice(nodes), serverNames.slice(servers)),
  };
}

// ---- The tool

const JOIN = `<h3>Join</h3><p class="lead">Another hut's breakers and servers come behind those of this one.</p>
  <form class="join"><label for="second">The other hut, as text</label>
    <textarea id="second" rows="7" spellcheck="false"></textarea>
    <div class="row"><button type="button" data-open-second>Open its file…</button>
      <button type="submit" class="main">Join</button></div>
    <input type="file" class="hidden" tabindex="-1" aria-label="Open the other hut"></form>
  <div class="result" id="joined" role="status"></div>`;

const partForm = ({ nodes, servers }) => `<h3>Part</h3>
  <p class="lead">The first breakers and servers, so many of each, make one hut, and the rest another.</p>
  <form class="fields part">
    ${numberField('part-nodes', 'Breakers of the first', Math.max(1, Math.floor(nodes.length / 2)))}
    ${numberField('part-servers', 'Servers of the first', Math.floor(servers.length / 2))}
    <button type="submit" class="main">Part</button></form>
  <div class="result" id="parted" role="status"></div>`;

const sizes = hut => `${counted(hut.nodes.length, 'breaker')}, ${counted(hut.servers.length, 'server')}`;

function joinNow(tool, desk) {
  const result = tool.querySelector('#joined');
  const second = check(tool.querySelector('#second').value, desk.calls);
  if (second.problems) {
    const [{ span, says }] = second.problems;
    result.innerHTML = `<p class="refusal"><b>The other text is not a hut.</b> Line ${span.line + 1}: ${escaped(says)}</p>`;
  } else if (second.refusal) {
    const { span } = second.refusal;
    const words = told(tellText(desk.table, second.refusal, second.hut, null));
    result.innerHTML = `<p>The other hut${span ? `, line ${span.line + 1}` : ''}:</p>${words}`;
  } else {
    const { hut, refusal } = joined(desk.good, second, desk.calls);
    result.innerHTML = refusal ? told(tellPlain(desk.table, refusal)) : `<p>Joined: ${sizes(hut)}.</p>`;
    if (hut) desk.replaceText(writeText(hut), `Joined: ${sizes(hut)}.`);
  }
}

/// Where a cut is crossed, in words, with its line marked in the text.
function tellCrossing(refusal, { good, table, mark }) {
  const part = tableOf(good.hut).parts[refusal.place];
  mark(spanOf(good.hut, part));
  const { title, says, mend } = tellPlain(table, refusal);
  return { title, says: `${says} It is ${thingOf(good.hut, part)}.`, mend };
}

function partNow(tool, desk) {
  const result = tool.querySelector('#parted');
  const fields = ['#part-nodes', '#part-servers'].map(id => tool.querySelector(id));
  const { first, second, refusal } = parted(desk.good, wholeIn(fields[0]), wholeIn(fields[1]), desk.calls);
  fields.forEach((field, place) => markField(field, refusal?.number === 22 && refusal.place === place));
  if (refusal) {
    result.innerHTML = told(refusal.number === 23 ? tellCrossing(refusal, desk) : tellPlain(desk.table, refusal));
    return;
  }
  result.innerHTML = partChoice('The first', first, 0) + partChoice('The second', second, 1);
  result.onclick = event => {
    const { keep, save } = event.target.dataset;
    const hut = [first, second][Number(keep ?? save)];
    if (keep !== undefined) desk.replaceText(writeText(hut), `This is the ${keep === '0' ? 'first' : 'second'} part.`);
    if (save !== undefined) offer(PART_FILES[save], desk.calls.write(tableOf(hut).words).sheet, 'application/octet-stream');
  };
}

/// The parts' sheets have names of their own, so that neither takes the other's place.
const PART_FILES = ['room-first.bin', 'room-second.bin'];

const partChoice = (name, hut, place) => `<p>${name}: ${sizes(hut)}.</p>
  <div class="row"><button type="button" data-keep="${place}">Into the text</button>
    <button type="button" data-save="${place}">Save sheet</button></div>`;

function listenToSecond(tool, desk) {
  const file = tool.querySelector('.join input[type="file"]');
  tool.querySelector('[data-open-second]').addEventListener('click', () => file.click());
  file.addEventListener('change', async () => {
    if (!file.files[0]) return;
    const { text, says, refused } = await openFile(file.files[0], desk.table, desk.calls);
    tool.querySelector('#joined').innerHTML = refused ? told(refused) : `<p>${escaped(says)}</p>`;
    if (text !== undefined) tool.querySelector('#second').value = text;
  });
}

export function hutsTool(tool, desk) {
  const { calls, good } = desk;
  tool.innerHTML = (calls.has('join') ? JOIN : '') + (calls.has('part') ? partForm(good.hut) : '');
  if (calls.has('join')) listenToSecond(tool, desk);
  tool.querySelectorAll('form').forEach(form => {
    onSubmit(form, () => (form.classList.contains('join') ? joinNow(tool, desk) : partNow(tool, desk)));
  });
}
