// The page: what is typed is checked and planned at every change, and shown.

import { load } from './calls.js';
import { check, readsBack } from './check.js';
import { cordsOf } from './hut.js';
import { Editor } from './editor.js';
import { fixedFigures, planFigures } from './figures.js';
import { openFile, offer } from './files.js';
import { told, wholeIn } from './forms.js';
import { hutsTool } from './huts.js';
import { judgeTool } from './judging.js';
import { escaped } from './picture.js';
import { PicturePane, wholePicture, sceneOf } from './picture-pane.js';
import { demandsOf } from './print.js';
import { store } from './store.js';
import { serversHtml, renewServers, fillServers, cordsHtml, doorTables } from './tables.js';
import { printTool, tryTool, busTool } from './tools.js';
import { tellText, tellDemands, whyCord, watts, counted } from './words.js';

const $ = id => document.getElementById(id);
const table = Object.fromEntries(REFUSAL_TABLE.map(each => [each.number, each]));

/// All that the page knows. `result` is of the text as it stands and `accepted` of the last text that was
/// accepted; `good` and `figures` are the hut and the plan that are shown, the last that Plan accepted.
const desk = {
  table, calls: null, demands: new Map(), result: null, accepted: null, good: null, figures: null, selected: null,
  tab: 'servers',
};
const view = { folded: new Set(), search: '', onlyHeld: false };

// ---- Notices

/// A line below the header, with something that can be done about it.
function notice(says, action = null) {
  const line = $('notice');
  line.replaceChildren();
  line.hidden = !says;
  if (!says) return;
  line.className = `notice${says.title ? ' bad' : ''}`;
  const words = document.createElement('span');
  words.innerHTML = says.title
    ? `<b>${escaped(says.title)}.</b> ${escaped(says.says)} ${escaped(says.mend)} Your text is as it was.` : escaped(says);
  line.append(words);
  const button = (label, act) => {
    const made = document.createElement('button');
    made.type = 'button';
    made.textContent = label;
    made.addEventListener('click', act);
    line.append(made);
  };
  if (action) button(action.label, action.act);
  button('Dismiss', () => notice(null));
}

// ---- The text and its verdict

const verdict = $('verdict');

/// How many of a text's problems are told at once.
const MOST_TOLD = 5;

function tell(kind, title, html) {
  verdict.className = `verdict ${kind}`;
  verdict.innerHTML = `<p class="title">${escaped(title)}</p>${html}`;
}

/// A button that goes to the mark of this place.
const goTo = (span, place) => `<button type="button" class="plain" data-problem="${place}">Line ${span.line + 1}</button>`;

function tellProblems(problems) {
  const items = problems.slice(0, MOST_TOLD).map(({ span, says }, place) => `<li>${goTo(span, place)} ${escaped(says)}</li>`);
  const more = problems.length > MOST_TOLD ? `<li>and ${problems.length - MOST_TOLD} more</li>` : '';
  tell('bad', 'The text is not a hut yet', `<ul>${items.join('')}${more}</ul>`);
}

function tellRefusal(refusal, hut) {
  const figures = refusal.number === 9 ? fixedFigures(hut, desk.calls) : null;
  const { title, says, mend } = tellText(table, refusal, hut, figures);
  const where = refusal.span ? `${goTo(refusal.span, 0)} ` : '';
  tell('bad', title, `<p>${where}${escaped(says)}</p><p class="mend">${escaped(mend)}</p>`);
}

function tellAccepted({ hut, sheet }) {
  const counts = [[hut.nodes.length, 'breaker'], [hut.servers.length, 'server'], [cordsOf(hut).length, 'cord']];
  const parts = counts.map(([count, name]) => counted(count, name)).join(', ');
  tell('good', 'Accepted', `<p>${parts}; version ${hut.version}, ${counted(sheet.length, 'byte')}</p>`);
}

function tellNothing() {
  tell('', 'Nothing is written yet', `<p>Begin with a breaker, as <code>breaker main 1500 W</code>, paste a schedule,
    or take a sample.</p>`);
}

function marksOf({ problems, refusal }) {
  if (problems) return problems.map(({ span }) => span);
  return refusal?.span ? [refusal.span, ...(refusal.also ?? [])] : [];
}

/// Checks the text as it stands, and shows what it comes to.
function textChanged() {
  const text = $('text').value;
  const result = check(text, desk.calls);
  desk.result = result;
  if (text.trim() === '') tellNothing();
  else if (result.problems) tellProblems(result.problems);
  else if (result.refusal) tellRefusal(result.refusal, result.hut);
  else accept(result);
  editor.refresh(marksOf(result));
  showStale();
  $('save-sheet').disabled = !result.sheet;
  document.title = `${titleOf(text) ?? 'A hut'} · hutplan desk`;
  keep();
}

/// A hut is called by the comment that its text begins with.
const titleOf = text => text.match(/^\s*#\s*(.+)/)?.[1];

/// Has the browser keep what was typed, and says so where it does not.
function keep() {
  const kept = store.save($('text').value, desk.demands);
  $('kept').textContent = kept ? 'What you type is kept in this browser, on this machine alone.'
    : 'This browser does not keep what you type: save the text before you leave.';
}

/// Whether the picture shows the text as it stands.
const upToDate = () => desk.good !== null && desk.result.hut === desk.good.hut && !desk.refusedDemands;

function showStale() {
  $('stale').hidden = !desk.good || upToDate();
  $('stale').textContent = desk.result.sheet ? 'The picture shows the last plan. The demands are refused now.'
    : 'The picture shows the text as it was when it was last accepted.';
  $('picture').classList.toggle('old', !upToDate());
}

/// A text that was accepted: its hut is shown and planned.
function accept(result) {
  tellAccepted(result);
  const first = !desk.accepted;
  desk.accepted = { ...result, cords: cordsOf(result.hut), fixed: fixedFigures(result.hut, desk.calls) };
  replan(first);
}

// ---- The plan

const demandOf = server => desk.demands.get(server.name) ?? server.greatest;

/// Plans the hut with the demands as they stand, and shows the plan.
function replan(fresh = false) {
  const { hut, words, fixed } = desk.accepted;
  const figures = planFigures(hut, words, hut.servers.map(demandOf), fixed, desk.calls);
  desk.refusedDemands = figures.number === 0 ? null : figures;
  if (!desk.refusedDemands) {
    desk.good = desk.accepted;
    desk.figures = figures;
    picture.show(sceneOf(hut, desk.good.cords, figures));
    totals();
    why();
  }
  showStale();
  showTool(fresh);
}

function totals() {
  const { figures, good } = desk;
  const sum = list => list.reduce((total, each) => total + each, 0);
  const roots = good.hut.nodes.map((node, place) => (node.parent === 0 ? figures.limits[place] : 0));
  const held = figures.held.filter(node => node > 0).length;
  const entries = [['Limit', watts(sum(roots))], ['Granted', watts(sum(figures.grants))],
    ['Lent', watts(sum(figures.headroom))], ['Freed', watts(figures.freed)]];
  const [kind, sign] = held > 0 ? ['held', '◆ '] : ['', ''];
  $('totals').innerHTML = `${factsHtml(entries)}<div class="${kind}"><dt>Held</dt><dd>${sign}${counted(held, 'cord')}</dd></div>`;
}

const factsHtml = facts => facts.map(([name, value]) => `<div><dt>${name}</dt><dd>${value}</dd></div>`).join('');

// ---- What is chosen

/// How many servers are listed of those that a breaker holds.
const MOST_NAMES = 8;

function whyNode(place) {
  const { figures, good } = desk;
  const { name, rating, percent } = good.hut.nodes[place];
  const held = figures.held.flatMap((node, cord) => (node === place + 1 ? [good.cords[cord]] : []));
  const [limit, granted, lent] = [figures.limits[place], figures.grantsBeneath[place], figures.headroomBeneath[place]];
  const facts = [['Rating', `${watts(rating)} at ${percent}%`], ['Limit', watts(limit)],
    ['Lows beneath', watts(figures.lowsBeneath[place])], ['Granted', watts(granted)], ['Lent', watts(lent)]];
  const names = [...new Set(held.map(cord => good.hut.servers[cord.server].name))];
  const listed = `${names.slice(0, MOST_NAMES).join(', ')}${names.length > MOST_NAMES ? ' …' : ''}`;
  const says = held.length > 0 ? `Full. It holds ${counted(held.length, 'cord')}: ${listed}.`
    : `It holds no cord. ${watts(limit - granted - lent)} of its limit are neither granted nor lent.`;
  return { title: `Breaker ${name}`, facts, says };
}

function whyThisCord(place) {
  const { figures, good } = desk;
  const cord = good.cords[place];
  const server = good.hut.servers[cord.server];
  const facts = [['Low', watts(figures.lows[place])], ['Wants', watts(figures.wants[place])],
    ['Grant', watts(figures.grants[place])], ['Headroom', watts(figures.headroom[place])],
    ['Rank', String(server.rank)], ['Cap', watts(figures.caps[cord.server])]];
  const title = `Cord ${cord.cord + 1} of ${server.name}, on ${good.hut.nodes[cord.node - 1].name}`;
  return { title, facts, says: whyCord(good.hut, figures, cord, place) };
}

function why() {
  const { selected, good } = desk;
  const list = selected?.kind === 'node' ? good?.hut.nodes : good?.cords;
  if (!selected || !list?.[selected.place]) {
    $('why').innerHTML = '<p class="empty">Choose a breaker or a cord to see why it gets what it gets.</p>';
    return;
  }
  const { title, facts, says } = selected.kind === 'node' ? whyNode(selected.place) : whyThisCord(selected.place);
  $('why').innerHTML = `<h3>${escaped(title)}</h3><dl>${factsHtml(facts)}</dl><p>${escaped(says)}</p>`;
}

/// The span in the text of what is chosen in the picture.
function lineOf({ kind, place }) {
  if (!upToDate()) return null;
  const { hut, cords } = desk.good;
  if (kind === 'node') return hut.nodes[place].at.line;
  return hut.servers[cords[place].server].cords[cords[place].cord].at.line;
}

function chosen(what, by) {
  desk.selected = what;
  why();
  const span = lineOf(what);
  if (!span) return;
  editor.light(span.line);
  editor.reveal(span.line);
  if (by === 'enter') editor.choose(span);
}

/// Chooses a breaker or cord from elsewhere than the picture.
function select(what) {
  picture.select(what);
  chosen(what);
}

/// Lights a span's line in the text, as of a word that a tool's refusal means.
function mark(span) {
  if (!span || !upToDate()) return;
  editor.refresh([span]);
  editor.reveal(span.line);
}

/// The row of the picture that the caret's line describes.
function caretMoved() {
  if (!upToDate()) return;
  const line = editor.caretLine;
  const { hut, cords } = desk.good;
  const node = hut.nodes.findIndex(each => each.at.line.line === line);
  const cord = cords.findIndex(each => each.at.line.line === line);
  const what = node >= 0 ? { kind: 'node', place: node } : cord >= 0 ? { kind: 'cord', place: cord } : null;
  editor.light(line);
  if (!what) return;
  desk.selected = what;
  picture.select(what);
  why();
}

// ---- Tables and trials

const TOOLS = [
  { id: 'servers', name: 'Servers', show: serversTool },
  { id: 'cords', name: 'Cords', show: cordsTool },
  { id: 'plan', name: 'Plan text', show: printTool },
  { id: 'try', name: 'Try', show: tryTool, keeps: true },
  { id: 'bus', name: 'Bus', show: busTool, keeps: true, needs: ['send'] },
  { id: 'huts', name: 'Two huts', show: hutsTool, keeps: true, needs: ['join', 'part'] },
  { id: 'judge', name: 'Judge', show: judgeTool, keeps: true, needs: ['judge'] },
];

/// A tool is on the page where a call that it needs is in the build.
const toolsHere = () => TOOLS.filter(({ needs }) => !needs || needs.some(name => desk.calls.has(name)));

function makeTabs() {
  $('tabs').innerHTML = toolsHere().map(({ id, name }) =>
    `<button type="button" role="tab" id="tab-${id}" data-tab="${id}" aria-controls="tool">${name}</button>`).join('');
  $('tabs').addEventListener('click', event => event.target.dataset.tab && chooseTab(event.target.dataset.tab));
  $('tabs').addEventListener('keydown', event => {
    const step = { ArrowRight: 1, ArrowLeft: -1 }[event.key];
    if (!step) return;
    const all = toolsHere().map(({ id }) => id);
    const next = all[(all.indexOf(desk.tab) + step + all.length) % all.length];
    chooseTab(next);
    $(`tab-${next}`).focus();
  });
}

function chooseTab(id) {
  desk.tab = id;
  showTool(true);
}

/// Shows the chosen tool. A tool that keeps what was put into it is made anew only if `fresh`.
function showTool(fresh) {
  const chosenTool = toolsHere().find(({ id }) => id === desk.tab);
  for (const { id } of toolsHere()) {
    $(`tab-${id}`).setAttribute('aria-selected', String(id === desk.tab));
    $(`tab-${id}`).tabIndex = id === desk.tab ? 0 : -1;
  }
  const tool = $('tool');
  tool.setAttribute('role', 'tabpanel');
  tool.setAttribute('aria-labelledby', `tab-${desk.tab}`);
  const ready = desk.tab === 'servers' ? desk.accepted : desk.good;
  if (!ready) tool.innerHTML = '<p class="empty">Here the hut’s tables appear once it is accepted.</p>';
  else if (fresh || !chosenTool.keeps) chosenTool.show(tool, desk, fresh);
}

function serversTool(tool, _, fresh) {
  const { hut } = desk.accepted;
  if (fresh || !renewServers(tool, desk.listed, hut)) tool.innerHTML = serversHtml(hut);
  desk.listed = hut;
  const refused = desk.refusedDemands;
  fillServers(tool, hut.servers.map(demandOf), refused ? { wrong: refused.place } : { figures: desk.figures });
  const line = $('demands-told');
  if (!line) return;
  line.innerHTML = refused ? told(tellDemands(table, refused, hut)) : '';
}

function cordsTool(tool) {
  tool.innerHTML = cordsHtml(desk.good.hut, desk.good.cords, desk.figures);
}

function setDemand(place, value) {
  desk.demands.set(desk.accepted.hut.servers[place].name, value);
  replan();
  keep();
}

/// All servers ask for the same part of the way from least to greatest.
function setAll(part) {
  for (const { name, least, greatest } of desk.accepted.hut.servers) {
    desk.demands.set(name, Math.round(least + part * (greatest - least)));
  }
  replan();
  keep();
}

/// Pasted demands are judged by Plan before they are taken.
function takePasted(form) {
  const { hut, words, cords } = desk.accepted;
  const demands = demandsOf(form.querySelector('textarea').value);
  const answer = desk.calls.plan(words, demands, cords.length);
  if (answer.number !== 0) {
    form.querySelector('.told').innerHTML = told(tellDemands(table, answer, hut));
    return;
  }
  hut.servers.forEach(({ name }, place) => desk.demands.set(name, demands[place]));
  form.hidden = true;
  replan();
  keep();
}

function listenToTool() {
  const tool = $('tool');
  tool.addEventListener('input', event => {
    const { slide, ask } = event.target.dataset;
    if (slide === undefined && ask === undefined) return;
    setDemand(Number(slide ?? ask), wholeIn(event.target));
  });
  tool.addEventListener('click', event => {
    const { all, paste, cancel, cord } = event.target.dataset;
    if (cord !== undefined) select({ kind: 'cord', place: Number(cord) });
    const form = tool.querySelector('.paste');
    if (all !== undefined) setAll(Number(all));
    if (paste !== undefined) {
      form.hidden = false;
      form.querySelector('textarea').focus();
    }
    if (cancel !== undefined) form.hidden = true;
  });
  tool.addEventListener('submit', event => {
    if (!event.target.classList.contains('paste')) return;
    event.preventDefault();
    takePasted(event.target);
  });
}

// ---- Files

/// Puts another text in place of what was typed, which can be brought back.
function replaceText(text, says) {
  const before = $('text').value;
  const put = next => {
    $('text').value = next;
    desk.selected = null;
    picture.select(null);
    editor.light(-1);
    textChanged();
  };
  put(text);
  if (before.trim() === '' || before === text) notice(says);
  else notice(says, { label: 'Bring back what was there', act: () => { put(before); notice('Your text is back.'); } });
}

async function open(file) {
  const result = await openFile(file, table, desk.calls);
  if (result.refused) notice({ ...result.refused, title: `${file.name}: ${result.refused.title}` });
  else if (result.text === undefined) notice(result.says);
  else replaceText(result.text, result.says);
}

function saveSheet() {
  const { sheet, words } = desk.result;
  if (!sheet) return;
  if (!readsBack(sheet, words, desk.calls)) {
    const says = 'The sheet did not read back as the hut that was written.';
    notice({ title: 'Not saved', says, mend: 'Reload the page and try again.' });
    return;
  }
  offer('room.bin', sheet, 'application/octet-stream');
  notice(`Saved room.bin, ${counted(sheet.length, 'byte')}; Read gives back the same hut.`);
}

/// Ctrl and S saves the sheet, or the text where there is none; Ctrl and O opens a file.
function shortcut(event) {
  if (!(event.ctrlKey || event.metaKey) || event.altKey || event.shiftKey) return;
  const acts = { s: () => (desk.result.sheet ? saveSheet() : saveText()), o: () => $('file').click() };
  if (!acts[event.key]) return;
  event.preventDefault();
  acts[event.key]();
}

function saveText() {
  offer('hut.txt', $('text').value, 'text/plain;charset=utf-8');
  notice('Saved hut.txt.');
}

function listenToFiles() {
  $('open').addEventListener('click', () => $('file').click());
  $('file').addEventListener('change', () => {
    const [file] = $('file').files;
    if (file) open(file);
    $('file').value = '';
  });
  $('save-sheet').addEventListener('click', saveSheet);
  $('save-text').addEventListener('click', saveText);
  $('print').addEventListener('click', () => window.print());
  addEventListener('keydown', shortcut);
  addEventListener('dragover', event => {
    event.preventDefault();
    $('dropping').hidden = false;
  });
  addEventListener('dragleave', event => { if (!event.relatedTarget) $('dropping').hidden = true; });
  addEventListener('drop', event => {
    event.preventDefault();
    $('dropping').hidden = true;
    const [file] = event.dataTransfer.files;
    const text = event.dataTransfer.getData('text');
    if (file) open(file);
    else if (text) replaceText(text, 'Took the text that was dropped.');
  });
}

// ---- Paper

const DOOR_WIDTH = 720;

/// The sheet for the hut's door.
function makeDoor() {
  if (!desk.figures) return;
  const { hut, cords } = desk.good;
  const date = new Date().toLocaleDateString('en-GB', { year: 'numeric', month: 'long', day: 'numeric' });
  $('door').innerHTML = `<h1>${escaped(titleOf($('text').value) ?? 'Hut')}</h1>
    <p>${date}. Planned for the demands below; ${watts(desk.figures.freed)} were freed by the first deal and dealt again.
    A bar is a breaker's limit; what is granted is full, what is lent is hatched, a stroke marks the lows, and a dashed
    frame what is wanted beyond the grant. ◆ is a cord that is held, and a half circle one whose server could use no more
    than this by its other cords, so that the rest was freed.</p>
    ${wholePicture(sceneOf(hut, cords, desk.figures), DOOR_WIDTH)}${doorTables(hut, cords, desk.figures)}`;
}

// ---- The rest of the page

function listenToPage() {
  $('text').addEventListener('input', textChanged);
  document.addEventListener('selectionchange', () => { if (document.activeElement === $('text')) caretMoved(); });
  verdict.addEventListener('click', event => {
    const { problem } = event.target.dataset;
    if (problem !== undefined) editor.choose(marksOf(desk.result)[Number(problem)]);
  });
  $('search').addEventListener('input', () => { view.search = $('search').value; picture.layOut(); });
  $('only-held').addEventListener('change', () => { view.onlyHeld = $('only-held').checked; picture.layOut(); });
  $('fold').addEventListener('click', () => {
    const fold = view.folded.size === 0;
    view.folded = new Set(fold ? desk.good?.hut.nodes.map(({ name }) => name) : []);
    $('fold').textContent = fold ? 'Unfold all' : 'Fold all';
    picture.layOut();
  });
  $('forget').addEventListener('click', () => {
    store.forget();
    notice('Forgotten. What you see is kept again at the next change.');
  });
  document.querySelectorAll('[data-pane]').forEach(button => {
    button.addEventListener('click', () => showPane(button.dataset.pane));
  });
  addEventListener('beforeprint', makeDoor);
}

/// On a narrow screen one pane is seen at a time.
function showPane(id) {
  document.querySelectorAll('.pane').forEach(pane => pane.classList.toggle('front', pane.id === id));
  document.querySelectorAll('[data-pane]').forEach(button => {
    button.setAttribute('aria-pressed', String(button.dataset.pane === id));
  });
  picture.layOut();
}

function listenToTheme() {
  const dark = matchMedia('(prefers-color-scheme: dark)');
  const set = on => {
    document.documentElement.dataset.theme = on ? 'dark' : 'light';
    $('theme').setAttribute('aria-pressed', String(on));
  };
  set(dark.matches);
  dark.addEventListener('change', () => set(dark.matches));
  $('theme').addEventListener('click', () => set(document.documentElement.dataset.theme !== 'dark'));
}

function fillSamples() {
  $('sample').append(...Object.keys(SAMPLE_HUTS).map(name => new Option(name, name)));
  $('sample').addEventListener('change', () => {
    const name = $('sample').value;
    $('sample').value = '';
    if (name) replaceText(SAMPLE_HUTS[name], `Took the sample ${name.split(':')[0]}.`);
  });
}

const editor = new Editor({ area: $('text'), paint: $('paint'), lines: $('lines') });
const picture = new PicturePane($('picture'), view, chosen);

/// Which release of the calls the page has in it, as they tell.
function showRelease() {
  if (!desk.calls.has('release')) return;
  const { release, version } = desk.calls.release();
  $('release').textContent = `release ${release}`;
  $('release').title = `Release ${release} of hutplan, which reads sheets up to version ${version}`;
  $('release').hidden = false;
}

async function start() {
  Object.assign(desk, { notice, replaceText, select, mark, text: () => $('text').value });
  desk.calls = await load(Uint8Array.from(atob(MODULE), letter => letter.charCodeAt(0)));
  showRelease();
  const kept = store.load();
  $('text').value = kept?.text ?? Object.values(SAMPLE_HUTS)[0];
  desk.demands = kept?.demands ?? new Map();
  listenToTheme();
  makeTabs();
  listenToTool();
  listenToFiles();
  listenToPage();
  fillSamples();
  showPane('text-pane');
  textChanged();
  why();
  document.documentElement.dataset.ready = 'yes';
}

start().catch(() => notice({
  title: 'This browser cannot run the page',
  says: 'It has no WebAssembly, or does not allow it here.',
  mend: 'Use a browser of the last few years.',
}));
