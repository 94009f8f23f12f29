// The tables beside the picture, and on paper: servers with their demands, and cords.

import { cordState, escaped } from './picture.js';
import { markField } from './forms.js';
import { figure, watts } from './words.js';
import { percentText } from './text.js';

const row = cells => `<div role="row" class="tr">${cells.join('')}</div>`;
const cell = (kind, content) => `<span role="cell" class="td ${kind}">${content}</span>`;
const heading = ([kind, content]) => `<span role="columnheader" class="th ${kind}">${content}</span>`;

// ---- Servers

/// A server's row: its name and rank, its demand by slider and number, its cap.
function serverRow(server, place) {
  const name = escaped(server.name);
  const { rank, least, greatest } = server;
  const fixed = least === greatest ? ' disabled' : '';
  return row([
    cell('who', `<b>${name}</b><small>rank ${rank} · ${figure(least)}–${figure(greatest)}</small>`),
    cell('slide', `<input type="range" min="${least}" max="${greatest}" data-slide="${place}"${fixed}
      aria-label="Demand of ${name}, by slider">`),
    cell('ask', `<input type="number" min="0" max="16777215" step="1" data-ask="${place}"
      aria-label="Demand of ${name}, in watts">`),
    cell('cap', `<output data-cap="${place}"></output>`),
  ]);
}

const NO_SERVERS = `<p class="empty">This hut has no servers yet. Write one in the text, as
  <code>server web rank 1 from 100 to 400 W</code>, and below it its cords.</p>`;

const ALL_AT_ONCE = `<div class="all" role="group" aria-label="All demands at once"><span>All ask for</span>
    <button type="button" data-all="0">least</button><button type="button" data-all="0.5">half</button>
    <button type="button" data-all="1">greatest</button><button type="button" data-paste>Paste…</button></div>
  <form class="paste" hidden><label for="pasted">Demands, one a line, in the order of the servers</label>
    <textarea id="pasted" rows="5" spellcheck="false"></textarea><div class="told" role="status"></div>
    <div class="row"><button type="submit" class="main">Take them</button>
    <button type="button" data-cancel>Cancel</button></div></form>
  <div class="told" id="demands-told" role="status"></div>`;

const SERVER_COLUMNS = [['who', 'Server'], ['slide', 'Demand'], ['ask', 'W'], ['cap', 'Cap, W']];

export function serversHtml({ servers }) {
  if (servers.length === 0) return NO_SERVERS;
  const rows = row(SERVER_COLUMNS.map(heading)) + servers.map(serverRow).join('');
  return `${ALL_AT_ONCE}<div class="table servers" role="table" aria-label="Servers">${rows}</div>`;
}

/// Makes the rows anew of those servers alone that are not as before. Gives false where their number is another.
export function renewServers(tool, before, hut) {
  const rows = tool.querySelectorAll('.servers .tr');
  if (!before || rows.length !== hut.servers.length + 1) return false;
  const key = ({ name, rank, least, greatest }) => [name, rank, least, greatest].join(' ');
  hut.servers.forEach((server, place) => {
    if (key(server) !== key(before.servers[place])) rows[place + 1].outerHTML = serverRow(server, place);
  });
  return true;
}

/// Puts demands and caps into the servers' rows; without figures, where the demands are refused, `wrong` is the
/// server whose demand it is. The field that has the focus is left to who types in it.
export function fillServers(tool, demands, { figures, wrong }) {
  const each = (kind, put) => tool.querySelectorAll(`[data-${kind}]`)
    .forEach(element => put(element, Number(element.dataset[kind])));
  const setDemand = (element, place) => { if (element !== document.activeElement) element.value = demands[place]; };
  each('slide', setDemand);
  each('ask', (element, place) => {
    setDemand(element, place);
    markField(element, place === wrong);
  });
  each('cap', (element, place) => {
    const [cap, need] = [figures?.caps[place], figures?.needs[place]];
    const short = cap < need;
    element.textContent = cap === undefined ? '' : `${short ? '◆ ' : ''}${figure(cap)}`;
    element.className = short ? 'short' : '';
    element.title = short ? `${watts(need - cap)} less than it needs` : '';
  });
}

// ---- Cords

const CORD_COLUMNS = [['who', 'Cord'], ['n', 'Low'], ['n', 'Want'], ['n', 'Grant'], ['n', 'Head&shy;room'], ['by', 'Held by']];

/// Why a cord gets less than it wants, in a word or two.
function heldNote(hut, figures, place) {
  const state = cordState(figures, place);
  if (state === 'held') return `◆ ${escaped(hut.nodes[figures.held[place] - 1].name)}`;
  return state === 'stranded' ? 'rest freed' : '';
}

function cordCells(hut, figures, cord, place) {
  const state = cordState(figures, place);
  const name = escaped(hut.servers[cord.server].name);
  const choose = `<button type="button" class="plain" data-cord="${place}">${name} ${cord.cord + 1}</button>`;
  const hangs = `${percentText(cord.share, hut.version)} on ${escaped(hut.nodes[cord.node - 1].name)}`;
  return row([
    cell('who', `${choose}<small>${hangs}</small>`),
    cell('n', figure(figures.lows[place])),
    cell('n', figure(figures.wants[place])),
    cell(`n grant ${state}`, figure(figures.grants[place])),
    cell('n', figure(figures.headroom[place])),
    cell(`by ${state}`, heldNote(hut, figures, place)),
  ]);
}

export function cordsHtml(hut, cords, figures) {
  if (cords.length === 0) return '<p class="empty">No server has a cord yet.</p>';
  const rows = row(CORD_COLUMNS.map(heading)) + cords.map((cord, place) => cordCells(hut, figures, cord, place)).join('');
  return `<div class="table cords" role="table" aria-label="Cords">${rows}</div>`;
}

// ---- Paper

/// A table of columns [kind, name], kind n for figures.
function paperTable(columns, lines) {
  const line = (tag, list) => {
    const cells = list.map((each, place) => `<${tag} class="${columns[place][0]}">${each}</${tag}>`);
    return `<tr>${cells.join('')}</tr>`;
  };
  const head = line('th', columns.map(([, name]) => name));
  return `<table><thead>${head}</thead><tbody>${lines.map(list => line('td', list)).join('')}</tbody></table>`;
}

const PAPER_SERVERS = [['', 'Server'], ['n', 'Rank'], ['n', 'Range, W'], ['n', 'Demand, W'], ['n', 'Cap, W']];
const PAPER_CORDS = [['', 'Cord'], ['', 'Breaker'], ['n', 'Share'], ['n', 'Grant, W'], ['n', 'Headroom, W'], ['', 'Held by']];

/// The tables on paper.
export function doorTables(hut, cords, figures) {
  const servers = hut.servers.map(({ name, rank, least, greatest }, place) => [
    escaped(name), rank, `${figure(least)} to ${figure(greatest)}`, figure(figures.demands[place]),
    `<b>${figure(figures.caps[place])}</b>`,
  ]);
  const lines = cords.map((cord, place) => [
    `${escaped(hut.servers[cord.server].name)}, cord ${cord.cord + 1}`, escaped(hut.nodes[cord.node - 1].name),
    percentText(cord.share, hut.version), `<b>${figure(figures.grants[place])}</b>`, figure(figures.headroom[place]),
    heldNote(hut, figures, place),
  ]);
  return paperTable(PAPER_SERVERS, servers) + paperTable(PAPER_CORDS, lines);
}
