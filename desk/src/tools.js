// The smaller tools beside the picture, one a tab: each makes its part of the page, and answers by the proved
// calls.

import { fixedFigures } from './figures.js';
import { markField, numberField, onSubmit, told, wholeIn } from './forms.js';
import { tableOf } from './hut.js';
import { escaped } from './picture.js';
import { printOf } from './print.js';
import { howMany } from './tries.js';
import { tellText, tellPlain, counted } from './words.js';

// ---- The print of hutplan

export function printTool(tool, { good, figures, notice }) {
  const print = printOf(good.hut, figures);
  tool.innerHTML = `<p class="lead">What the program <code>hutplan</code> prints for this sheet and these demands,
      byte for byte.</p>
    <div class="row"><button type="button" class="main" data-copy>Copy</button></div>
    <pre class="print" tabindex="0" aria-label="Print of hutplan">${escaped(print)}</pre>`;
  tool.querySelector('[data-copy]').addEventListener('click', async () => {
    try {
      await navigator.clipboard.writeText(print);
    } catch {
      // A page from disk may be denied the clipboard; the older way asks nobody.
      getSelection().selectAllChildren(tool.querySelector('pre'));
      document.execCommand('copy');
    }
    notice('Copied the plan.');
  });
}

// ---- Trying a change

/// What the next server would meet, in a sentence.
function stopSentence({ held, refusal, larger }, { good, table, calls }) {
  if (held) {
    const server = larger.servers[held.cord.server].name;
    return `With one more, cord ${held.cord.cord + 1} of ${server} is held by ${good.hut.nodes[held.holder - 1].name}.`;
  }
  const { number, place } = refusal;
  const part = number === 9 ? { kind: 'lows', node: place - 1 } : tableOf(larger).parts[place];
  const figures = number === 9 ? fixedFigures(larger, calls) : null;
  const { says } = number <= 9 ? tellText(table, { ...refusal, part }, larger, figures) : tellPlain(table, refusal);
  return `With one more the hut is refused (${number}, ${table[number].name}). ${says}`;
}

/// The form: a breaker, the one that is chosen in the picture, and a kind of server, that of the last one.
function tryForm({ good, selected }) {
  const { nodes, servers } = good.hut;
  const { rank, least, greatest } = servers.at(-1) ?? { rank: 1, least: 100, greatest: 400 };
  const chosen = selected?.kind === 'node' ? selected.place : 0;
  const options = nodes.map(({ name }, place) =>
    `<option value="${place + 1}"${place === chosen ? ' selected' : ''}>${escaped(name)}</option>`);
  const fields = [['rank', 'Rank', rank], ['least', 'Least, W', least], ['greatest', 'Greatest, W', greatest],
    ['demand', 'Demand, W', greatest]];
  return `<p class="lead">How many more servers of a kind could hang on a breaker, with one cord each, before one is
      refused or a cord is held that is not held now.</p>
    <form class="fields"><label for="try-node">Breaker</label><select id="try-node">${options.join('')}</select>
      ${fields.map(([id, label, value]) => numberField(`try-${id}`, label, value)).join('')}
      <button type="submit" class="main">Try</button></form>
    <div class="result" role="status" aria-live="polite"></div>`;
}

export function tryTool(tool, desk) {
  tool.innerHTML = tryForm(desk);
  let asked = 0;
  onSubmit(tool.querySelector('form'), async () => {
    asked += 1;
    const mine = asked;
    const value = id => wholeIn(tool.querySelector(`#try-${id}`));
    const kind = { rank: value('rank'), least: value('least'), greatest: value('greatest'), demand: value('demand') };
    const { hut } = desk.good;
    const node = value('node');
    const result = tool.querySelector('.result');
    result.textContent = 'Trying…';
    const base = { hut, demands: desk.figures.demands, heldBefore: desk.figures.held };
    const outcome = await howMany(base, node, kind, desk.calls, () => mine !== asked || !result.isConnected);
    if (outcome) showTried(result, outcome, hut.nodes[node - 1].name, kind, desk);
  });
}

function showTried(result, { fit, stop }, breaker, kind, desk) {
  const add = fit > 0 ? '<p><button type="button" data-add>Add one to the text</button></p>' : '';
  result.innerHTML = `<p class="answer"><b>${counted(fit, 'more server')}</b> on ${escaped(breaker)}</p>
    <p>${escaped(stopSentence(stop, desk))}</p>${add}`;
  result.querySelector('[data-add]')?.addEventListener('click', () => addServer(desk, breaker, kind));
}

/// Adds a server of a kind, with one cord, to the text.
function addServer({ good, text, replaceText }, breaker, { rank, least, greatest }) {
  const taken = new Set(good.hut.servers.map(server => server.name));
  let number = 1;
  while (taken.has(`new-${number}`)) number += 1;
  const lines = `server new-${number} rank ${rank} from ${least} to ${greatest} W\n  cord 100% on ${breaker}\n`;
  replaceText(`${text().trimEnd()}\n\n${lines}`, `Added new-${number}.`);
}

// ---- Caps over a slow bus

const BUS = `<p class="lead">Whose cap goes over a bus that carries a few messages a period. Servers take turns, and the
    position says who is next.</p>
  <form class="fields">${numberField('bus-m', 'Messages a period', 2)}
    ${numberField('bus-position', 'Position, from 0', 0)}<button type="submit" class="main">Next period</button></form>
  <ol class="result periods" role="status" aria-live="polite"></ol>`;

export function busTool(tool, desk) {
  tool.innerHTML = BUS;
  onSubmit(tool.querySelector('form'), () => {
    const { servers } = desk.good.hut;
    const [position, messages] = ['#bus-position', '#bus-m'].map(id => tool.querySelector(id));
    const answer = desk.calls.send(servers.length, wholeIn(position), wholeIn(messages));
    markField(messages, answer.number === 27);
    markField(position, answer.number === 28);
    const item = document.createElement('li');
    if (answer.number !== 0) item.innerHTML = told(tellPlain(desk.table, answer));
    else {
      item.textContent = answer.named.map(place => servers[place].name).join(', ');
      position.value = answer.position;
    }
    tool.querySelector('ol').append(item);
    item.scrollIntoView({ block: 'nearest' });
  });
}
