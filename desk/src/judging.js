// Another maker's grants, judged by Judge, with the verdict in words.

import { onSubmit, told } from './forms.js';
import { sumsBeneath, MOST_WORD } from './hut.js';
import { escaped } from './picture.js';
import { tellPlain, watts } from './words.js';

/// The grants of a text, one a line; or the first line that is no number.
export function grantsOf(content) {
  const lines = content.replace(/\n+$/, '').split('\n').map(line => line.trim());
  if (content.trim() === '') return { grants: [] };
  const wrong = lines.findIndex(line => !/^\d+$/.test(line));
  return wrong >= 0 ? { wrong } : { grants: lines.map(line => Math.min(Number(line), MOST_WORD)) };
}

const PASSES = {
  title: 'Passes',
  says: `Every cord lies from its low to its want, no limit is passed, and no way of dealing gives any rank and those \
above it more.`,
};

/// A verdict in words: { title, says, place }, place being what it names in the picture.
export function tellVerdict({ verdict, what, rank }, { hut, cords }, figures, grants) {
  if (verdict === 0) return PASSES;
  if (verdict <= 2) return tellCord(verdict, what, { hut, cords }, figures, grants);
  const { name } = hut.nodes[what - 1];
  const place = { kind: 'node', place: what - 1 };
  if (verdict === 3) {
    const sum = sumsBeneath(hut, grants)[what - 1];
    const says = `The grants beneath ${name} sum to ${watts(sum)}; it carries ${watts(figures.limits[what - 1])}.`;
    return { title: 'A breaker over its limit', says, place };
  }
  const says = `Beneath ${name} the cords of rank ${rank} and above could have more in sum.`;
  return { title: 'Watts withheld', says, place };
}

/// Verdicts 1 and 2: a cord below its low or above its want.
function tellCord(verdict, place, { hut, cords }, figures, grants) {
  const { server, cord } = cords[place];
  const has = `Cord ${cord + 1} of ${hut.servers[server].name} has ${watts(grants[place])}`;
  const [title, says] = verdict === 1
    ? ['A cord below its low', `${has}, less than its low of ${watts(figures.lows[place])}.`]
    : ['A cord above its want', `${has}, more than its want of ${watts(figures.wants[place])}.`];
  return { title, says, place: { kind: 'cord', place } };
}

const JUDGE = `<p class="lead">Grants that another maker's controller gave for this hut and these demands: do they keep
    every limit, and does each rank get all that it can? This hut's own plan need not pass, since its second deal takes
    back what cannot be used.</p>
  <form class="judge"><label for="grants">Grants, one a line, in the order of the cords</label>
    <textarea id="grants" rows="8" spellcheck="false"></textarea>
    <div class="row"><button type="submit" class="main">Judge</button>
      <button type="button" data-fill>Fill in this plan’s grants</button></div></form>
  <div class="result" role="status" aria-live="polite"></div>`;

export function judgeTool(tool, desk) {
  tool.innerHTML = JUDGE;
  const area = tool.querySelector('#grants');
  tool.querySelector('[data-fill]').addEventListener('click', () => { area.value = desk.figures.grants.join('\n'); });
  onSubmit(tool.querySelector('form'), () => judgeNow(tool.querySelector('.result'), area.value, desk));
}

function judgeNow(result, content, { good, figures, calls, table, select }) {
  const { grants, wrong } = grantsOf(content);
  if (grants === undefined) {
    result.innerHTML = `<p class="refusal"><b>Line ${wrong + 1}</b> is no whole number of watts.</p>`;
    return;
  }
  const answer = calls.judge(good.words, figures.demands, grants);
  if (answer.number !== 0) {
    result.innerHTML = told(tellPlain(table, answer));
    return;
  }
  const { title, says, place } = tellVerdict(answer, good, figures, grants);
  const [kind, sign] = place ? ['fails', '◆ '] : ['passes', ''];
  result.innerHTML = `<p class="answer ${kind}"><b>${sign}${escaped(title)}</b></p><p>${escaped(says)}</p>`;
  if (place) select(place);
}
