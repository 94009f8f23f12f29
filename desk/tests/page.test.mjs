// The page in a headless Chromium, used as a person uses it. Pictures of its states go to target/desk/shots.

import test, { after, before } from 'node:test';
import assert from 'node:assert/strict';
import { existsSync, mkdtempSync, readFileSync, rmSync, writeFileSync } from 'node:fs';
import { tmpdir } from 'node:os';
import { join, resolve } from 'node:path';
import { Browser, KEYS } from './browser.mjs';
import { bytes, calls, text, ROOM_H } from './desk.mjs';

const PAGE = `file://${resolve('target/desk/hutplan.html')}`;
const files = mkdtempSync(join(tmpdir(), 'desk-'));
let page;

before(async () => {
  page = await Browser.start({ width: 1440, height: 900, downloads: files });
  await page.open(PAGE);
});
after(async () => {
  await page?.end();
  rmSync(files, { recursive: true, force: true, maxRetries: 5 });
});

const value = () => page.run('return document.getElementById("text").value');
const verdict = () => page.text('#verdict');

/// Puts a text into the editor at once, as pasting does.
const paste = content => page.run('const area = document.getElementById("text"); area.value = arguments[0]; area.dispatchEvent(new Event("input", { bubbles: true }))', content);

/// Writes a text as a person does: all of the old one away, then key by key.
async function write(content) {
  await page.clear('#text');
  await page.type('#text', content);
}

/// Drops files that are made in the page: [name, bytes] each.
const drop = (name, size, first = []) => page.run(`
  const bytes = new Uint8Array(arguments[1]); bytes.set(arguments[2]);
  const data = new DataTransfer(); data.items.add(new File([bytes], arguments[0]));
  document.body.dispatchEvent(new DragEvent("drop", { bubbles: true, cancelable: true, dataTransfer: data }))`, name, size, first);

const saved = async name => {
  const path = join(files, name);
  await page.until(() => existsSync(path), `${name} is saved`);
  return readFileSync(path);
};

/// The rows of the table in sight, and its figures, that are cut at a side.
const cut = () => page.run(`return [...document.querySelectorAll(".tr, .tr .n, .tr .cap")]
  .filter(each => each.scrollWidth > each.clientWidth).map(each => each.textContent)`);

test('a hut is typed, and accepted', async () => {
  await write(ROOM_H);
  assert.equal(await value(), ROOM_H);
  assert.match(await verdict(), /^Accepted\n2 breakers, 2 servers, 3 cords; version 1, 28 bytes$/);
});

test('a mistake is told, with its line and word marked, and mended', async () => {
  await paste(ROOM_H.replace('50% on left', '60% on left'));
  assert.match(await verdict(), /Refused 7, shares not whole\nLine 5 Server web: .*They sum to 110%\./);
  const marks = await page.run('return [...document.querySelectorAll(".marked")].map(mark => mark.textContent)');
  assert.deepEqual(marks, ['web', '60%', '50%']);
  assert.equal(await page.text('#lines .wrong'), '5');
  assert.equal(await page.run('return document.getElementById("save-sheet").disabled'), true);
  await page.shot('refused');
  await page.click('#verdict button');
  assert.equal(await page.run('return getSelection().toString() || document.activeElement.value.slice(document.activeElement.selectionStart, document.activeElement.selectionEnd)'), 'web');
  await paste(ROOM_H.replace('on left', 'on lfet'));
  assert.match(await verdict(), /The text is not a hut yet\nLine 6 No breaker is named lfet\./);
  assert.equal(await page.text('.painted.wrong .marked'), 'lfet');
  await paste(ROOM_H.replace('150 W', '120 W').replaceAll('from 100', 'from 300'));
  assert.match(await verdict(), /Refused 9, lows above limit\nLine 2 Breaker left: .*The lows beneath it sum to 150 W, and it carries 96 W\./);
  await paste(ROOM_H);
  assert.match(await verdict(), /^Accepted/);
});

test('the plan shows what is held, and its print is that of hutplan', async () => {
  assert.match(await page.text('#totals'), /Freed\n13 W\nHeld\n◆ 2 cords/);
  const caps = await page.run('return [...document.querySelectorAll("[data-cap]")].map(each => [each.textContent, each.title])');
  assert.deepEqual(caps, [['◆ 240', '160 W less than it needs'], ['◆ 280', '120 W less than it needs']]);
  assert.match(await page.text('#picture'), /held by left/);
  await page.click('#tab-plan');
  assert.equal(`${await page.text('#tool pre')}\n`, text('samples/room-h.print'));
  await page.click('#tab-servers');
  for (const place of [0, 1]) {
    await page.clear(`[data-ask="${place}"]`);
    await page.type(`[data-ask="${place}"]`, '100');
  }
  assert.match(await page.text('#totals'), /Lent\n320 W\nFreed\n0 W\nHeld\n0 cords/);
  await page.type('[data-ask="1"]', '99999999');
  assert.match(await page.text('#demands-told'), /Refused 11, demand too large\. Server db:/);
  assert.equal(await page.run('return document.querySelector("[aria-invalid]").getAttribute("aria-label")'), 'Demand of db, in watts');
  await page.click('[data-paste]');
  await page.type('#pasted', '400\n');
  await page.click('.paste [type="submit"]');
  assert.match(await page.text('.paste .told'), /Refused 10, demand count.*The hut has 2 servers/);
  await page.type('#pasted', '400\n');
  await page.click('.paste [type="submit"]');
  assert.match(await page.text('#totals'), /◆ 2 cords/);
});

test('refused demands leave the last plan, and say so, also where the text goes on', async () => {
  await page.clear('[data-ask="1"]');
  await page.type('[data-ask="1"]', '99999999');
  assert.match(await page.text('#stale'), /The demands are refused now/);
  await page.click('#tab-cords');
  await paste(`${ROOM_H}server more rank 1 from 0 to 10 W\n  cord 100% on left\n`);
  assert.match(await verdict(), /^Accepted\n2 breakers, 3 servers/);
  assert.equal(await page.run('return document.querySelectorAll(".cords .tr").length'), 4);
  await page.click('#tab-servers');
  await page.click('[data-all="1"]');
  assert.equal(await page.run('return document.querySelectorAll("#picture [data-row]").length'), 6);
  await paste(ROOM_H);
});

test('a slider changes the plan', async () => {
  await page.click('[data-slide="0"]');
  const [slide, ask] = await page.run('return ["slide", "ask"].map(kind => Number(document.querySelector(`[data-${kind}="0"]`).value))');
  assert.equal(ask, slide);
  assert.ok(ask > 200 && ask < 300, 'a click in its middle is half of the way');
  await page.click('[data-all="1"]');
  assert.match(await page.text('#totals'), /Freed\n13 W/);
});

test('why a cord gets what it gets is told where it is chosen', async () => {
  await page.click('[data-row="1"] .server');
  assert.match(await page.text('#why'), /^Cord 1 of web, on left\n[^]*Held by left\. It wants 200 W and gets 120 W/);
  await page.click('[data-row="0"] .name');
  assert.match(await page.text('#why'), /^Breaker left\n[^]*Full\. It holds 1 cord: web\./);
  await page.shot('room-h');
});

test('search, folding and the wish for held ones leave what is asked for', async () => {
  const rows = () => page.run('return document.querySelectorAll("#picture [data-row]").length');
  assert.equal(await rows(), 5);
  await page.type('#search', 'db');
  assert.equal(await rows(), 2);
  await page.clear('#search');
  await page.run('document.getElementById("search").dispatchEvent(new Event("input"))');
  await page.click('#only-held');
  assert.equal(await rows(), 4);
  await page.click('#only-held');
  await page.click('#fold');
  assert.equal(await rows(), 2);
  await page.click('#fold');
  assert.equal(await rows(), 5);
});

test('what is saved is the sheet, and opens again', async () => {
  await page.click('#save-sheet');
  assert.deepEqual(new Uint8Array(await saved('room.bin')), bytes('samples/room-h.bin'));
  assert.match(await page.text('#notice'), /Read gives back the same hut/);
  await page.click('#save-text');
  assert.equal(String(await saved('hut.txt')), ROOM_H);
  await page.type('#file', join(files, 'room.bin'));
  await page.until(async () => /^version 1\n\nbreaker b1 150 W/.test(await value()), 'the sheet is opened');
  assert.equal(await page.run('return document.querySelectorAll("#picture [aria-selected=true], .lit").length'), 0, 'nothing of another hut is chosen');
  assert.match(await page.text('#notice'), /Opened the sheet room\.bin: 2 breakers, 2 servers\./);
  await page.click('#notice button');
  assert.equal(await value(), ROOM_H);
  await page.type('#file', join(files, 'hut.txt'));
  await page.until(async () => /Opened the text/.test(await page.text('#notice')), 'the text is opened');
});

test('a schedule is pasted as it is', async () => {
  await paste(text('samples/hut.schedule'));
  assert.match(await verdict(), /^Accepted\n3 breakers, 0 servers, 0 cords/);
  await paste('0 200 240\n1 21 120\n');
  assert.match(await verdict(), /Refused 25, not a size\nLine 2 Breaker b2: No breaker is made for these amperes\./);
  await paste(ROOM_H);
});

test('a bad file gets a sentence, and nothing that was typed is lost', async () => {
  await drop('room.bin', 3, [1, 128, 0]);
  await page.until(async () => /room\.bin: Refused 2, number not shortest\. Byte 1/.test(await page.text('#notice')), 'the refusal');
  await page.shot('bad-file');
  await drop('film.mp4', 100 * 1024 * 1024);
  await page.until(async () => /film\.mp4: Too large\. It has 100\.0 MB/.test(await page.text('#notice')), 'the size');
  await drop('noise.txt', 9, [0xff, 0xfe, 0, 1, 2, 3]);
  await page.until(async () => /noise\.txt: Refused/.test(await page.text('#notice')), 'the bytes');
  assert.equal(await value(), ROOM_H);
  assert.match(await page.text('#notice'), /Your text is as it was/);
});

test('the page shows its release, and tells which one a dropped image has', async () => {
  const own = await page.text('#release');
  assert.match(own, /^release [1-9]\d*$/);
  const letters = number => [...`\x7fELF\0\0hutplan release ${number} by Yerkozan\0`].map(letter => letter.charCodeAt(0));
  await drop('unit.elf', 3 * 1024 * 1024, letters('0907'));
  const told = `unit.elf has release 907 of hutplan in it; this page is of ${own}.`;
  await page.until(async () => (await page.text('#notice')).includes(told), 'the release of another firmware');
  await page.shot('image');
  await drop('unit.bin', 100, letters(own.slice(8).padStart(4, '0')));
  await page.until(async () => (await page.text('#notice')).includes('the release of this page'), 'the release of this page');
  await drop('film.mp4', 3 * 1024 * 1024);
  await page.until(async () => /film\.mp4: Too large\. It has 3\.0 MB.*as ELF, as raw bytes and as Intel HEX/.test(await page.text('#notice')), 'an image without a mark');
  assert.equal(await value(), ROOM_H);
});

test('what was typed survives a reload, and can be forgotten', async () => {
  await page.open(PAGE);
  assert.equal(await value(), ROOM_H);
  await page.click('#forget');
  await page.open(PAGE);
  assert.match(await value(), /^# Room H\nbreaker left/);
  await paste(ROOM_H);
});

test('a change is tried', async () => {
  await paste('breaker b 1000 W\nserver s rank 1 from 100 to 200 W\n cord 100% on b\n');
  await page.click('#tab-try');
  await page.click('#tool [type="submit"]');
  await page.until(async () => /3 more servers on b/.test(await page.text('#tool .result')), 'the answer');
  assert.match(await page.text('#tool .result'), /With one more, cord 1 of \S.* is held by b\./);
  await page.click('#tab-servers');
  await page.click('[data-all="0"]');
  await page.click('#tab-try');
  await page.clear('#try-demand');
  await page.type('#try-demand', '0');
  await page.click('#tool [type="submit"]');
  await page.until(async () => /7 more servers on b[^]*With one more the hut is refused \(9, lows above limit\)\. Breaker b: .*sum to 900 W, and it carries 800 W/.test(await page.text('#tool .result')), 'the refusal');
  await page.shot('try');
});

test('the bus names servers in turn', async () => {
  await paste(ROOM_H);
  await page.click('#tab-bus');
  await page.click('#tool [type="submit"]');
  assert.equal(await page.text('#tool li'), 'web, db');
  await page.clear('#bus-m');
  await page.click('#tool [type="submit"]');
  assert.match(await page.text('#tool li:last-child'), /Refused 27, no messages/);
  assert.equal(await page.run('return document.querySelector("[aria-invalid]").id'), 'bus-m');
  await page.click('#tab-servers');
});

test('the keyboard alone is enough', async () => {
  await page.open(PAGE);
  const focus = () => page.run('const at = document.activeElement; return at.id || at.textContent');
  const seen = [];
  for (let step = 0; step < 40 && seen.at(-1) !== 'picture'; step++) {
    await page.press(KEYS.tab);
    seen.push(await focus());
  }
  for (const id of ['open', 'save-sheet', 'save-text', 'print', 'theme', 'sample', 'text', 'forget', 'search', 'only-held', 'fold', 'picture']) assert.ok(seen.includes(id), `${id} among ${seen}`);
  await page.press(KEYS.down, KEYS.down, KEYS.up);
  assert.match(await page.text('#why'), /^Cord 1 of web/);
  await page.press(KEYS.left, KEYS.left);
  assert.match(await page.text('#why'), /^Breaker left/);
  assert.equal(await page.run('return document.querySelector("#picture [aria-selected=true]").getAttribute("aria-expanded")'), 'false');
  await page.press(KEYS.right, KEYS.down, KEYS.enter);
  assert.equal(await focus(), 'text');
  await page.press(KEYS.end, ' ', '#', '!');
  assert.match(await value(), /cord 50% on left #!\n/);
  await paste(ROOM_H);
});

test('every control has a name, and nothing is fetched', async () => {
  const nameless = await page.run(`return [...document.querySelectorAll("button, input, select, textarea, [role=tree], [role=table]")]
    .filter(each => !(each.getAttribute("aria-label") || each.labels?.length || each.textContent.trim())).map(each => each.outerHTML)`);
  assert.deepEqual(nameless, []);
  assert.equal(await page.run('return document.querySelectorAll("[aria-selected]:not([aria-selected=true], [aria-selected=false])").length'), 0);
  assert.deepEqual(await page.run('return performance.getEntriesByType("resource").map(each => each.name)'), []);
});

/// A hut of full size: 512 breakers in a tree of eights, 512 servers, 1,024 cords.
function fullHut() {
  const lines = Array.from({ length: 512 }, (_, k) => `breaker n${k + 1}${k > 0 ? ` under n${Math.floor((k - 1) / 8) + 1}` : ''} ${k < 9 ? 400000 : 3000 + (k % 7) * 100} W`);
  for (let k = 0; k < 512; k++) {
    lines.push(`server s${k + 1} rank ${1 + (k % 16)} from 100 to ${900 + (k % 5) * 300} W`, `  cord 50% on n${(k * 7) % 448 + 65}`, `  cord 50% on n${(k * 11 + 5) % 448 + 65}`);
  }
  return `${lines.join('\n')}\n`;
}

test('a hut of full size is planned and drawn quickly', async t => {
  await paste(fullHut());
  assert.match(await verdict(), /^Accepted\n512 breakers, 512 servers, 1,024 cords/);
  const processor = async () => {
    const { metrics } = await page.developer('Performance.getMetrics', {});
    return 1000 * metrics.find(({ name }) => name === 'TaskDuration').value;
  };
  await page.developer('Performance.enable', { timeDomain: 'threadTicks' });
  const start = await processor();
  const times = await page.run(`
    const settled = () => new Promise(done => requestAnimationFrame(() => { const channel = new MessageChannel(); channel.port1.onmessage = done; channel.port2.postMessage(0); }));
    const timed = async act => { const from = performance.now(); act(); await settled(); return Math.round(performance.now() - from); };
    const area = document.getElementById("text");
    area.focus(); area.setSelectionRange(area.value.length, area.value.length);
    const typed = () => document.execCommand("insertText", false, "#");
    const ask = document.querySelector("[data-ask='3']");
    const asked = k => () => { ask.value = 500 + k; ask.dispatchEvent(new Event("input", { bubbles: true })); };
    return (async () => {
      const text = [], demand = [], scroll = [];
      for (let k = 0; k < 5; k++) { text.push(await timed(typed)); demand.push(await timed(asked(k))); scroll.push(await timed(() => { document.getElementById("picture").scrollTop += 900; })); }
      return { text, demand, scroll };
    })()`);
  const changes = Object.values(times).flat().length;
  t.diagnostic(`processor milliseconds of the page's thread for a change: ${Math.round((await processor() - start) / changes)}`);
  for (const [name, all] of Object.entries(times)) t.diagnostic(`milliseconds to a drawn plan after a change (${name}): ${all.join(', ')}`);
  await page.shot('full');
  await page.type('#search', 's400');
  assert.match(await page.text('#picture'), /s400/);
  await page.clear('#search');
  await page.run('document.getElementById("search").dispatchEvent(new Event("input"))');
  await page.click('#tab-cords');
  assert.equal(await page.run('return document.querySelectorAll(".cords .tr").length'), 1025);
  await page.click('#tab-servers');
});

test('dark, a phone and paper', async () => {
  const samples = await page.run('return [...document.getElementById("sample").options].map(each => each.value)');
  await page.run('const box = document.getElementById("sample"); box.value = arguments[0]; box.dispatchEvent(new Event("change"))', samples.at(-1));
  await page.size(390, 844);
  assert.ok(await page.run('return document.querySelector("#notice span").clientWidth > 300'), 'the notice has room for its words beside its buttons');
  await page.shot('phone-notice');
  await page.size(1440, 900);
  await page.click('#notice button:last-child');
  await page.click('[data-row="7"] .server');
  await page.shot('valley');
  for (const width of [1181, 1280]) {
    await page.size(width, 800);
    for (const tab of ['cords', 'servers']) {
      await page.click(`#tab-${tab}`);
      assert.deepEqual(await cut(), [], `${tab} at a width of ${width}`);
    }
  }
  await page.shot('desk', 'webp');
  await page.click('#theme');
  await page.click('#tab-cords');
  await page.shot('desk-dark', 'webp');
  await page.click('#tab-servers');
  await page.size(1440, 900);
  await page.shot('dark');
  for (const pane of ['text-pane', 'picture-pane', 'tools-pane']) {
    await page.size(390, 844);
    await page.click(`[data-pane="${pane}"]`);
    assert.ok(await page.run('return document.documentElement.scrollWidth <= innerWidth'));
    await page.shot(`phone-${pane}`);
  }
  assert.deepEqual(await cut(), []);
  await page.click('#tab-cords');
  assert.deepEqual(await cut(), []);
  await page.shot('phone-cords');
  await page.click('#tab-servers');
  await page.click('#theme');
  await page.size(1440, 900);
  const { data } = await page.developer('Page.printToPDF', { printBackground: true });
  writeFileSync('target/desk/door.pdf', Buffer.from(data, 'base64'));
  await page.run('dispatchEvent(new Event("beforeprint"))');
  await page.developer('Emulation.setEmulatedMedia', { media: 'print' });
  assert.match(await page.text('#door'), /^Valley hut, as wired in spring\n[^]*a dashed frame what is wanted[^]*a half circle one whose server/);
  await page.shot('door');
  await page.developer('Emulation.setEmulatedMedia', { media: '' });
});

/// Requests A.8 to A.10: used as soon as the build has the calls.
const request = (name, what, act) => test(what, { skip: !calls.has(name) && `${name} is not in this build` }, async () => {
  await page.size(1440, 900);
  await paste(ROOM_H);
  await act();
});

request('join', 'two huts are joined', async () => {
  await page.click('#tab-huts');
  await page.type('#second', 'breaker left 100 W at 100%\n');
  await page.click('.join [type="submit"]');
  assert.match(await page.text('#joined'), /Refused 19, versions differ/);
  await page.clear('#second');
  await page.type('#second', 'breaker left 100 W\nserver cam rank 2 from 1 to 50 W\ncord 100% on lefd');
  await page.click('.join [type="submit"]');
  assert.match(await page.text('#joined'), /The other text is not a hut\. Line 3: No breaker is named lefd/);
  await page.press(KEYS.tab);
  await page.run('document.getElementById("second").value = document.getElementById("second").value.replace("lefd", "left")');
  await page.click('.join [type="submit"]');
  assert.match(await page.text('#notice'), /Joined: 3 breakers, 3 servers\./);
  assert.match(await value(), /breaker left-2 100 W\n[^]*server cam rank 2 from 1 to 50 W\n {2}cord 100% on left-2\n$/);
  await page.click('#notice button');
});

request('join', 'a file that is no hut’s is told where another hut is opened', async () => {
  await page.click('#tab-servers');
  await page.click('#tab-huts');
  const open = async (name, content, told) => {
    writeFileSync(join(files, name), content);
    await page.type('.join [type="file"]', join(files, name));
    await page.until(async () => told.test(await page.text('#joined')), name);
    return page.run('return document.getElementById("second").value');
  };
  assert.equal(await open('unit.elf', '\x7fELF\0\0hutplan release 0907 by Yerkozan\0', /^unit\.elf has release 907 of hutplan in it/), '');
  assert.equal(await open('unit.s19', 'S00600004844521B\nS9030000FC\n', /^No hut and no release in it/), '');
  assert.equal(await open('far.txt', 'breaker far 100 W\n', /^Opened the text far\.txt/), 'breaker far 100 W\n');
});

request('part', 'a hut is parted where nothing crosses the cut', async () => {
  await page.click('#tab-servers');
  await page.click('#tab-huts');
  await page.click('.part [type="submit"]');
  assert.match(await page.text('#parted'), /Refused 23, link across the cut\..*It is the breaker of cord 2 of server web\./);
  assert.equal(await page.text('.painted .marked'), 'right');
  await page.clear('#part-nodes');
  await page.type('#part-nodes', '2');
  await page.click('.part [type="submit"]');
  assert.match(await page.text('#parted'), /Refused 22, cut out of range/);
  await paste(`${ROOM_H}breaker far 100 W\n`);
  await page.clear('#part-servers');
  await page.type('#part-servers', '2');
  await page.click('.part [type="submit"]');
  assert.match(await page.text('#parted'), /The first: 2 breakers, 2 servers\.[^]*The second: 1 breaker, 0 servers\./);
  await page.shot('parted');
  await page.click('[data-save="0"]');
  assert.deepEqual(new Uint8Array(await saved('room-first.bin')), bytes('samples/room-h.bin'));
  await page.click('[data-save="1"]');
  assert.deepEqual([...await saved('room-second.bin')], [1, 1, 0, 100, 0]);
  await page.click('[data-keep="1"]');
  assert.equal(await value(), 'version 1\n\nbreaker far 100 W\n');
});

request('judge', 'another maker\'s grants are judged', async () => {
  await page.click('#tab-servers');
  await page.click('[data-all="1"]');
  await page.click('#tab-judge');
  const judged = async grants => {
    await page.clear('#grants');
    await page.type('#grants', grants);
    await page.click('.judge [type="submit"]');
    return page.text('#tool .result');
  };
  assert.match(await judged('120\n133\n267'), /^Passes/);
  assert.match(await judged('49\n133\n267'), /A cord below its low\nCord 1 of web has 49 W, less than its low of 50 W\./);
  assert.match(await page.text('#why'), /^Cord 1 of web/);
  assert.match(await judged('201\n133\n267'), /A cord above its want\nCord 1 of web has 201 W, more than its want of 200 W\./);
  assert.match(await judged('121\n133\n267'), /A breaker over its limit\nThe grants beneath left sum to 121 W; it carries 120 W\./);
  assert.match(await judged('119\n133\n267'), /Watts withheld\nBeneath left the cords of rank 1 and above could have more in sum\./);
  await page.shot('judged');
  assert.match(await judged('119\n133'), /Refused 21, grant count/);
  assert.match(await judged('119\nmuch'), /Line 2 is no whole number of watts/);
});
