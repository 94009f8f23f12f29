// The tests' own way to the browser, on a driver that fails as one does on a busy machine.

import test, { after } from 'node:test';
import assert from 'node:assert/strict';
import { existsSync, mkdtempSync, readFileSync, rmSync, writeFileSync } from 'node:fs';
import { tmpdir } from 'node:os';
import { delimiter, join } from 'node:path';
import { Browser } from './browser.mjs';

const folder = mkdtempSync(join(tmpdir(), 'driver-'));
const path = process.env.PATH;
after(() => {
  process.env.PATH = path;
  rmSync(folder, { recursive: true, force: true, maxRetries: 5 });
});

/// A chromedriver that ends at its first `ends` starts, refuses the first `refuses` sessions, has the page at its new size
/// at the third look, and clicks at the third trial. What it was asked stands in the file `asked`, a line each.
const DRIVER = ({ ends, refuses }) => `#!${process.execPath}
const { appendFileSync, existsSync, readFileSync } = require('node:fs');
const file = ${JSON.stringify(join(folder, 'asked'))};
const note = what => appendFileSync(file, JSON.stringify(what) + '\\n');
const count = part => (existsSync(file) ? readFileSync(file, 'utf8').split('\\n').filter(line => line.includes(part)).length : 0);
note({ start: process.pid });
if (count('"start"') <= ${ends}) process.exit(1);
const FAILURES = ['element click intercepted', 'element not interactable'];
const answers = {
  '/session': () => (count('"/session"') <= ${refuses} ? { error: 'session not created', message: 'busy' } : { sessionId: 's' }),
  '/session/s/execute/sync': () => count('innerWidth') > 2,
  '/session/s/element': () => ({ 'element-6066-11e4-a52e-4f735466cecf': 'e' }),
  '/session/s/element/e/text': () => (FAILURES[count('/text') - 1] ? { error: FAILURES[count('/text') - 1], message: '' } : 'done'),
};
const server = require('node:http').createServer(async (request, response) => {
  let body = '';
  for await (const part of request) body += part;
  note({ url: request.url, body });
  const value = answers[request.url]?.() ?? null;
  response.writeHead(value?.error ? 500 : 200).end(JSON.stringify({ value }));
}).listen(0, '127.0.0.1', () => console.log('ChromeDriver was started successfully on port ' + server.address().port + '.'));
`;

/// Puts such a driver in front of the true one.
function putDriver(kind) {
  rmSync(join(folder, 'asked'), { force: true });
  writeFileSync(join(folder, 'chromedriver'), DRIVER(kind), { mode: 0o755 });
  process.env.PATH = `${folder}${delimiter}${path}`;
}

const asked = () => readFileSync(join(folder, 'asked'), 'utf8').trim().split('\n').map(line => JSON.parse(line));
const start = () => Browser.start({ width: 390, height: 844, downloads: folder });

test('a driver that ends and sessions that are refused are tried again', async t => {
  putDriver({ ends: 2, refuses: 3 });
  const browser = await start();
  t.after(() => browser.end());
  assert.equal(asked().filter(each => each.start).length, 3);
  const sessions = asked().filter(({ url }) => url === '/session');
  assert.equal(sessions.length, 4);
  const { script, pageLoad } = JSON.parse(sessions[0].body).capabilities.alwaysMatch.timeouts;
  assert.ok(script > 200_000 && pageLoad > 200_000, 'a slow machine has its time');
  assert.equal(asked().filter(({ body }) => body?.includes('innerWidth')).length, 3, 'a size is waited for');
  assert.equal(await browser.text('p'), 'done', 'an element is tried again until it can be used');
});

test('where no session can be had, the driver is ended and the failure told', async t => {
  putDriver({ ends: 0, refuses: 99 });
  await assert.rejects(start(), /\/session: busy/);
  const [{ start: pid }] = asked();
  const ended = () => !existsSync(`/proc/${pid}`);
  t.after(() => { if (!ended()) process.kill(pid); });
  for (let trial = 0; trial < 200 && !ended(); trial++) await new Promise(resolve => { setTimeout(resolve, 50); });
  assert.ok(ended());
});
