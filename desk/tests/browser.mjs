// A headless Chromium, driven by WebDriver over loopback with fetch alone.

import { spawn } from 'node:child_process';
import { writeFileSync, mkdirSync } from 'node:fs';

const ELEMENT = 'element-6066-11e4-a52e-4f735466cecf';

/// What WebDriver answers before it has done anything with an element.
const NOT_DONE_YET = ['stale element reference', 'element click intercepted', 'element not interactable'];

/// The letters by which WebDriver names keys.
export const KEYS = {
  tab: '\ue004', enter: '\ue007', shift: '\ue008', control: '\ue009', escape: '\ue00c', space: ' ', end: '\ue010', home: '\ue011',
  left: '\ue012', up: '\ue013', right: '\ue014', down: '\ue015', backspace: '\ue003',
};

const pause = milliseconds => new Promise(resolve => { setTimeout(resolve, milliseconds); });

/// How often the driver and the browser are started before it is given up.
const MOST_STARTS = 5;

/// How long the driver may take to tell its port, and an element to be one that can be used.
const DRIVER_MILLISECONDS = 120_000;
const ELEMENT_MILLISECONDS = 10_000;

/// How long a script of the page, and opening it, may take: less than the 300 s for which fetch waits.
const PAGE_MILLISECONDS = 290_000;

/// Does something that a busy machine may let fail, some times.
async function tried(act) {
  for (let trial = 1; ; trial++) {
    try {
      return await act();
    } catch (error) {
      if (trial === MOST_STARTS) throw error;
      await pause(500);
    }
  }
}

/// Starts the driver, which takes a port that is free and tells it.
function startDriver() {
  return new Promise((resolve, reject) => {
    const process = spawn('chromedriver', ['--port=0'], { stdio: ['ignore', 'pipe', 'ignore'] });
    const fail = why => {
      clearTimeout(late);
      process.kill();
      reject(new Error(`chromedriver ${why}`));
    };
    const late = setTimeout(fail, DRIVER_MILLISECONDS, 'does not answer');
    process.once('error', ({ message }) => fail(`does not start: ${message}`));
    process.once('exit', () => fail('has ended'));
    let told = '';
    process.stdout.on('data', some => {
      told += some;
      const port = told.match(/successfully on port (\d+)/)?.[1];
      if (!port) return;
      clearTimeout(late);
      resolve({ process, base: `http://127.0.0.1:${port}` });
    });
  });
}

/// A page in a browser, as a person meets it. `downloads` is where it saves files.
export class Browser {
  static async start({ width, height, downloads }) {
    const browser = Object.assign(new Browser(), await tried(startDriver));
    const options = {
      args: ['--headless=new', '--no-sandbox', '--disable-gpu', '--disable-dev-shm-usage', '--force-device-scale-factor=1', `--window-size=${width},${height}`],
      prefs: { 'download.default_directory': downloads, 'download.prompt_for_download': false },
    };
    const timeouts = { script: PAGE_MILLISECONDS, pageLoad: PAGE_MILLISECONDS };
    const capabilities = { alwaysMatch: { browserName: 'chrome', timeouts, 'goog:chromeOptions': options } };
    try {
      const answer = await tried(() => browser.call('POST', '/session', { capabilities }, true));
      browser.session = `/session/${answer.sessionId}`;
      await browser.size(width, height);
    } catch (error) {
      await browser.end();
      throw error;
    }
    return browser;
  }

  async call(method, path, body, whole = false) {
    const url = `${this.base}${whole ? '' : this.session}${path}`;
    const response = await fetch(url, { method, body: body === undefined ? undefined : JSON.stringify(body) });
    const { value } = await response.json();
    if (!response.ok) throw Object.assign(new Error(`${path}: ${value.message}`), { kind: value.error });
    return value;
  }

  /// The size of what is seen of the page, which has it a moment later.
  async size(width, height) {
    await this.developer('Emulation.setDeviceMetricsOverride', { width, height, deviceScaleFactor: 1, mobile: false });
    const has = () => this.run('return innerWidth === arguments[0] && innerHeight === arguments[1]', width, height);
    await this.until(has, `the page is ${width} by ${height}`);
  }

  developer(cmd, params) { return this.call('POST', '/goog/cdp/execute', { cmd, params }); }

  async open(url) {
    await this.call('POST', '/url', { url });
    await this.until(() => this.run('return document.documentElement.dataset.ready'), 'the page is ready');
  }

  run(script, ...args) { return this.call('POST', '/execute/sync', { script, args }); }

  async find(selector) { return (await this.call('POST', '/element', { using: 'css selector', value: selector }))[ELEMENT]; }

  /// Does something with an element. The page may draw it anew after it was found and before it is used, as it does after
  /// a scroll, or something may be above it for a moment; then what stands there now is meant, as a person would mean it.
  async on(selector, method, act, body) {
    for (const end = Date.now() + ELEMENT_MILLISECONDS; ;) {
      try {
        return await this.call(method, `/element/${await this.find(selector)}/${act}`, body);
      } catch (error) {
        if (!NOT_DONE_YET.includes(error.kind) || Date.now() > end) throw error;
        await pause(50);
      }
    }
  }

  text(selector) { return this.on(selector, 'GET', 'text'); }

  /// A click on a page that stands still: scrolls and sizes are told to it, and drawn, with its next frame.
  async click(selector) {
    await this.run('return new Promise(done => requestAnimationFrame(() => requestAnimationFrame(() => done())))');
    await this.on(selector, 'POST', 'click', {});
  }

  type(selector, text) { return this.on(selector, 'POST', 'value', { text }); }

  clear(selector) { return this.on(selector, 'POST', 'clear', {}); }

  /// Keys for whatever has the focus; an array of several are pressed together.
  async press(...keys) {
    const actions = keys.flatMap(key => {
      const all = Array.isArray(key) ? key : [key];
      return [...all.map(value => ({ type: 'keyDown', value })), ...[...all].reverse().map(value => ({ type: 'keyUp', value }))];
    });
    await this.call('POST', '/actions', { actions: [{ type: 'key', id: 'keyboard', actions }] });
  }

  /// Waits for something that comes a moment later; on a busy machine, a longer one.
  async until(test, what) {
    for (let trial = 0; trial < 600; trial++) {
      const value = await test();
      if (value) return value;
      await pause(50);
    }
    throw new Error(`it never came: ${what}`);
  }

  /// A picture of what is seen, kept beside the page; as PNG, or smaller as WebP.
  async shot(name, format = 'png') {
    const quality = format === 'webp' ? { quality: 80 } : {};
    const { data } = await this.developer('Page.captureScreenshot', { format, ...quality });
    mkdirSync('target/desk/shots', { recursive: true });
    writeFileSync(`target/desk/shots/${name}.${format}`, Buffer.from(data, 'base64'));
  }

  async end() {
    await this.call('DELETE', '').catch(() => null);
    this.process.kill();
  }
}
