// A headless Chromium, driven over a pipe by the protocol of its developer tools: mouse, keys and touch are events that
// a page takes for a person's. And the programs that a page needs: a server and fibs-page, which may be killed.

import { spawn } from 'node:child_process';
import { mkdtempSync, readFileSync, readdirSync, rmSync, writeFileSync } from 'node:fs';
import { tmpdir } from 'node:os';
import { join } from 'node:path';
import { fileURLToPath } from 'node:url';

export const ROOT = fileURLToPath(new URL('../..', import.meta.url));

export const sleep = (milliseconds) => new Promise((resolve) => { setTimeout(resolve, milliseconds); });

/** A program that prints a line when it is ready. */
const start = (args) => new Promise((resolve, reject) => {
  const child = spawn('python3', ['-B', '-u', ...args], { stdio: ['ignore', 'pipe', 'pipe'] });
  let [out, errors] = ['', ''];
  const made = {
    child,
    get line() { return out.split('\n')[0]; },
    get errors() { return errors; },
    /** Stops it, until it is killed: each of its threads was seen to be stopped. */
    async stop() {
      child.kill('SIGSTOP');
      const state = (task) => readFileSync(`/proc/${child.pid}/task/${task}/stat`, 'latin1').split(') ')[1][0];
      while (!readdirSync(`/proc/${child.pid}/task`).every((task) => state(task) === 'T')) await sleep(2);
    },
    end: () => new Promise((ended) => {
      if (child.exitCode !== null || child.signalCode) ended();
      child.on('exit', ended);
      child.kill('SIGKILL');
    }),
  };
  child.stderr.on('data', (data) => { errors += data; });
  child.stdout.on('data', (data) => {
    out += data;
    if (out.includes('\n')) resolve(made);
  });
  child.on('exit', () => reject(new Error(`${args.join(' ')} ended: ${errors}`)));
});

/** The server of the examples. What it hears of the players is in `errors`, as `ann < roll`. */
export const server = (...options) => start([join(ROOT, 'examples', 'fibs_server'), '0', '--log', ...options]);

/** fibs-page for the server at a port; `listen` is its own port, or 0. */
export const relay = (port, listen = 0) => (
  start([join(ROOT, 'scripts', 'fibs-page'), '127.0.0.1', String(port), '--listen', String(listen)]));

/** What the pipe of a browser says: one object each, ended by a zero byte. */
const protocol = (child) => {
  const [, , , to, from] = child.stdio;
  const waiting = new Map();
  let [id, rest] = [0, ''];
  const heard = [];
  from.on('data', (data) => {
    rest += data;
    const all = rest.split('\0');
    rest = all.pop();
    for (const message of all.map((one) => JSON.parse(one))) {
      const { resolve, reject } = waiting.get(message.id) ?? {};
      waiting.delete(message.id);
      if (message.error) reject?.(new Error(JSON.stringify(message.error)));
      else if (message.id) resolve?.(message.result);
      else for (const take of heard) take(message);
    }
  });
  const call = (method, params = {}, sessionId = undefined) => new Promise((resolve, reject) => {
    id += 1;
    waiting.set(id, { resolve, reject });
    to.write(`${JSON.stringify({ id, method, params, sessionId })}\0`);
  });
  return { call, heard };
};

const CODES = { Enter: 13, Escape: 27, Tab: 9 };

/** A page in a browser. */
export class Page {
  errors = [];
  presses = 0;
  requests = [];
  #call;

  /** One that stands still at its beginning is ended, and another one begun: nothing was done on it yet. */
  static async open(chromium, width = 1280, height = 800) {
    for (let left = 3; left > 0; left -= 1) {
      const page = new Page();
      const begun = page.#begin(chromium, width, height).then(() => true, () => false);
      const late = new Promise((resolve) => { setTimeout(resolve, 180000, false).unref(); });
      if (await Promise.race([begun, late])) return page;
      await page.end();
    }
    throw new Error('no browser begins');
  }

  async #begin(chromium, width, height) {
    this.home = mkdtempSync(join(tmpdir(), 'page-'));
    this.child = spawn(chromium, ['--headless=new', '--no-sandbox', '--disable-gpu', '--disable-dev-shm-usage',
      '--no-first-run', '--remote-debugging-pipe', '--hide-scrollbars', `--user-data-dir=${this.home}`, 'about:blank'],
    { stdio: ['ignore', 'ignore', 'ignore', 'pipe', 'pipe'] });
    const { call, heard } = protocol(this.child);
    const { targetInfos } = await call('Target.getTargets');
    const { targetId } = targetInfos.find(({ type }) => type === 'page');
    const { sessionId } = await call('Target.attachToTarget', { targetId, flatten: true });
    this.#call = (method, params) => call(method, params, sessionId);
    heard.push((message) => this.#note(message));
    for (const domain of ['Page', 'Runtime', 'Network']) await this.#call(`${domain}.enable`);
    await this.size(width, height);
  }

  call(method, params) { return this.#call(method, params); }

  #note({ method, params }) {
    if (method === 'Runtime.exceptionThrown') {
      const { exception, text } = params.exceptionDetails;
      this.errors.push(exception?.description ?? text);
    }
    if (method === 'Runtime.consoleAPICalled' && params.type === 'error') {
      this.errors.push(JSON.stringify(params.args));
    }
    if (method === 'Network.requestWillBeSent') this.requests.push(params.request.url);
  }

  async size(width, height, isDark = false) {
    const screen = { width, height, deviceScaleFactor: 1, mobile: width < 500 };
    await this.#call('Emulation.setDeviceMetricsOverride', screen);
    const features = [{ name: 'prefers-color-scheme', value: isDark ? 'dark' : 'light' }];
    await this.#call('Emulation.setEmulatedMedia', { features });
  }

  async go(url) {
    await this.#call('Page.navigate', { url });
    await this.until('Boolean(document.querySelector(".place"))', 900000);
  }

  async ask(expression) {
    const words = { expression, returnByValue: true, awaitPromise: true };
    const { result, exceptionDetails } = await this.#call('Runtime.evaluate', words);
    if (exceptionDetails) throw new Error(`${expression}: ${exceptionDetails.exception?.description}`);
    return result.value;
  }

  async until(expression, patience = 30000) {
    for (const end = Date.now() + patience; Date.now() < end;) {
      if (await this.ask(expression).catch(() => false)) return;
      await sleep(10);
    }
    const seen = await this.ask('document.body.innerText.slice(0, 900)');
    throw new Error(`never: ${expression}\n${seen}\n${this.errors}`);
  }

  /** The middle of an element, scrolled into view. */
  async middle(selector) {
    const found = await this.ask(`(() => {
      const one = document.querySelector(${JSON.stringify(selector)});
      one?.scrollIntoView({ block: 'nearest' });
      const box = one?.getBoundingClientRect();
      return box ? [box.x + box.width / 2, box.y + box.height / 2] : null;
    })()`);
    if (!found) throw new Error(`there is no ${selector}`);
    return found;
  }

  mouse(type, [x, y]) {
    this.presses += 1;
    const buttons = type === 'mouseReleased' ? 0 : 1;
    return this.#call('Input.dispatchMouseEvent', { type, x, y, button: 'left', buttons, clickCount: 1 });
  }

  /** Waits while what was just asked takes no answer. */
  settled() { return this.until('!document.querySelector("#notices.fresh")'); }

  async click(selector) {
    if (/data-word|notice/.test(selector)) await this.settled();
    const at = await this.middle(selector);
    await this.mouse('mousePressed', at);
    await this.mouse('mouseReleased', at);
  }

  async tap(selector) {
    if (/data-word|notice/.test(selector)) await this.settled();
    const [x, y] = await this.middle(selector);
    await this.#call('Input.dispatchTouchEvent', { type: 'touchStart', touchPoints: [{ x, y }] });
    await this.#call('Input.dispatchTouchEvent', { type: 'touchEnd', touchPoints: [] });
  }

  async drag(from, to) {
    const [a, b] = [await this.middle(from), await this.middle(to)];
    await this.mouse('mousePressed', a);
    for (const part of [0.1, 0.5, 1]) await this.mouse('mouseMoved', a.map((one, n) => one + (b[n] - one) * part));
    await this.mouse('mouseReleased', b);
  }

  async key(key) {
    if (key === 'Enter' || key === 'n') await this.settled();
    await this.rawKey(key);
  }

  /** A key, at once. */
  async rawKey(key) {
    const text = key === 'Enter' ? '\r' : key.length === 1 ? key : undefined;
    const code = { key, windowsVirtualKeyCode: CODES[key] ?? key.toUpperCase().charCodeAt(0) };
    await this.#call('Input.dispatchKeyEvent', { type: text ? 'keyDown' : 'rawKeyDown', text, ...code });
    await this.#call('Input.dispatchKeyEvent', { type: 'keyUp', ...code });
  }

  async keys(text) { for (const one of text) await this.key(one); }

  insert(text) { return this.#call('Input.insertText', { text }); }

  /** A picture of what is seen, as the end of the file's name says: png, or webp of this quality. */
  async shot(file, quality = undefined) {
    const { data } = await this.#call('Page.captureScreenshot', { format: file.split('.').at(-1), quality });
    writeFileSync(file, Buffer.from(data, 'base64'));
  }

  /** What the page saves goes to a folder from now on. */
  saves(folder) { return this.#call('Page.setDownloadBehavior', { behavior: 'allow', downloadPath: folder }); }

  /** Chooses a file, as by its button. */
  async choose(selector, file) {
    const { root } = await this.#call('DOM.getDocument');
    const { nodeId } = await this.#call('DOM.querySelector', { nodeId: root.nodeId, selector });
    await this.#call('DOM.setFileInputFiles', { nodeId, files: [file] });
  }

  end() {
    return new Promise((ended) => {
      const isOver = this.child.exitCode !== null || this.child.signalCode;
      const clear = () => {
        try {
          rmSync(this.home, { recursive: true, force: true, maxRetries: 10 });
        } catch (error) {
          // a process that the browser has begun may write there until it ends too
          if (error.code !== 'ENOTEMPTY') throw error;
        }
        ended();
      };
      if (isOver) clear();
      else this.child.on('exit', clear);
      this.child.kill('SIGKILL');
    });
  }
}

/** Logs in, by the mouse or by keys alone. */
export const logIn = async (page, url, name, isByKeys) => {
  await page.go(url);
  if (isByKeys) await page.until('document.activeElement?.id === "name"');
  else await page.click('#name');
  await page.insert(name);
  if (isByKeys) await page.key('Tab');
  else await page.click('#password');
  await page.insert('secret');
  await page.key('Enter');
  await page.until('document.querySelector("#state").textContent.includes("logged in")');
};
