// A real browser for the tests, driven through its pipe (file handles 3 and 4) by the DevTools protocol. No package is needed.
'use strict';
import { spawn } from 'node:child_process';
import { mkdtempSync, rmSync, writeFileSync } from 'node:fs';
import { tmpdir } from 'node:os';
import { join } from 'node:path';

const LIMIT = 60000;
const WORDS = ['--headless', '--no-sandbox', '--disable-gpu', '--hide-scrollbars', '--no-first-run', '--remote-debugging-pipe'];

/** Starts the browser, and gives what opens pages in it. */
export async function start(program) {
  const browser = new Browser(program), { product } = await browser.call('Browser.getVersion');
  return Object.assign(browser, { product });
}

/** A browser that runs with a folder of its own: calls go to it through its pipe, and what it says comes back. */
class Browser {
  constructor(program) {
    this.home = mkdtempSync(join(tmpdir(), 'gridlay-browser-'));
    this.child = spawn(program, [...WORDS, `--user-data-dir=${this.home}`], { stdio: ['ignore', 'ignore', 'ignore', 'pipe', 'pipe'] });
    this.waiting = new Map();
    this.listeners = new Map();
    this.last = 0;
    this.rest = Buffer.alloc(0);
    this.ended = null;
    this.child.on('exit', status => this.end(new Error(`the browser ended with status ${status}`)));
    this.child.on('error', error => this.end(error));
    this.child.stdio[4].on('data', piece => this.take(piece));
  }

  /** Nothing comes any more: all that is waited for is refused. */
  end(error) {
    this.ended = error;
    for (const { refuse } of this.waiting.values()) refuse(error);
  }

  /** A piece of what the browser says: each message ends with a zero byte. */
  take(piece) {
    this.rest = Buffer.concat([this.rest, piece]);
    for (let end = this.rest.indexOf(0); end >= 0; end = this.rest.indexOf(0)) {
      this.hear(JSON.parse(this.rest.subarray(0, end).toString('utf8')));
      this.rest = this.rest.subarray(end + 1);
    }
  }

  hear(said) {
    const asked = this.waiting.get(said.id);
    if (asked) {
      this.waiting.delete(said.id);
      clearTimeout(asked.timer);
      if (said.error) asked.refuse(new Error(`${asked.method}: ${said.error.message}`));
      else asked.settle(said.result);
    } else if (said.sessionId) {
      this.listeners.get(said.sessionId)?.(said.method, said.params);
    }
  }

  call(method, params = {}, sessionId = undefined) {
    if (this.ended) return Promise.reject(this.ended);
    const id = ++this.last;
    return new Promise((settle, refuse) => {
      const timer = setTimeout(() => refuse(new Error(`${method} took more than ${LIMIT} ms`)), LIMIT);
      this.waiting.set(id, { method, settle, refuse, timer });
      this.child.stdio[3].write(`${JSON.stringify({ id, method, params, sessionId })}\0`);
    });
  }

  /** Opens a page. */
  async open() {
    const { targetId } = await this.call('Target.createTarget', { url: 'about:blank' });
    const { sessionId } = await this.call('Target.attachToTarget', { targetId, flatten: true });
    const page = new Page((method, params) => this.call(method, params, sessionId), () => this.call('Target.closeTarget', { targetId }));
    this.listeners.set(sessionId, (method, params) => page.hear(method, params));
    for (const part of ['Page', 'Runtime', 'Log', 'Network']) await page.call(`${part}.enable`);
    return page;
  }

  async close() {
    const { child } = this;
    await this.call('Browser.close').catch(() => {});
    if (child.exitCode === null) await new Promise(done => { child.once('exit', done); setTimeout(() => { child.kill('SIGKILL'); done(); }, 3000); });
    rmSync(this.home, { recursive: true, force: true, maxRetries: 5, retryDelay: 200 });
  }
}

/** A page of the browser: what it says on its console and asks of the network is kept. */
class Page {
  constructor(call, close) {
    this.call = call;
    this.close = close;
    /** Errors and warnings of the console, exceptions that nothing caught, and what failed to load. */
    this.troubles = [];
    /** Addresses that were asked for, except the page itself and what it holds. */
    this.requests = [];
    this.loaded = () => {};
  }

  hear(method, params) {
    if (method === 'Page.loadEventFired') this.loaded();
    if (method === 'Runtime.exceptionThrown') this.troubles.push(params.exceptionDetails.exception?.description ?? params.exceptionDetails.text);
    if (method === 'Runtime.consoleAPICalled' && ['error', 'warning', 'assert'].includes(params.type)) this.troubles.push(params.args.map(it => it.value ?? it.description).join(' '));
    if (method === 'Log.entryAdded' && params.entry.level === 'error') this.troubles.push(`${params.entry.text} ${params.entry.url ?? ''}`);
    if (method === 'Network.requestWillBeSent' && !/^(data|blob|file|about):/.test(params.request.url)) this.requests.push(params.request.url);
  }

  async go(url) {
    const loaded = new Promise(done => { this.loaded = done; });
    const { errorText } = await this.call('Page.navigate', { url });
    if (errorText) throw new Error(`${url}: ${errorText}`);
    await loaded;
  }

  /** The value of an expression in the page; a promise is waited for. */
  async value(expression) {
    const { result, exceptionDetails } = await this.call('Runtime.evaluate', { expression, returnByValue: true, awaitPromise: true });
    if (exceptionDetails) throw new Error(exceptionDetails.exception?.description ?? exceptionDetails.text);
    return result.value;
  }

  /** Waits until an expression is true. */
  async until(expression, limit = LIMIT) {
    const end = Date.now() + limit;
    while (!await this.value(`Boolean(${expression})`)) {
      if (Date.now() > end) throw new Error(`not so within ${limit} ms: ${expression}`);
      await new Promise(done => setTimeout(done, 20));
    }
  }

  async size(width, height, scale = 1) {
    await this.call('Emulation.setDeviceMetricsOverride', { width, height, deviceScaleFactor: scale, mobile: false });
  }

  async scheme(name) {
    await this.call('Emulation.setEmulatedMedia', { features: [{ name: 'prefers-color-scheme', value: name }] });
  }

  async mouse(type, x, y, more = {}) {
    await this.call('Input.dispatchMouseEvent', { type, x, y, button: type === 'mouseMoved' ? 'none' : 'left', clickCount: type === 'mouseMoved' ? 0 : 1, ...more });
  }

  async click(x, y) {
    await this.mouse('mouseMoved', x, y);
    await this.mouse('mousePressed', x, y);
    await this.mouse('mouseReleased', x, y);
  }

  async drag(from, to, steps = 5) {
    await this.mouse('mouseMoved', ...from);
    await this.mouse('mousePressed', ...from);
    for (let step = 1; step <= steps; step++) {
      await this.mouse('mouseMoved', from[0] + (to[0] - from[0]) * step / steps, from[1] + (to[1] - from[1]) * step / steps, { buttons: 1, button: 'left' });
    }
    await this.mouse('mouseReleased', ...to);
  }

  async key(key, more = {}) {
    const params = { key, code: key, windowsVirtualKeyCode: CODES[key] ?? key.toUpperCase().charCodeAt(0), ...more };
    await this.call('Input.dispatchKeyEvent', { type: 'keyDown', ...params, ...(key.length === 1 ? { text: key } : {}) });
    await this.call('Input.dispatchKeyEvent', { type: 'keyUp', ...params });
  }

  /** Types a text, key by key. */
  async type(text) {
    for (const key of text) await this.key(key);
  }

  async picture(file, clip = undefined) {
    const { data } = await this.call('Page.captureScreenshot', { format: 'png', ...(clip ? { clip: { scale: 1, ...clip } } : {}) });
    writeFileSync(file, Buffer.from(data, 'base64'));
  }
}

const CODES = { ArrowLeft: 37, ArrowUp: 38, ArrowRight: 39, ArrowDown: 40, Home: 36, End: 35, Enter: 13, Escape: 27, Tab: 9, Delete: 46, Backspace: 8 };
