// A headless Chromium that is spoken to over a pipe: messages in JSON, each ended by an octet 0.

import { spawn } from 'node:child_process';
import { mkdtempSync, rmSync } from 'node:fs';
import { tmpdir } from 'node:os';
import { fileURLToPath } from 'node:url';

const PAGE = new URL('../out/ecall.html', import.meta.url).href;
const PATIENCE = 60_000;
const FLAGS = ['--headless=new', '--no-sandbox', '--disable-gpu', '--remote-debugging-pipe', '--no-first-run', '--hide-scrollbars'];

export const ROOT = fileURLToPath(new URL('../../', import.meta.url));

export class Browser {
  constructor() {
    this.folder = mkdtempSync(`${tmpdir()}/ecall-page-`);
    this.child = spawn('chromium', [...FLAGS, `--user-data-dir=${this.folder}`, 'about:blank'], { stdio: ['ignore', 'ignore', 'ignore', 'pipe', 'pipe'] });
    this.waiting = new Map();
    this.requests = [];
    this.faults = [];
    this.next = 1;
    let left = '';
    this.child.stdio[4].setEncoding('utf8').on('data', piece => {
      const messages = (left + piece).split('\0');
      left = messages.pop();
      messages.forEach(message => this.hear(JSON.parse(message)));
    });
  }

  hear({ id, result, error, method, params }) {
    if (method === 'Network.requestWillBeSent') this.requests.push(params.request.url);
    if (method === 'Runtime.exceptionThrown') this.faults.push(params.exceptionDetails.exception?.description ?? params.exceptionDetails.text);
    const waiting = this.waiting.get(id);
    if (!waiting) return;
    this.waiting.delete(id);
    clearTimeout(waiting.timer);
    if (error) waiting.fail(new Error(`${waiting.method}: ${error.message}`));
    else waiting.done(result);
  }

  send(method, params = {}) {
    const id = this.next++;
    return new Promise((done, fail) => {
      const timer = setTimeout(() => fail(new Error(`${method}: no answer`)), PATIENCE);
      this.waiting.set(id, { done, fail, timer, method });
      this.child.stdio[3].write(`${JSON.stringify({ id, method, params, ...(this.session ? { sessionId: this.session } : {}) })}\0`);
    });
  }

  /** Begins with a tab of its own. */
  async begin() {
    const { targetId } = await this.send('Target.createTarget', { url: 'about:blank' });
    this.session = (await this.send('Target.attachToTarget', { targetId, flatten: true })).sessionId;
    for (const domain of ['Page', 'Runtime', 'Network', 'Accessibility']) await this.send(`${domain}.enable`);
    return this;
  }

  /** Opens the page from the disk, with this behind its name, and waits until it stands. */
  async open(query = '') {
    await this.send('Page.navigate', { url: PAGE + query });
    await this.until("document.documentElement?.dataset.ready === 'yes'");
  }

  /** The value of an expression on the page. */
  async value(expression) {
    const { result, exceptionDetails } = await this.send('Runtime.evaluate', { expression, returnByValue: true, awaitPromise: true });
    if (exceptionDetails) throw new Error(exceptionDetails.exception?.description ?? exceptionDetails.text);
    return result.value;
  }

  async until(expression) {
    const end = Date.now() + PATIENCE;
    while (!(await this.value(expression))) {
      if (Date.now() > end) throw new Error(`not so in time: ${expression}`);
      await new Promise(done => setTimeout(done, 50));
    }
  }

  /** Sets the screen's size in pixels, and its theme. */
  async look(width, height, theme = 'light') {
    await this.send('Emulation.setDeviceMetricsOverride', { width, height, deviceScaleFactor: 1, mobile: false });
    await this.send('Emulation.setEmulatedMedia', { features: [{ name: 'prefers-color-scheme', value: theme }] });
  }

  async press(key) {
    await this.send('Input.dispatchKeyEvent', { type: 'keyDown', key, code: key });
    await this.send('Input.dispatchKeyEvent', { type: 'keyUp', key, code: key });
  }

  async picture() {
    return Buffer.from((await this.send('Page.captureScreenshot', { format: 'png' })).data, 'base64');
  }

  async end() {
    const ended = new Promise(done => this.child.once('exit', done));
    this.session = undefined;
    await this.send('Browser.close').catch(() => this.child.kill());
    await ended;
    rmSync(this.folder, { recursive: true, force: true, maxRetries: 5 });
  }
}
