// A real Chromium without a window, driven over its debugging pipe: the messages are JSON, each ended by a byte 0.
// @ts-check
import { spawn } from 'node:child_process';
import { writeFile } from 'node:fs/promises';
import { until } from './room.js';

const WRITES = 3;
const READS = 4;

/** A page of the browser. */
class Page {
  constructor(browser, session) {
    this.browser = browser;
    this.session = session;
  }

  /** The value of an expression of the page, awaited where it is a promise. Throws what the page throws. */
  async value(expression) {
    const words = { expression, awaitPromise: true, returnByValue: true };
    const { result, exceptionDetails } = await this.browser.ask('Runtime.evaluate', words, this.session);
    if (exceptionDetails) {
      throw new Error(exceptionDetails.exception?.description ?? exceptionDetails.text);
    }
    return result.value;
  }

  /** Waits until an expression of the page gives what counts as true, and gives that. */
  until(expression) {
    return until(expression, () => this.value(expression));
  }

  /** Writes what the page looks like as a PNG. */
  async screenshot(file) {
    const { data } = await this.browser.ask('Page.captureScreenshot', { format: 'png' }, this.session);
    await writeFile(file, Buffer.from(data, 'base64'));
  }
}

export class Browser {
  /** Starts Chromium in a room, which stops it. */
  static async of(room) {
    const words = ['--headless=new', '--no-sandbox', '--disable-gpu', '--no-first-run', '--disable-dev-shm-usage', '--window-size=900,620'];
    const child = spawn('chromium', [...words, '--remote-debugging-pipe', `--user-data-dir=${room.at('chromium')}`, 'about:blank'], {
      cwd: room.folder,
      env: { ...process.env, HOME: room.folder, XDG_RUNTIME_DIR: room.folder },
      stdio: ['ignore', 'ignore', 'ignore', 'pipe', 'pipe'],
      detached: true,
    });
    room.running.push(child);
    const browser = new Browser(child);
    await browser.ask('Browser.getVersion');
    return browser;
  }

  constructor(child) {
    this.child = child;
    this.number = 0;
    this.asked = new Map();
    this.rest = Buffer.alloc(0);
    child.stdio[READS].on('data', (bytes) => this.take(bytes));
    child.on('exit', () => this.refuse(new Error('Chromium ended')));
    child.on('error', (error) => this.refuse(error));
    child.stdio[WRITES].on('error', (error) => this.refuse(error));
  }

  refuse(error) {
    this.asked.forEach(({ fail }) => fail(error));
    this.asked.clear();
  }

  take(bytes) {
    this.rest = Buffer.concat([this.rest, bytes]);
    for (let end; (end = this.rest.indexOf(0)) >= 0; ) {
      const { id, result, error } = JSON.parse(this.rest.subarray(0, end).toString());
      this.rest = this.rest.subarray(end + 1);
      const waiting = this.asked.get(id);
      this.asked.delete(id);
      if (error) {
        waiting?.fail(new Error(error.message));
      } else {
        waiting?.done(result);
      }
    }
  }

  /** Asks the browser, or a session of it, by the words of its debugging protocol. */
  ask(method, params = {}, sessionId = undefined) {
    const id = ++this.number;
    return new Promise((done, fail) => {
      this.asked.set(id, { done, fail });
      this.child.stdio[WRITES].write(`${JSON.stringify({ id, method, params, sessionId })}\0`);
    });
  }

  /** Opens a page and waits until it has loaded. */
  async page(url) {
    const { targetId } = await this.ask('Target.createTarget', { url });
    const { sessionId } = await this.ask('Target.attachToTarget', { targetId, flatten: true });
    const page = new Page(this, sessionId);
    await page.until(`location.href === ${JSON.stringify(new URL(url).href)} && document.readyState === "complete"`);
    return page;
  }
}
