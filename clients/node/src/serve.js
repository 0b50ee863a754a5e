// CSS over HTTP on the loopback address. Pages that take the script `/sassw.js` are told of each change and of each fault.

import { createHash } from 'node:crypto';
import { readFileSync } from 'node:fs';
import http from 'node:http';
import { fileOf, sendFile } from './pages.js';

/** @typedef {import('node:http').IncomingMessage} Request */
/** @typedef {import('node:http').ServerResponse} Response */

/** The address at which it listens: no other machine reaches it. */
export const LOOPBACK = '127.0.0.1';

/** The address of the script for pages. */
export const SCRIPT = '/sassw.js';

const EVENTS = '/sassw-events';
const PAGE_SCRIPT = readFileSync(new URL('./page.js', import.meta.url));

// How long a page waits before it connects again, and how often it is told that the server is there, in milliseconds.
const RETRY = 500;
const BEAT = 20_000;

/**
 * What an entry's CSS is now.
 * @typedef {object} Served
 * @property {Buffer | null} css the last good CSS, null before the first
 * @property {string | null} version another one for each content of `css`
 * @property {string | null} fault its explanation, as a text for people
 */

/**
 * Serves the CSS of entries. Only pages of this machine may read it: an address that isn't the loopback's is refused, so that no name of
 * another one's that leads here is of use, and of pages from elsewhere only those of `origins` are let.
 */
export class CssServer {
  /** @type {Map<string, Served>} */
  #sheets = new Map();
  /** @type {Set<Response>} */
  #pages = new Set();
  #server;
  #beat;
  #files;
  #origins;

  /**
   * @param {object} [options]
   * @param {string} [options.files] a folder whose files are served too
   * @param {string[]} [options.origins] further origins whose pages may read: `https://example.test`, or `null` for pages opened as files
   */
  constructor(options = {}) {
    this.#files = options.files;
    this.#origins = new Set(options.origins);
    this.#server = http.createServer((/** @type {Request} */ request, /** @type {Response} */ response) => void this.#answer(request, response));
    this.#beat = setInterval(() => this.#pages.forEach((page) => page.write(':\n\n')), BEAT);
    this.#beat.unref();
  }

  /**
   * Begins to listen.
   * @param {number} port 0 for any that is free
   * @returns {Promise<number>} the port
   * @throws {NodeJS.ErrnoException} (by the promise) where it is taken or not allowed
   */
  listen(port) {
    return new Promise((done, fail) => {
      this.#server.once('error', fail);
      this.#server.listen(port, LOOPBACK, () => {
        this.#server.off('error', fail);
        done(/** @type {import('node:net').AddressInfo} */ (this.#server.address()).port);
      });
    });
  }

  /**
   * Tells what an entry came to. Pages are told where it is something else than before.
   * @param {string} address of its CSS, such as `/pages/home.css`
   * @param {{ css: Buffer | null, fault: string | null }} outcome without CSS the last good one stays
   */
  put(address, { css, fault }) {
    const before = this.#sheets.get(address);
    const version = css ? createHash('sha256').update(css).digest('hex').slice(0, 16) : (before?.version ?? null);
    const now = { css: css ?? before?.css ?? null, version, fault };
    this.#sheets.set(address, now);
    if (before && before.version === version && before.fault === fault) return;
    this.#pages.forEach((page) => page.write(eventOf(address, now)));
  }

  /**
   * Ends all answers and listens no more.
   * @returns {Promise<void>}
   */
  close() {
    clearInterval(this.#beat);
    this.#pages.forEach((page) => page.end());
    this.#server.closeIdleConnections?.();
    return new Promise((done) => {
      this.#server.close(() => done());
      this.#server.closeAllConnections?.();
    });
  }

  /**
   * @param {Request} request
   * @param {Response} response
   */
  async #answer(request, response) {
    const isHead = request.method === 'HEAD';
    if (!isLoopback(`http://${request.headers.host}`)) return sendText(response, 403, `this address isn't served: ${request.headers.host}`);
    if (request.method !== 'GET' && !isHead) return sendText(response, 405, 'only GET and HEAD are answered');
    this.#let(request, response);
    const address = (request.url ?? '/').replace(/[?#].*$/s, '');
    const sheet = this.#sheets.get(decoded(address));
    if (sheet) return sendSheet(request, response, sheet, isHead);
    if (address === SCRIPT) return send(response, 200, 'text/javascript; charset=utf-8', PAGE_SCRIPT, isHead);
    if (address === EVENTS) return this.#connect(response);
    const file = this.#files === undefined ? null : await fileOf(this.#files, address);
    if (file) return sendFile(response, file, isHead);
    if (address === '/') return send(response, 200, 'text/html; charset=utf-8', Buffer.from(this.#listing()), isHead);
    return sendText(response, 404, `nothing stands at ${address}; there are ${[...this.#sheets.keys(), SCRIPT].join(', ')}`);
  }

  /**
   * Lets the page that asks read the answer, where it may.
   * @param {Request} request
   * @param {Response} response
   */
  #let(request, response) {
    const { origin } = request.headers;
    response.setHeader('Vary', 'Origin');
    response.setHeader('X-Content-Type-Options', 'nosniff');
    if (origin !== undefined && (isLoopback(origin) || this.#origins.has(origin))) {
      response.setHeader('Access-Control-Allow-Origin', origin);
    }
  }

  /** @param {Response} response */
  #connect(response) {
    response.writeHead(200, { 'Content-Type': 'text/event-stream', 'Cache-Control': 'no-store' });
    response.write(`retry: ${RETRY}\n\n`);
    this.#sheets.forEach((sheet, address) => response.write(eventOf(address, sheet)));
    this.#pages.add(response);
    response.on('close', () => this.#pages.delete(response));
  }

  // A page that says what is served, for who looks at the address alone.
  #listing() {
    const links = [...this.#sheets.keys()].map((it) => `<li><a href="${inHtml(encodeURI(it))}">${inHtml(it)}</a>`);
    const script = `<script src="${SCRIPT}"></script>`;
    return `<!doctype html><meta charset="utf-8"><title>sassw-serve</title><h1>CSS</h1><ul>${links.join('')}</ul>
<p>A page is kept up to date by <code>${inHtml(script)}</code> beside its links.</p>${script}\n`;
  }
}

/**
 * @param {string} origin
 * @returns {boolean} whether it is one of this machine's by name
 */
function isLoopback(origin) {
  try {
    const { hostname } = new URL(origin);
    return [LOOPBACK, 'localhost', '[::1]'].includes(hostname) || hostname.endsWith('.localhost');
  } catch {
    return false;
  }
}

/**
 * @param {string} address
 * @returns {string} as it was before it was encoded; itself where it is encoded wrongly
 */
function decoded(address) {
  try {
    return decodeURIComponent(address);
  } catch {
    return address;
  }
}

/**
 * @param {string} text
 * @returns {string}
 */
function inHtml(text) {
  return text.replace(/[&<>"]/g, (it) => `&#${it.charCodeAt(0)};`);
}

/**
 * What pages are told of an entry. `JSON.stringify` leaves no line break in it.
 * @param {string} address
 * @param {Served} sheet
 * @returns {string}
 */
function eventOf(address, { version, fault }) {
  return `event: sheet\ndata: ${JSON.stringify({ address, version, fault })}\n\n`;
}

/**
 * @param {Response} response
 * @param {number} status
 * @param {string} type
 * @param {Buffer} bytes
 * @param {boolean} isHead
 */
function send(response, status, type, bytes, isHead) {
  response.writeHead(status, { 'Content-Type': type, 'Content-Length': bytes.length, 'Cache-Control': 'no-cache' });
  response.end(isHead ? undefined : bytes);
}

/**
 * @param {Response} response
 * @param {number} status
 * @param {string} text
 */
function sendText(response, status, text) {
  send(response, status, 'text/plain; charset=utf-8', Buffer.from(`${text}\n`), false);
}

/**
 * @param {Request} request
 * @param {Response} response
 * @param {Served} sheet
 * @param {boolean} isHead
 */
function sendSheet(request, response, { css, version, fault }, isHead) {
  if (css === null) return send(response, 503, 'text/plain; charset=utf-8', Buffer.from(fault ?? 'not compiled yet\n'), isHead);
  const tag = `"${version}"`;
  response.setHeader('ETag', tag);
  if (request.headers['if-none-match'] === tag) {
    response.writeHead(304, { 'Cache-Control': 'no-cache' });
    response.end();
    return;
  }
  send(response, 200, 'text/css; charset=utf-8', css, isHead);
}
