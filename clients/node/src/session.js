// One process `sassw session`: requests in order, a promise for each.

import { spawn } from 'node:child_process';
import { MOST_FILE_BYTES, MOST_LINE_BYTES, MOST_LOAD_PATHS, isPath, whyNoPath } from './names.js';
import { ProgramError, findProgram } from './program.js';
import { readReply } from './reply.js';

/** @typedef {import('./reply.js').Reply} Reply */
/** @typedef {import('./reply.js').EditReply} EditReply */

/** A request that was not sent, since the program would not take it. Its message is a sentence that says why. */
export class RequestError extends Error {
  /** @param {string} message */
  constructor(message) {
    super(message);
    this.name = 'RequestError';
  }
}

/** An edit that the program refused: `code` is one of 201 to 205 of docs/PROTOCOL.md. */
export class EditRefused extends Error {
  /**
   * @param {number} code
   * @param {string} path
   */
  constructor(code, path) {
    super(`${path}: ${REFUSALS[code] ?? 'the program refused it'} (refused ${code})`);
    this.name = 'EditRefused';
    this.code = code;
    this.path = path;
  }
}

/** The program ended, and starting it anew was of no use. `status` is how it ended. */
export class SessionEnded extends Error {
  /** @param {number | string} status */
  constructor(status) {
    super(`the program sassw ended with ${typeof status === 'number' ? `status ${status}` : `signal ${status}`}${STATUSES[status] ?? ''}`);
    this.name = 'SessionEnded';
    this.status = status;
  }
}

const REFUSALS = /** @type {Record<number, string>} */ ({
  201: 'its name is no path',
  202: 'it has more than 1 MiB',
  203: '4,096 files are held already',
  204: 'it is not UTF-8',
  205: 'no file of this name is held',
});

const STATUSES = /** @type {Record<number | string, string>} */ ({
  2: ': it could not read a request',
  3: ': its input ended early',
  4: ': it could not read its input',
  5: ': it could not write its replies',
  6: ': there was not enough memory',
  7: ': it does not know the word "session", so it may be another program',
});

// The statuses after which a new process may do what the last one could not. Of others nothing better can come.
const STARTS_ANEW = [2, 6, 9];

// How often one request is sent before it counts as what ends the program.
const MOST_SENDS = 3;

// The status where 1,000,000 requests were answered: no fault of the next one.
const WORN_OUT = 9;

/**
 * @typedef {object} Request
 * @property {'edit' | 'compile'} kind
 * @property {Buffer[]} bytes
 * @property {() => void} carry what the session holds once it is answered well
 * @property {string} path
 * @property {number} sends
 * @property {boolean} silent whether it puts a held file again, so that nobody waits for it
 * @property {(reply: any) => void} resolve
 * @property {(error: Error) => void} reject
 */

/**
 * A session with the program. Requests are answered in the order in which they are made, and may be made before earlier
 * ones are answered. Where the process ends by itself (status 2, 6 or 9, or a signal) a new one is started with the
 * files that were held, and what wasn't answered is asked again; one request is sent three times at most.
 */
export class Session {
  /** @type {Map<string, Buffer>} */
  #held = new Map();
  /** @type {Request[]} */
  #waiting = [];
  /** @type {import('node:child_process').ChildProcess | null} */
  #child = null;
  /** @type {Buffer[]} */
  #chunks = [];
  #size = 0;
  #needs = 1;
  #closed = false;
  /** @type {Promise<void>} */
  #gone = Promise.resolve();
  /** How often a process was started. */
  starts = 0;

  /** @param {{ program?: string }} [options] the path of the program; it is looked for at the first request */
  constructor(options = {}) {
    this.program = options.program;
  }

  /** The id of the running process, or null. @returns {number | null} */
  get processId() {
    return this.#child?.pid ?? null;
  }

  /** The paths of the files that are held, once all requests so far are answered. @returns {string[]} */
  get held() {
    return [...this.#held.keys()];
  }

  /**
   * Puts a file in the place of any earlier one of its name.
   * @param {string} path
   * @param {Buffer | string} content a text is put as UTF-8
   * @returns {Promise<void>}
   * @throws {RequestError} (as all errors: by the promise) where the name is no path or the file is too long
   * @throws {EditRefused} where the program refuses it
   */
  put(path, content) {
    const bytes = typeof content === 'string' ? Buffer.from(content, 'utf8') : content;
    const wrong = whyNoPath(path);
    if (wrong) return Promise.reject(new RequestError(`${JSON.stringify(path)} ${wrong}`));
    if (bytes.length > MOST_FILE_BYTES) return Promise.reject(new RequestError(`${path} has ${bytes.length} bytes, and a file has at most ${MOST_FILE_BYTES}`));
    const carry = () => void this.#held.set(path, bytes);
    return this.#edit(path, putBytes(path, bytes), carry);
  }

  /**
   * Removes a file.
   * @param {string} path
   * @returns {Promise<void>}
   * @throws {RequestError} where the name is no path
   * @throws {EditRefused} with the code 205 where no such file is held
   */
  remove(path) {
    const wrong = whyNoPath(path);
    if (wrong) return Promise.reject(new RequestError(`${JSON.stringify(path)} ${wrong}`));
    const carry = () => void this.#held.delete(path);
    return this.#edit(path, [Buffer.from(`remove ${path}\n`)], carry);
  }

  /**
   * Compiles an entry.
   * @param {string} path
   * @param {string[]} [loadPaths] zero to eight paths, or `.` for the folder itself
   * @returns {Promise<Reply>} its paths are those of the session
   * @throws {RequestError} where a name is no path, or there are too many
   */
  compile(path, loadPaths = []) {
    const odd = [path, ...loadPaths.filter((it) => it !== '.')].find((it) => !isPath(it));
    if (odd !== undefined) return Promise.reject(new RequestError(`${JSON.stringify(odd)} ${whyNoPath(odd)}`));
    if (loadPaths.length > MOST_LOAD_PATHS) return Promise.reject(new RequestError(`there are ${loadPaths.length} load paths, and at most ${MOST_LOAD_PATHS} are taken`));
    const line = ['compile', path, ...loadPaths].join(' ');
    if (line.length > MOST_LINE_BYTES) return Promise.reject(new RequestError(`the entry and the load paths have ${line.length} bytes together, and a request has at most ${MOST_LINE_BYTES}`));
    return this.#ask({ kind: 'compile', path, bytes: [Buffer.from(`${line}\n`)], carry: () => {} });
  }

  /**
   * Ends the session once all requests are answered. No request is taken any more.
   * @returns {Promise<void>}
   */
  async close() {
    this.#closed = true;
    await Promise.allSettled(this.#waiting.map((it) => new Promise((done) => after(it, done))));
    const child = this.#child;
    if (child?.stdin?.writable) child.stdin.end('end\n');
    await this.#gone;
  }

  /**
   * @param {string} path
   * @param {Buffer[]} bytes
   * @param {() => void} carry
   * @returns {Promise<void>}
   */
  async #edit(path, bytes, carry) {
    const reply = await this.#ask({ kind: 'edit', path, bytes, carry });
    if (reply.refused) throw new EditRefused(reply.refused, path);
  }

  /**
   * @param {{ kind: 'edit' | 'compile', path: string, bytes: Buffer[], carry: () => void }} request
   * @returns {Promise<any>}
   */
  #ask(request) {
    if (this.#closed) return Promise.reject(new RequestError('the session is closed'));
    return new Promise((resolve, reject) => {
      const whole = { ...request, sends: 0, silent: false, resolve, reject };
      this.#waiting.push(whole);
      try {
        if (this.#child) this.#send(whole);
        else this.#start();
      } catch (error) {
        this.#fail(/** @type {Error} */ (error));
      }
    });
  }

  // Starts a process, gives it the files that are held, and asks what waits.
  #start() {
    const program = findProgram(this.program);
    const child = spawn(program, ['session'], { stdio: ['pipe', 'pipe', 'ignore'] });
    this.#child = child;
    this.#chunks = [];
    this.#size = 0;
    this.#needs = 1;
    this.starts += 1;
    this.#gone = new Promise((done) => {
      child.once('error', (error) => {
        this.#fail(new ProgramError(`the program ${program} does not start: ${error.message}`));
        done();
      });
      child.once('close', (status, signal) => {
        this.#ended(child, status ?? signal ?? 'unknown');
        done();
      });
    });
    // A process that ends breaks the pipe; what comes of that is told by its end.
    child.stdin?.on('error', () => {});
    child.stdout?.on('data', (chunk) => this.#read(child, chunk));
    const again = [...this.#held].map(([path, bytes]) => putAgain(path, bytes));
    this.#waiting = [...again, ...this.#waiting];
    for (const request of this.#waiting) this.#send(request);
  }

  /** @param {Request} request */
  #send(request) {
    request.sends += 1;
    const pipe = this.#child?.stdin;
    // What is asked in one go is written in one go.
    if (pipe?.writableCorked === 0) {
      pipe.cork();
      process.nextTick(() => pipe.uncork());
    }
    for (const it of request.bytes) pipe?.write(it);
  }

  /**
   * @param {import('node:child_process').ChildProcess} child
   * @param {Buffer} chunk
   */
  #read(child, chunk) {
    if (child !== this.#child) return;
    this.#chunks.push(chunk);
    this.#size += chunk.length;
    if (this.#size < this.#needs) return;
    const bytes = Buffer.concat(this.#chunks);
    let [at, answered, needs] = [0, 0, 1];
    try {
      while (at < bytes.length && answered < this.#waiting.length) {
        const request = this.#waiting[answered];
        const found = readReply(request.kind, bytes.subarray(at));
        needs = found.needs;
        if (!found.reply) break;
        at += found.taken;
        answered += 1;
        answer(request, found.reply);
      }
    } catch (error) {
      // It isn't the program that it should be: no later bytes can be trusted.
      this.#waiting.splice(0, answered);
      this.#fail(new ProgramError(`the program ${child.spawnfile} gave no reply of a session: ${/** @type {Error} */ (error).message}`));
      return;
    }
    this.#waiting.splice(0, answered);
    const left = bytes.subarray(at);
    this.#chunks = left.length > 0 ? [left] : [];
    this.#size = left.length;
    this.#needs = Math.max(1, needs);
  }

  /**
   * @param {import('node:child_process').ChildProcess} child
   * @param {number | string} status
   */
  #ended(child, status) {
    if (child !== this.#child) return;
    this.#child = null;
    // What only put a held file again is made anew by the next start.
    const breaker = this.#waiting[0];
    this.#waiting = this.#waiting.filter((it) => !it.silent);
    if (this.#waiting.length === 0) return;
    const mayGoOn = typeof status === 'string' || STARTS_ANEW.includes(status);
    if (!mayGoOn) return this.#fail(new SessionEnded(status));
    if (status === WORN_OUT && !breaker.silent) breaker.sends = 0;
    const first = this.#waiting[0];
    for (const it of this.#waiting.slice(1)) it.sends = 0;
    if (first.sends >= MOST_SENDS) {
      this.#waiting.shift();
      first.reject(new SessionEnded(status));
      if (this.#waiting.length === 0) return;
    }
    try {
      this.#start();
    } catch (error) {
      this.#fail(/** @type {Error} */ (error));
    }
  }

  /**
   * Nothing that waits is answered.
   * @param {Error} error
   */
  #fail(error) {
    const child = this.#child;
    this.#child = null;
    child?.kill();
    const waiting = this.#waiting;
    this.#waiting = [];
    for (const it of waiting) it.reject(error);
  }
}

/**
 * @param {Request} request
 * @param {Reply | EditReply} reply
 */
function answer(request, reply) {
  if (!('refused' in reply) || reply.refused === 0) request.carry();
  request.resolve(reply);
}

/**
 * @param {string} path
 * @param {Buffer} bytes
 * @returns {Buffer[]}
 */
function putBytes(path, bytes) {
  return [Buffer.from(`put ${path} ${bytes.length}\n`), bytes, Buffer.from('\n')];
}

/**
 * @param {string} path
 * @param {Buffer} bytes
 * @returns {Request}
 */
function putAgain(path, bytes) {
  const nothing = () => {};
  return { kind: 'edit', path, bytes: putBytes(path, bytes), carry: nothing, sends: 0, silent: true, resolve: nothing, reject: nothing };
}

/**
 * Calls back once a request is answered or refused.
 * @param {Request} request
 * @param {(value?: unknown) => void} done
 */
function after(request, done) {
  const { resolve, reject } = request;
  request.resolve = (reply) => {
    resolve(reply);
    done();
  };
  request.reject = (error) => {
    reject(error);
    done();
  };
}
