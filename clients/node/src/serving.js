// Compiles the sheets of a folder whenever they change, and serves their CSS.

import path from 'node:path';
import { STATUS, checkLoadPaths } from './build.js';
import { Compiler } from './compiler.js';
import { headOf } from './excerpt.js';
import { Folders } from './folders.js';
import { extensionOf } from './names.js';
import { counted, sizeOf, timeOf } from './output.js';
import { SurroundingsError, checkRoot, tasksOf } from './plan.js';
import { CssServer, LOOPBACK, SCRIPT } from './serve.js';
import { WordsError } from './words.js';

/**
 * @typedef {import('./compiler.js').Compiled} Compiled
 *
 * @typedef {object} ServeOptions
 * @property {string} root the folder of the sheets
 * @property {string[]} [entries] sheets in it; all that don't begin with `_` where there are none
 * @property {number} [port] 0 for any that is free; 4747 without it
 * @property {string} [files] a folder whose files are served too
 * @property {string[]} [origins] further origins whose pages may read what is served
 * @property {string[]} [loadPaths] up to eight folders
 * @property {boolean} [colour] whether explanations have colours
 * @property {string} [program] the path of the program
 * @property {(line: string) => void} [say] gets each line about what is served, without its line feed
 * @property {(text: string) => void} [tell] gets each explanation
 * @property {AbortSignal} [signal] ends it
 */

/** Where it listens without another word. */
export const PORT = 4747;

const COLOURS = /\u001b\[[0-9;]*m/g;

/**
 * Serves the CSS of sheets, and compiles them again whenever what they load changes.
 * @param {ServeOptions} options
 * @returns {Promise<number>} the status, once the signal ended it
 * @throws {WordsError} (as all errors: by the promise) where the options name no sheets
 * @throws {SurroundingsError} where a folder isn't there, or the port is taken
 * @throws {import('./program.js').ProgramError} where the program isn't found
 */
export async function serve(options) {
  checkRoot(options.root, 'sassw-serve');
  checkLoadPaths(options.loadPaths ?? []);
  if (options.files !== undefined) checkRoot(options.files, '--files');
  const serving = new Serving(options);
  const stop = () => serving.folders.close();
  options.signal?.addEventListener('abort', stop);
  try {
    await serving.run();
    return STATUS.well;
  } finally {
    options.signal?.removeEventListener('abort', stop);
    await serving.close();
  }
}

class Serving {
  /** Of each entry whether its last compile had a fault. @type {Map<string, boolean>} */
  #faulty = new Map();
  #isGone = false;

  /** @param {ServeOptions} options */
  constructor(options) {
    const { root, loadPaths, program, colour, files, origins } = options;
    this.options = options;
    this.root = path.resolve(root);
    this.say = options.say ?? (() => {});
    this.tell = options.tell ?? (() => {});
    this.folders = new Folders({ root: this.root, isKnown: (it) => this.#isRead(it) });
    this.folders.add(this.root);
    this.folders.add(path.dirname(this.root));
    const beforeFolder = (/** @type {string} */ it) => this.folders.add(it);
    this.compiler = new Compiler({ root, loadPaths, program, colour, told: true, beforeFolder });
    this.server = new CssServer({ files: files === undefined ? undefined : path.resolve(files), origins });
  }

  async run() {
    let entries = this.#entries();
    const place = `http://${LOOPBACK}:${await this.#listen()}`;
    for (const it of entries) await this.#compile(it);
    const links = entries.map((it) => `<link rel="stylesheet" href="${place}${encodeURI(addressOf(it))}">`);
    this.say(`serving ${this.options.root} at ${place}; a page takes it by\n  ${[...links, `<script src="${place}${SCRIPT}"></script>`].join('\n  ')}`);
    for (;;) {
      const changed = await this.folders.next();
      if (this.options.signal?.aborted) return;
      this.compiler.changed(changed);
      if (!this.#isThere()) continue;
      entries = this.#entriesAgain(entries);
      for (const it of entries) if (!this.#faulty.has(it) || !this.compiler.isCurrent(it)) await this.#compile(it);
    }
  }

  /** @returns {Promise<void>} */
  async close() {
    this.folders.close();
    await this.server.close();
    await this.compiler.close();
  }

  /**
   * The sheets that are asked for. Nothing is written, so no sheet may say where to.
   * @returns {string[]}
   */
  #entries() {
    const { root, entries = [] } = this.options;
    // No sheet stands in this folder, so none of them is in the way of what another one comes to.
    const nowhere = path.join(this.root, '.served');
    const tasks = tasksOf({ root, entries, out: nowhere }, this.compiler.mounts.disk);
    const odd = tasks.find((it) => it.out !== path.join(nowhere, addressOf(it.entry)));
    if (odd) throw new WordsError(`${odd.entry}:${odd.shown}: write ${odd.entry}, since its CSS goes to no file`);
    return tasks.map((it) => it.entry);
  }

  /**
   * The sheets that are there now. Where two of them would be served at one address, which may come by a rename, it is told.
   * @param {string[]} before
   * @returns {string[]}
   */
  #entriesAgain(before) {
    try {
      return this.#entries();
    } catch (error) {
      this.tell(`${/** @type {Error} */ (error).message}\n`);
      return before;
    }
  }

  /** @returns {Promise<number>} the port */
  async #listen() {
    const { port = PORT } = this.options;
    try {
      return await this.server.listen(port);
    } catch (error) {
      const { code, message } = /** @type {NodeJS.ErrnoException} */ (error);
      throw new SurroundingsError(code === 'EADDRINUSE' ? `port ${port} is taken: give another one by --port N` : `port ${port} can't be had: ${message}`);
    }
  }

  /**
   * @param {string} file
   * @returns {boolean} whether a sheet loads it
   */
  #isRead(file) {
    for (const entry of this.#faulty.keys()) if (this.compiler.graph(entry).sheets.has(file)) return true;
    return false;
  }

  // Whether the folder of the sheets is there; tells when it went and when it is back.
  #isThere() {
    const isThere = this.compiler.mounts.disk.list(this.root).there;
    if (isThere && this.#isGone) this.compiler.changed([this.root]);
    if (isThere === this.#isGone) this.tell(isThere ? `${this.options.root} is back\n` : `${this.options.root} is gone: waiting until it is back\n`);
    this.#isGone = !isThere;
    return isThere;
  }

  /** @param {string} entry */
  async #compile(entry) {
    const address = addressOf(entry);
    try {
      const compiled = await this.compiler.compile(entry);
      if (compiled.explanation) this.tell(compiled.explanation);
      this.server.put(address, { css: compiled.css, fault: faultOf(compiled) });
      this.say(`${address} ${outcomeOf(compiled, this.#faulty.get(entry) ?? false)}, ${timeOf(compiled.milliseconds)}`);
      this.#faulty.set(entry, compiled.css === null);
    } catch (error) {
      const it = /** @type {Error} */ (error);
      if (it.name === 'ProgramError') throw it;
      this.#faulty.set(entry, true);
      this.tell(`${address}: ${it.message}\n`);
      this.server.put(address, { css: null, fault: `${it.message}\n` });
    }
  }
}

/**
 * @param {string} entry
 * @returns {string} where its CSS is served
 */
function addressOf(entry) {
  return `/${entry.slice(0, -extensionOf(entry).length).split(path.sep).join('/')}.css`;
}

/**
 * @param {Compiled} compiled
 * @param {boolean} wasFaulty
 * @returns {string} what became of an entry
 */
function outcomeOf({ css, fault, ran, modules }, wasFaulty) {
  const share = `${ran.length} of ${counted(modules, 'module')}`;
  if (css !== null) return `${wasFaulty ? 'fixed, ' : ''}${sizeOf(css.length)}, ${share}`;
  return `stays${fault ? `, since there is fault ${fault.code}` : ''}, ${share}`;
}

/**
 * What is shown in a page.
 * @param {Compiled} compiled
 * @returns {string | null} the explanation of the fault, without that of the messages before it; null where all is well
 */
function faultOf({ css, problems, explanation }) {
  if (css !== null) return null;
  const last = problems.at(-1);
  if (!last) return 'no CSS came\n';
  const plain = explanation.replace(COLOURS, '');
  const head = `${last.path ? `${headOf(last.path, last.span.from)}: ` : ''}${last.message}`;
  return plain.slice(Math.max(plain.lastIndexOf(head), 0));
}
