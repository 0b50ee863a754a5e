// Compiles entries of a folder as it is on the disk, over one session.

import { realpathSync } from 'node:fs';
import path from 'node:path';
import { explain, problemsOf } from './explain.js';
import { loadAt } from './loads.js';
import { Mounts } from './mounts.js';
import { MOST_FILES, MOST_LOAD_PATHS, extensionOf, isPath } from './names.js';
import { RequestError, Session } from './session.js';
import { Surroundings } from './surroundings.js';
import { lineStarts, offsetOf } from './text.js';

/**
 * @typedef {import('./reply.js').Reply} Reply
 * @typedef {import('./reply.js').Message} Message
 * @typedef {import('./reply.js').Fault} Fault
 * @typedef {import('./mounts.js').Graph} Graph
 * @typedef {import('./disk.js').Sheet} Sheet
 *
 * What an entry came to. All paths are absolute, and those by which the files were reached (with links as they are),
 * but for `dependencies`.
 * @typedef {object} Compiled
 * @property {Buffer | null} css null where there is a fault
 * @property {Message[]} messages of `@warn`, `@debug` and `@error`, in their order
 * @property {Fault | null} fault
 * @property {boolean} memory whether there was not enough memory; then there is neither CSS nor a fault
 * @property {string} explanation the messages and the fault as a person reads them, or '' where there are none
 * @property {import('./explain.js').Problem[]} problems the same as data
 * @property {Array<{ path: string, cause: string }>} ran the modules whose bodies ran, and why (docs/PROTOCOL.md)
 * @property {string[]} dependencies the files that were reached, as paths without links; a link to one is named too
 * @property {string[]} absent places where a file that isn't there would change what is reached, were it made
 * @property {number} modules how many files the entry reaches, with itself
 * @property {number} milliseconds from the call to the reply
 *
 * @typedef {object} CompilerOptions
 * @property {string} root the folder of the entries
 * @property {string[]} [loadPaths] up to eight folders, anywhere
 * @property {string} [program] the path of the program; without it as `findProgram` says
 * @property {'text' | 'json' | 'github'} [format] of `explanation`; `text` without it
 * @property {boolean} [colour] whether `explanation` has colours for a terminal
 * @property {boolean} [told] whether `changed` tells of every change, so that a compile looks at nothing else again
 * @property {(folder: string) => void} [beforeFolder] is called with each folder before it is looked at, so that a
 *   watcher that is set there misses nothing
 */

// Each such round puts one more file that the texts don't show to be loaded.
const MOST_ROUNDS = 4096;

/** Compiles entries of one folder. Its process is started by the first compile, and ends with `close`. */
export class Compiler {
  #session;
  /** What the session holds: of each file its name there, and which content. @type {Map<string, { name: string, key: string }>} */
  #held = new Map();
  /** @type {Promise<unknown>} */
  #turn = Promise.resolve();
  #floor = '';
  /** Of each entry what its last compile saw. @type {Map<string, string>} */
  #seen = new Map();

  /**
   * @param {CompilerOptions} options
   * @throws {RequestError} where there are more than eight load paths
   */
  constructor(options) {
    const { root, loadPaths = [], beforeFolder } = options;
    if (loadPaths.length > MOST_LOAD_PATHS) throw new RequestError(`there are ${loadPaths.length} load paths, and at most ${MOST_LOAD_PATHS} are taken`);
    this.options = options;
    this.root = path.resolve(root);
    this.mounts = new Mounts({ root: this.root, loadPaths: loadPaths.map((it) => path.resolve(it)), beforeFolder });
    this.#session = new Session({ program: options.program });
  }

  /**
   * Compiles an entry. It looks at all files and folders again that it saw before; with the option `told` only at those
   * of which `changed` told.
   * @param {string} entryFile a path, relative to the root or absolute
   * @returns {Promise<Compiled>}
   * @throws {import('./program.js').ProgramError} (by the promise) where the program isn't found
   * @throws {import('./session.js').SessionEnded} where the program ends, and starting it anew is of no use
   */
  compile(entryFile) {
    const turn = this.#turn.then(() => this.#compile(path.resolve(this.root, entryFile)));
    this.#turn = turn.catch(() => {});
    return turn;
  }

  /**
   * Tells which files and folders were changed, made or removed.
   * @param {Iterable<string>} paths absolute, with links or without
   */
  changed(paths) {
    this.mounts.disk.doubt([...paths]);
  }

  /**
   * Whether a compile of an entry would see just what the last one saw, so that it came to the same. It starts no process.
   * @param {string} entryFile
   * @returns {boolean}
   */
  isCurrent(entryFile) {
    const entry = path.resolve(this.root, entryFile);
    this.#look();
    return this.#seen.get(entry) === signature(this.mounts.graph(entry));
  }

  /**
   * The files that an entry reaches, without a compile.
   * @param {string} entryFile
   * @returns {Graph}
   */
  graph(entryFile) {
    return this.mounts.graph(path.resolve(this.root, entryFile));
  }

  /** The id of the process of the program, or null where none runs. @returns {number | null} */
  get processId() {
    return this.#session.processId;
  }

  /**
   * Ends the process. No compile is taken any more.
   * @returns {Promise<void>}
   */
  async close() {
    await this.#turn;
    await this.#session.close();
  }

  // Has what may have changed looked at again.
  #look() {
    if (!this.options.told) this.mounts.disk.doubtAll();
  }

  /**
   * @param {string} entry
   * @returns {Promise<Compiled>}
   */
  async #compile(entry) {
    const start = performance.now();
    this.#look();
    for (let round = 0; ; round += 1) {
      const graph = this.mounts.graph(entry);
      this.#seen.set(entry, signature(graph));
      const { reply, refused } = await this.#ask(graph);
      if (round < MOST_ROUNDS && this.#showLoad(graph, reply)) continue;
      return this.#compiled(graph, refused, reply, start);
    }
  }

  /**
   * @param {Graph} graph
   * @returns {Promise<{ reply: Reply, refused: Map<string, 'name' | 'many'> }>} the reply with the paths of files
   */
  async #ask(graph) {
    if (this.#floor !== this.mounts.floor) await this.#rename();
    const { taken, refused } = this.mounts.taken(graph);
    const name = this.mounts.name(graph.entry);
    // The program takes no such entry, and could only say so of another name.
    if (!isPath(name) || !extensionOf(graph.entry)) return { reply: noEntry(graph.entry), refused };
    const edits = this.#put(graph, taken);
    const loads = this.mounts.loadPaths.map((it) => this.mounts.name(it));
    const [reply] = await Promise.all([this.#session.compile(name, loads), ...edits]);
    return { reply: this.#back(graph, reply), refused };
  }

  // Has the session hold nothing: all files have other names from now on.
  async #rename() {
    this.#floor = this.mounts.floor;
    const edits = [...this.#held.values()].map((it) => this.#session.remove(it.name));
    this.#held.clear();
    await Promise.all(edits);
  }

  /**
   * Makes the session hold the files of a graph, and none of those that aren't there for it.
   * @param {Graph} graph
   * @param {Sheet[]} taken
   * @returns {Array<Promise<void>>}
   */
  #put(graph, taken) {
    /** @type {Array<Promise<void>>} */
    const edits = [];
    const remove = (/** @type {string} */ file) => {
      edits.push(this.#session.remove(this.#held.get(file)?.name ?? ''));
      this.#held.delete(file);
    };
    for (const it of graph.absent) if (this.#held.has(it)) remove(it);
    for (const it of new Set(graph.passed)) if (this.#held.has(it)) remove(it);
    this.#makeRoom(taken, remove);
    for (const sheet of taken) {
      const { bytes, key } = this.mounts.spelling(sheet, graph.edges.get(sheet.path) ?? []);
      if (this.#held.get(sheet.path)?.key === key) continue;
      const name = this.mounts.name(sheet.path);
      this.#held.set(sheet.path, { name, key });
      edits.push(this.#session.put(name, bytes));
    }
    return edits;
  }

  /**
   * Removes files that this compile doesn't need, where not all would be held else.
   * @param {Sheet[]} needed
   * @param {(file: string) => void} remove
   */
  #makeRoom(needed, remove) {
    const isNew = needed.filter((it) => !this.#held.has(it.path)).length;
    if (this.#held.size + isNew <= MOST_FILES) return;
    const files = new Set(needed.map((it) => it.path));
    for (const it of [...this.#held.keys()]) if (!files.has(it)) remove(it);
  }

  /**
   * A reply with the paths of files in the place of names, and with places in these files.
   * @param {Graph} graph
   * @param {Reply} reply
   * @returns {Reply}
   */
  #back(graph, reply) {
    /** @type {<T extends Message | Fault>(it: T) => T} */
    const back = (it) => {
      const file = this.mounts.path(it.path);
      const sheet = graph.sheets.get(file);
      const span = sheet ? this.mounts.spelling(sheet, graph.edges.get(file) ?? []).back(it.span) : it.span;
      return { ...it, path: file, span };
    };
    const ran = reply.ran.map(({ path: name, cause }) => ({ path: this.mounts.path(name), cause }));
    return { ...reply, messages: reply.messages.map(back), ran, fault: reply.fault && back(reply.fault) };
  }

  /**
   * Finds a load that the texts don't show where the program missed its file.
   * @param {Graph} graph
   * @param {Reply} reply
   * @returns {boolean} whether there is now more to put
   */
  #showLoad(graph, { fault }) {
    const sheet = fault?.code === 19 ? graph.sheets.get(fault.path) : undefined;
    if (!fault || !sheet) return false;
    const at = offsetOf(sheet.text, lineStarts(sheet.text), fault.span.from);
    const load = /["']/.test(sheet.text[at] ?? '') ? loadAt(sheet.text, at, 'use') : null;
    return load !== null && this.mounts.show(sheet, load);
  }

  /**
   * @param {Graph} graph
   * @param {Map<string, 'name' | 'many'>} refused
   * @param {Reply} reply
   * @param {number} start
   * @returns {Compiled}
   */
  #compiled(graph, refused, reply, start) {
    const files = new Surroundings(this, graph, refused);
    const told = { ...reply, messages: [...files.passedOver(), ...reply.messages] };
    const problems = problemsOf(told, files);
    const { css, messages, fault, ran, memory } = reply;
    const explanation = explain(told, files, this.options);
    return {
      css, messages, fault, memory, explanation, problems, ran,
      dependencies: dependenciesOf(graph),
      absent: [...graph.absent],
      modules: graph.sheets.size,
      milliseconds: performance.now() - start,
    };
  }
}

/**
 * The reply to a compile of an entry that isn't there.
 * @param {string} entry
 * @returns {Reply}
 */
function noEntry(entry) {
  const place = { line: 1, column: 1 };
  const fault = { code: 19, path: entry, span: { from: place, to: place } };
  return { messages: [], ran: [], css: null, fault, memory: false };
}

/**
 * All that a compile depends on, in a text.
 * @param {Graph} graph
 * @returns {string}
 */
function signature(graph) {
  return `${[...graph.sheets.values()].map((it) => `${it.path}\0${it.version}`).join('\0')}\0\0${graph.passed.join('\0')}`;
}

/**
 * @param {Graph} graph
 * @returns {string[]}
 */
function dependenciesOf(graph) {
  const files = new Set();
  for (const it of graph.sheets.values()) {
    files.add(it.real);
    if (it.path !== it.real && path.join(realFolder(it.path), path.basename(it.path)) !== it.real) files.add(it.path);
  }
  for (const it of graph.passed) files.add(it);
  return [...files];
}

/**
 * @param {string} file
 * @returns {string}
 */
function realFolder(file) {
  try {
    return realpathSync(path.dirname(file));
  } catch {
    return path.dirname(file);
  }
}
