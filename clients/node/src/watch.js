// Builds the sheets of a folder whenever they change.

import path from 'node:path';
import { STATUS, checkLoadPaths } from './build.js';
import { Compiler } from './compiler.js';
import { makeRules } from './dependencies.js';
import { Folders } from './folders.js';
import { counted, has, sizeOf, timeOf, writeWhole } from './output.js';
import { checkRoot, tasksOf } from './plan.js';
import { shareOut } from './share.js';

/**
 * @typedef {import('./plan.js').Task} Task
 * @typedef {import('./compiler.js').Compiled} Compiled
 *
 * @typedef {object} OfWatch
 * @property {boolean} [why] whether the modules that ran are told, and why
 * @property {AbortSignal} [signal] ends the watch
 *
 * @typedef {import('./build.js').BuildOptions & OfWatch} WatchOptions
 *
 * What is known of a sheet that is built again and again.
 * @typedef {object} State
 * @property {Compiler} compiler
 * @property {Map<string, number>} seen the versions of the files that the last compile saw
 * @property {boolean} isFaulty
 * @property {Compiled | null} compiled
 */

/** Why a body ran, by the causes of docs/PROTOCOL.md. @type {Record<string, string>} */
export const CAUSES = Object.freeze({
  first: 'it is new here',
  text: 'its text changed',
  config: 'it was given other values',
  load: 'one of its loads means another file, or has a fault',
  member: 'a name means something else',
  variable: "another module's variable has another value",
  call: 'a function of the host answers otherwise',
});

// Of the files that changed, so many are named in a line.
const MOST_NAMED = 3;

/**
 * Builds sheets, and again whenever what they load changes. Folders are watched before they are read, so no change is
 * missed; a burst of changes gives one build; CSS that didn't change isn't written.
 * @param {WatchOptions} options
 * @returns {Promise<number>} the status, once the signal ended the watch
 * @throws {import('./words.js').WordsError} (as all errors: by the promise) where the options name no sheets
 * @throws {import('./plan.js').SurroundingsError} where there is no such folder
 * @throws {import('./program.js').ProgramError} where the program isn't found
 */
export async function watch(options) {
  checkRoot(options.root, options.command ?? 'sassw-watch');
  checkLoadPaths(options.loadPaths ?? []);
  const turns = new Watch(options);
  const stop = () => turns.folders.close();
  options.signal?.addEventListener('abort', stop);
  try {
    await turns.run();
    return STATUS.well;
  } finally {
    options.signal?.removeEventListener('abort', stop);
    await turns.close();
  }
}

class Watch {
  /** @type {Map<string, State>} */
  #states = new Map();
  /** @type {Compiler[]} */
  #compilers = [];
  /** @type {Set<string>} */
  #outs = new Set();
  #isGone = false;
  #rules = '';

  /** @param {WatchOptions} options */
  constructor(options) {
    this.options = options;
    this.root = path.resolve(options.root);
    this.say = options.say ?? (() => {});
    this.tell = options.tell ?? (() => {});
    const isOwn = (/** @type {string} */ it) => this.#outs.has(it) && !this.#isRead(it);
    this.folders = new Folders({ root: this.root, isKnown: (it) => this.#isRead(it), isOwn });
    this.folders.add(this.root);
    this.folders.add(path.dirname(this.root));
  }

  async run() {
    let [tasks, changed] = [this.#tasks(), /** @type {Set<string>} */ (new Set())];
    if (tasks.length === 0) this.tell(`${this.options.root}: no sheet yet whose name doesn't begin with "_"\n`);
    this.#share(tasks);
    await this.#round(tasks);
    this.say(`watching ${this.options.root}`);
    for (;;) {
      changed = await this.folders.next();
      if (this.options.signal?.aborted) return;
      for (const it of this.#compilers) it.changed(changed);
      if (!this.#isThere()) continue;
      tasks = this.#tasks();
      this.#drop(tasks);
      await this.#round(tasks);
    }
  }

  /** @returns {Promise<void>} */
  async close() {
    this.folders.close();
    await Promise.all(this.#compilers.map((it) => it.close()));
  }

  /**
   * @param {string} file
   * @returns {boolean} whether a sheet loads it
   */
  #isRead(file) {
    for (const it of this.#states.values()) if (it.seen.has(file)) return true;
    return false;
  }

  // Whether the folder of the sheets is there; tells when it went and when it is back.
  #isThere() {
    const [first] = this.#compilers;
    const isThere = first.mounts.disk.list(this.root).there;
    if (isThere && this.#isGone) for (const it of this.#compilers) it.changed([this.root]);
    if (isThere === this.#isGone) this.tell(isThere ? `${this.options.root} is back\n` : `${this.options.root} is gone: waiting until it is back\n`);
    this.#isGone = !isThere;
    return isThere;
  }

  /** @returns {Task[]} */
  #tasks() {
    const { root, entries = [], out } = this.options;
    if (this.#compilers.length === 0) this.#compilers.push(this.#compiler());
    const tasks = tasksOf({ root, entries, out }, this.#compilers[0].mounts.disk);
    this.#outs = new Set(tasks.map((it) => it.out));
    return tasks;
  }

  /** @returns {Compiler} */
  #compiler() {
    const { root, loadPaths, program, format, colour } = this.options;
    return new Compiler({ root, loadPaths, program, format, colour, told: true, beforeFolder: (it) => this.folders.add(it) });
  }

  /**
   * Gives each sheet the compiler that compiles it from now on.
   * @param {Task[]} tasks
   */
  #share(tasks) {
    const [first] = this.#compilers;
    const { jobs = 1 } = this.options;
    const lots = jobs === 1 || tasks.length < 2 ? [tasks] : shareOut(tasks, jobs, (it) => first.graph(it.entry).sheets);
    for (const [at, lot] of lots.entries()) {
      if (at > 0) this.#compilers.push(this.#compiler());
      for (const it of lot) this.#states.set(it.entry, newState(this.#compilers[at]));
    }
  }

  /**
   * @param {Task[]} tasks those that are there now
   */
  #drop(tasks) {
    const now = new Set(tasks.map((it) => it.entry));
    for (const entry of [...this.#states.keys()].filter((it) => !now.has(it))) {
      this.#states.delete(entry);
      this.say(`${entry} is gone: its CSS stays`);
    }
    for (const entry of now) if (!this.#states.has(entry)) this.#states.set(entry, newState(this.#compilers[0]));
  }

  /** @param {Task[]} tasks */
  async #round(tasks) {
    const stale = tasks.filter((it) => !this.#state(it).compiler.isCurrent(it.entry));
    const lots = this.#compilers.map((compiler) => stale.filter((it) => this.#state(it).compiler === compiler));
    await Promise.all(lots.map(async (lot) => {
      for (const it of lot) if (!this.options.signal?.aborted) await this.#build(it);
    }));
    if (stale.length > 0) this.#writeRules(tasks);
  }

  /**
   * @param {Task} task
   * @returns {State}
   */
  #state(task) {
    return /** @type {State} */ (this.#states.get(task.entry));
  }

  /** @param {Task} task */
  async #build(task) {
    const state = this.#state(task);
    const start = performance.now();
    try {
      const compiled = await state.compiler.compile(task.entry);
      const now = new Map([...state.compiler.graph(task.entry).sheets.values()].map((it) => [it.path, it.version]));
      const changed = this.#changedFiles(state.seen, now);
      state.seen = now;
      state.compiled = compiled;
      if (compiled.explanation) this.tell(compiled.explanation);
      const outcome = this.#put(task, state, compiled);
      const ran = `${compiled.ran.length} of ${counted(compiled.modules, 'module')}`;
      this.say(`${task.shown} ${outcome}, ${ran}, ${timeOf(performance.now() - start)}${changed}`);
      if (this.options.why) this.#sayWhy(compiled);
    } catch (error) {
      const it = /** @type {Error} */ (error);
      if (it.name === 'ProgramError' || it.name === 'SurroundingsError') throw it;
      state.isFaulty = true;
      this.tell(`${task.shown}: ${it.message}\n`);
    }
  }

  /**
   * Puts CSS in place where it is another one.
   * @param {Task} task
   * @param {State} state
   * @param {Compiled} compiled
   * @returns {string} what became of it
   */
  #put(task, state, compiled) {
    const wasFaulty = state.isFaulty;
    state.isFaulty = compiled.css === null;
    if (compiled.css === null) return compiled.fault ? `stays, since there is fault ${compiled.fault.code}` : 'stays';
    const isSame = has(task.out, compiled.css);
    if (!isSame) writeWhole(task.out, compiled.css);
    const size = isSame ? 'unchanged' : sizeOf(compiled.css.length);
    return wasFaulty ? `fixed, ${size}` : size;
  }

  /**
   * The files that changed between two compiles, in brackets.
   * @param {Map<string, number>} before
   * @param {Map<string, number>} now
   * @returns {string} '' before the first compile
   */
  #changedFiles(before, now) {
    if (before.size === 0) return '';
    const changed = [...now].filter(([file, version]) => before.get(file) !== version).map(([file]) => file);
    const gone = [...before.keys()].filter((it) => !now.has(it));
    const all = [...changed, ...gone].map((it) => path.relative(this.root, it));
    if (all.length === 0) return '';
    const more = all.length > MOST_NAMED ? ` and ${all.length - MOST_NAMED} more` : '';
    return ` (${all.slice(0, MOST_NAMED).join(', ')}${more})`;
  }

  /** @param {Compiled} compiled */
  #sayWhy({ ran }) {
    for (const it of ran) this.say(`  ${path.relative(this.root, it.path)}: ${CAUSES[it.cause] ?? it.cause}`);
  }

  /** @param {Task[]} tasks */
  #writeRules(tasks) {
    const { deps } = this.options;
    if (!deps) return;
    const built = tasks.map((it) => ({ shown: it.shown, dependencies: this.#state(it).compiled?.dependencies ?? [] }));
    const rules = makeRules(built.filter((it) => it.dependencies.length > 0));
    if (rules !== this.#rules) writeWhole(path.resolve(deps), rules);
    this.#rules = rules;
  }
}

/**
 * @param {Compiler} compiler
 * @returns {State}
 */
function newState(compiler) {
  return { compiler, seen: new Map(), isFaulty: false, compiled: null };
}
