// A plugin by Rollup's conventions, which Vite takes too: sheets that modules import are compiled by a session.

import { existsSync, statSync } from 'node:fs';
import path from 'node:path';
import { setTimeout as delay } from 'node:timers/promises';
import { Appearances } from './appearances.js';
import { Compiler } from './compiler.js';

/**
 * @typedef {import('./compiler.js').Compiled} Compiled
 * @typedef {import('./explain.js').Problem} Problem
 *
 * @typedef {object} PluginOptions
 * @property {string[]} [loadPaths] up to eight folders, anywhere
 * @property {string} [program] the path of the program; without it as `findProgram` says
 * @property {RegExp} [include] which files it takes; without it those that end in `.scss` or `.sass`
 * @property {'module' | 'css'} [gives] what a sheet becomes: `module`, a module whose default export is the CSS as a text, and an asset with
 *   it; `css`, a file of CSS whose name ends in `.css`, for the plugins that take such ones. Without it `css` under Vite, else `module`
 * @property {boolean} [asset] false where no asset is wanted beside a module
 *
 * Of Vite's server what is used here.
 * @typedef {object} ViteServer
 * @property {{ on(event: 'add' | 'unlink', call: (file: string) => void): unknown }} watcher
 * @property {{ getModulesByFile(file: string): Set<object> | undefined }} moduleGraph
 * @property {(module: object) => Promise<void>} reloadModule
 *
 * What Rollup gives to hooks as `this`, as far as it is used here.
 * @typedef {object} Context
 * @property {{ watchMode: boolean }} meta
 * @property {(file: string) => void} addWatchFile
 * @property {(log: object) => void} warn
 * @property {(log: object) => never} error
 * @property {(asset: { type: 'asset', name: string, source: Uint8Array }) => string} emitFile
 * @property {(source: string, importer: string | undefined, options: object) => Promise<{ id: string, external: boolean | 'absolute' } | null>} resolve
 */

/** What stands behind a sheet's path in the id of its CSS. */
const CSS = '.css';
/** The same for sheets whose classes get names of their own, which Vite sees by the name. */
const MODULE_CSS = '.module.css';
const SHEETS = /\.s[ac]ss$/;
/** How long a save may take: a file is often emptied before it is written, and a tool's watch may tell of that alone. In milliseconds. */
const SAVE_MILLISECONDS = 60;
/** With these in its query Vite wants the file as it is, or its address. */
const AS_IT_IS = /[?&](?:raw|url)(?:&|$)/;

/**
 * The plugin. The files of a sheet are watched, and so are the places where one that isn't there would change what it means; a fault is an
 * error with its place and its frame, what a sheet says by `@warn` and `@debug` a warning.
 * @param {PluginOptions} [options]
 * @returns {object} the plugin; it has one process of the program, which ends with the build, or with the watching
 */
export function sassw(options = {}) {
  const include = options.include ?? SHEETS;
  const state = new State(options);

  return {
    name: 'sassw',
    enforce: 'pre',

    /** @param {{ command: string, root: string }} config Vite's */
    configResolved({ command, root }) {
      state.gives ??= 'css';
      state.root = root;
      state.isServing = command === 'serve';
    },

    /**
     * Has Vite put in place what depends on a file that came or went.
     * @param {ViteServer} server
     */
    configureServer(server) {
      const again = (/** @type {string} */ file) => state.modulesOf(file, server).forEach((it) => void server.reloadModule(it));
      server.watcher.on('add', again);
      server.watcher.on('unlink', again);
    },

    /** @this {Context} @param {string} source @param {string | undefined} importer @param {object} asked */
    async resolveId(source, importer, asked) {
      if (state.gives !== 'css' || AS_IT_IS.test(source)) return null;
      const own = sheetOf(source, include);
      // Vite's pages ask by the address, which begins at its root.
      const place = own && [own, path.join(state.root, own)].find((it) => path.isAbsolute(it) && existsSync(it));
      if (place) return idOf(place) + queryOf(source);
      if (!include.test(withoutQuery(source))) return null;
      const found = await this.resolve(source, importer, { ...asked, skipSelf: true });
      return found && !found.external ? idOf(withoutQuery(found.id)) + queryOf(source) : found;
    },

    /** @this {Context} @param {string} id */
    async load(id) {
      const file = state.gives === 'css' ? sheetOf(id, include) : path.isAbsolute(id) && include.test(id) ? id : null;
      if (file === null) return null;
      const compiled = await (this.meta?.watchMode ? state.compileSaved(file) : state.compile(file));
      const { dependencies, absent } = compiled;
      dependencies.forEach((it) => this.addWatchFile(it));
      if (this.meta?.watchMode && !state.isServing) this.addWatchFile(state.waits(id, absent));
      state.files.set(withoutQuery(id), new Set([...dependencies, ...absent]));
      tell(this, file, compiled.problems);
      return state.given(this, file, /** @type {Buffer} */ (compiled.css));
    },

    /** @this {Context} */
    async closeBundle() {
      if (!this.meta?.watchMode || state.isServing) await state.close();
    },

    async closeWatcher() {
      await state.close();
    },

    /**
     * Has Vite put in place what depends on a file, beside what it knows of itself.
     * @param {{ file: string, modules: object[], server: ViteServer }} update
     */
    handleHotUpdate({ file, modules, server }) {
      const found = state.modulesOf(file, server);
      return found.length > 0 ? [...new Set([...modules, ...found])] : undefined;
    },
  };
}

export default sassw;

/** What a plugin keeps from hook to hook. */
class State {
  /** @type {Compiler | null} */
  #compiler = null;
  /** @type {Appearances | null} */
  #appearances = null;
  /** Of each sheet's id the files on which it depends. @type {Map<string, Set<string>>} */
  files = new Map();
  isServing = false;
  /** As Rollup is run, so that paths are told from there. */
  root = '.';

  /** @param {PluginOptions} options */
  constructor(options) {
    this.options = options;
    this.gives = options.gives;
  }

  /**
   * @param {string} file
   * @returns {Promise<Compiled>}
   */
  compile(file) {
    const { loadPaths, program } = this.options;
    this.#compiler ??= new Compiler({ root: this.root, loadPaths, program });
    return this.#compiler.compile(file);
  }

  /**
   * As `compile`, but a fault, or what an empty file gives, counts only where no file of the sheet changes for a while: it may be half a save.
   * @param {string} file
   * @returns {Promise<Compiled>}
   */
  async compileSaved(file) {
    for (;;) {
      const compiled = await this.compile(file);
      if (!compiled.fault && !compiled.dependencies.some(isEmpty)) return compiled;
      await delay(SAVE_MILLISECONDS);
      if (this.#compiler === null || this.#compiler.isCurrent(file)) return compiled;
    }
  }

  /**
   * Waits for files that would change what a sheet means, were they made. Rollup's own watch tells of few that aren't there yet.
   * @param {string} id
   * @param {string[]} absent
   * @returns {string} a file that is written when one comes
   */
  waits(id, absent) {
    this.#appearances ??= new Appearances(path.resolve(this.root));
    this.#appearances.wait(id, absent);
    return this.#appearances.sentinel;
  }

  /**
   * @param {string} file
   * @param {ViteServer} server
   * @returns {object[]} the modules of a server whose CSS depends on a file
   */
  modulesOf(file, server) {
    const ids = [...this.files].filter(([, files]) => files.has(file)).map(([id]) => id);
    return ids.flatMap((id) => [...(server.moduleGraph.getModulesByFile(id) ?? [])]);
  }

  /**
   * What a sheet's CSS is to the build.
   * @param {Context} context
   * @param {string} file
   * @param {Buffer} css
   * @returns {{ code: string, map: { mappings: '' } }}
   */
  given(context, file, css) {
    const map = { mappings: /** @type {const} */ ('') };
    if (this.gives === 'css') return { code: css.toString(), map };
    const name = path.basename(file).replace(/\.\w+$/, CSS);
    if (this.options.asset !== false) context.emitFile({ type: 'asset', name, source: css });
    return { code: `export default ${JSON.stringify(css.toString())};\n`, map };
  }

  async close() {
    const compiler = this.#compiler;
    this.#compiler = null;
    this.#appearances?.close();
    this.#appearances = null;
    await compiler?.close();
  }
}

/**
 * Gives what a sheet says to the tool as warnings, and its fault as the error that ends the build.
 * @param {Context} context
 * @param {string} id
 * @param {Problem[]} problems
 */
function tell(context, id, problems) {
  for (const problem of problems) {
    const { kind, code, file, from, message, frame, notes } = problem;
    const number = code === null ? '' : ` (fault ${code})`;
    // Rollup counts columns from 0.
    const loc = file ? { file, line: from.line, column: from.column - 1 } : undefined;
    const frames = [frame, ...notes.map(noteLine)].filter(Boolean).join('\n');
    const log = { id, message: message + number, ...(loc && { loc }), ...(frames && { frame: frames }) };
    if (kind === 'fault') context.error(log);
    context.warn(kind === 'debug' ? { ...log, message: `debug: ${message}` } : log);
  }
}

/**
 * @param {import('./explain.js').Note} note
 * @returns {string}
 */
function noteLine({ text, path: file, span }) {
  return `  = ${text}${file && span ? ` (${path.relative('', file)}:${span.from.line}:${span.from.column})` : ''}`;
}

/**
 * @param {string} file
 * @returns {boolean}
 */
function isEmpty(file) {
  return statSync(file, { throwIfNoEntry: false })?.size === 0;
}

/**
 * The id of a sheet's CSS. It ends in `.css` and in no other ending that tools know, so that none compiles it again.
 * @param {string} file
 * @returns {string}
 */
function idOf(file) {
  return file + (/\.module\.\w+$/.test(file) ? MODULE_CSS : CSS);
}

/**
 * The sheet of an id of CSS.
 * @param {string} id
 * @param {RegExp} include
 * @returns {string | null} null where it is no such id
 */
function sheetOf(id, include) {
  const bare = withoutQuery(id);
  const found = [MODULE_CSS, CSS].filter((it) => bare.endsWith(it)).map((it) => bare.slice(0, -it.length));
  return found.find((it) => include.test(it) && idOf(it) === bare) ?? null;
}

/**
 * @param {string} id
 * @returns {string}
 */
function withoutQuery(id) {
  return id.replace(/[?#].*$/s, '');
}

/**
 * @param {string} id
 * @returns {string}
 */
function queryOf(id) {
  return id.slice(withoutQuery(id).length);
}
