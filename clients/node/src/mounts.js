// Files as they are, and the names that a session has for them.

import path from 'node:path';
import { Aliases } from './aliases.js';
import { Disk } from './disk.js';
import { MOST_FILES, extensionOf, isPath } from './names.js';
import { resolve } from './resolve.js';
import { spell } from './spelling.js';

/**
 * @typedef {import('./disk.js').Sheet} Sheet
 * @typedef {import('./loads.js').Load} Load
 * @typedef {import('./resolve.js').Resolution} Resolution
 * @typedef {import('./spelling.js').Spelling} Spelling
 *
 * A load of a sheet, and what it means now.
 * @typedef {{ load: Load, found: Resolution }} Edge
 *
 * All that an entry reaches.
 * @typedef {object} Graph
 * @property {string} entry
 * @property {Map<string, Sheet>} sheets the files that can be loaded, the entry first
 * @property {Map<string, Edge[]>} edges the loads of each
 * @property {Set<string>} absent where a file that isn't there would change what is reached
 * @property {string[]} passed files that are there and can't be loaded
 */

/** The sheets that loads reach from the entries of a folder, under names that the program takes. */
export class Mounts {
  #aliases = new Aliases();
  /** @type {Map<string, { version: number, listings: number, edges: Edge[] }>} */
  #edges = new Map();
  /** @type {Map<number, { key: string, spelling: Spelling }>} */
  #spellings = new Map();
  /** @type {Map<string, string>} */
  #paths = new Map();
  /** @type {Map<string, string>} */
  #names = new Map();
  /** Loads that a compile asked for and that the texts don't show. @type {Map<number, Load[]>} */
  #shown = new Map();

  /**
   * @param {object} options
   * @param {string} options.root the folder of the entries, absolute
   * @param {string[]} options.loadPaths folders, absolute
   * @param {(folder: string) => void} [options.beforeFolder] is called with each folder before it is listed
   */
  constructor({ root, loadPaths, beforeFolder }) {
    this.root = root;
    this.loadPaths = loadPaths;
    this.disk = new Disk(beforeFolder);
    /** The folder under which all files have names. It only ever comes nearer to the root of all. */
    this.floor = loadPaths.reduce(commonFolder, root);
  }

  /**
   * The name of a file or folder in the session; `.` for the floor.
   * @param {string} file absolute, under the floor
   * @returns {string}
   */
  name(file) {
    const known = this.#names.get(file);
    if (known !== undefined) return known;
    const parts = path.relative(this.floor, file).split(path.sep).filter(Boolean);
    const name = parts.map((it) => this.#aliases.of(it)).join('/') || '.';
    this.#paths.set(name, file);
    this.#names.set(file, name);
    return name;
  }

  /**
   * The file of a name that was given before.
   * @param {string} name
   * @returns {string} absolute
   */
  path(name) {
    return this.#paths.get(name) ?? path.join(this.floor, name);
  }

  /**
   * All that an entry reaches now. The floor comes down where some of it lies below.
   * @param {string} entry absolute
   * @returns {Graph}
   */
  graph(entry) {
    /** @type {Graph} */
    const graph = { entry, sheets: new Map(), edges: new Map(), absent: new Set(), passed: [] };
    this.disk.refresh();
    const first = this.disk.sheet(entry);
    if (!first) graph.absent.add(entry);
    else if (first.problem) graph.passed.push(entry);
    else graph.sheets.set(entry, first);
    // A map is gone through with what is added on the way.
    for (const [file, sheet] of graph.sheets) {
      const edges = this.#edgesOf(sheet);
      graph.edges.set(file, edges);
      for (const { found } of edges) this.#follow(found, graph);
    }
    return graph;
  }

  /**
   * @param {Resolution} found
   * @param {Graph} graph
   */
  #follow(found, graph) {
    for (const it of found.absent) graph.absent.add(it);
    graph.passed.push(...found.passed);
    for (const it of found.lowest) this.#lower(it);
    for (const it of found.targets) {
      const sheet = graph.sheets.has(it) ? null : this.disk.sheet(it);
      if (sheet && !sheet.problem) graph.sheets.set(it, sheet);
    }
  }

  /** @param {string} folder where a way led that has to stay under the floor */
  #lower(folder) {
    if (isIn(folder, this.floor)) return;
    this.floor = commonFolder(this.floor, folder);
    this.#names.clear();
    this.#paths.clear();
  }

  /**
   * @param {Sheet} sheet
   * @returns {Edge[]}
   */
  #edgesOf(sheet) {
    const kept = this.#edges.get(sheet.path);
    const shown = this.#shown.get(sheet.version) ?? [];
    const count = sheet.loads.length + shown.length;
    if (kept && kept.version === sheet.version && kept.edges.length === count && kept.listings === this.disk.listings) return kept.edges;
    const bases = [path.dirname(sheet.path), ...this.loadPaths];
    const edges = [...sheet.loads, ...shown].map((load) => ({ load, found: this.resolve(load.url, bases) }));
    this.#edges.set(sheet.path, { version: sheet.version, listings: this.disk.listings, edges });
    return edges;
  }

  /**
   * What a URL means from some folders.
   * @param {string} url
   * @param {string[]} bases absolute
   * @returns {Resolution}
   */
  resolve(url, bases) {
    const look = {
      kind: (/** @type {string} */ it) => this.disk.kind(it),
      loads: (/** @type {string} */ it) => {
        const sheet = this.disk.sheet(it);
        return sheet !== null && !sheet.problem;
      },
    };
    return resolve(url, bases, look);
  }

  /**
   * Adds a load that a compile asked for, where the text of its sheet doesn't show one.
   * @param {Sheet} sheet
   * @param {Load} load
   * @returns {boolean} whether it is a new one that means a file
   */
  show(sheet, load) {
    const shown = this.#shown.get(sheet.version) ?? [];
    const isKnown = [...sheet.loads, ...shown].some((it) => it.from === load.from);
    const found = this.resolve(load.url, [path.dirname(sheet.path), ...this.loadPaths]);
    if (isKnown || found.targets.length === 0) return false;
    this.#shown.set(sheet.version, [...shown, load]);
    return true;
  }

  /**
   * A sheet as the session gets it: its text with other URLs in the place of those that the program would not take.
   * @param {Sheet} sheet one of a graph
   * @param {Edge[]} edges its loads
   * @returns {Spelling}
   */
  spelling(sheet, edges) {
    const odd = edges.filter(({ load, found }) => found.targets.length > 0 && this.#urlOf(load.url) !== load.url);
    const key = odd.map(({ load }) => load.from).join(' ');
    const kept = this.#spellings.get(sheet.version);
    if (kept?.key === key) return kept.spelling;
    const spelling = spell(sheet, odd.map(({ load }) => ({ load, url: this.#urlOf(load.url) })));
    this.#spellings.set(sheet.version, { key, spelling });
    return spelling;
  }

  /**
   * @param {string} url
   * @returns {string}
   */
  #urlOf(url) {
    const parts = url.split('/');
    return parts.map((it) => (it === '.' || it === '..' ? it : this.#aliases.of(it))).join('/');
  }

  /**
   * The files of a graph that the program takes, in order: those whose name isn't too long, and no more than it holds.
   * @param {Graph} graph
   * @returns {{ taken: Sheet[], refused: Map<string, 'name' | 'many'> }}
   */
  taken(graph) {
    /** @type {Map<string, 'name' | 'many'>} */
    const refused = new Map();
    /** @type {Sheet[]} */
    const taken = [];
    for (const [file, sheet] of graph.sheets) {
      if (!isPath(this.name(file)) || !extensionOf(file)) refused.set(file, 'name');
      else if (taken.length === MOST_FILES) refused.set(file, 'many');
      else taken.push(sheet);
    }
    return { taken, refused };
  }
}

/**
 * The folder nearest to two that holds both.
 * @param {string} one absolute
 * @param {string} other absolute
 * @returns {string}
 */
export function commonFolder(one, other) {
  let folder = one;
  while (!isIn(other, folder)) folder = path.dirname(folder);
  return folder;
}

/**
 * Whether a file or folder is a folder or stands in it.
 * @param {string} file absolute
 * @param {string} folder absolute
 * @returns {boolean}
 */
export function isIn(file, folder) {
  return file === folder || file.startsWith(folder.endsWith(path.sep) ? folder : folder + path.sep);
}
