// What an explanation asks about files, of a folder as the program itself reads it: `once` and `poll`.

import { lstatSync } from 'node:fs';
import path from 'node:path';
import { Mounts, isIn } from './mounts.js';
import { MOST_FILE_BYTES, MOST_FILES, extensionOf, isPath, whyNoPath } from './names.js';
import { Surroundings } from './surroundings.js';

/** Answers by the paths of a reply, which are relative to the folder. */
export class PlainFolder {
  /**
   * @param {string} root the folder, as it was typed
   * @param {string | null} entry as `once` got it; without it there are no chains of loads
   * @param {string[]} loadPaths as `once` got them, relative to the folder
   */
  constructor(root, entry, loadPaths) {
    this.root = path.resolve(root);
    const mounts = new Mounts({ root: this.root, loadPaths: loadPaths.map((it) => path.join(this.root, it)) });
    this.mounts = mounts;
    const graph = mounts.graph(path.join(this.root, entry ?? ''));
    this.files = new Surroundings({ mounts, options: { root } }, graph, new Map());
  }

  /** @param {string} name @returns {string | null} */
  text(name) {
    return this.files.text(path.join(this.root, name));
  }

  /** @param {string} name @returns {string} */
  shown(name) {
    return this.files.shown(path.join(this.root, name));
  }

  /** @param {string} name @returns {import('./explain.js').Step[]} */
  chain(name) {
    const steps = this.files.chain(path.join(this.root, name));
    return steps.map((it) => ({ ...it, path: path.relative(this.root, it.path) }));
  }

  /** @param {string} name @param {string} url @returns {string[]} */
  meant(name, url) {
    return this.files.meant(path.join(this.root, name), url).map((it) => path.relative(this.root, it));
  }

  /**
   * Why a URL means no file to the program, or why an entry is none.
   * @param {string} name
   * @param {string | null} url
   * @returns {string[]}
   */
  missing(name, url) {
    const file = path.join(this.root, name);
    const targets = url === null ? [file].filter((it) => this.mounts.disk.sheet(it)) : this.files.meant(file, url);
    const untaken = targets.map((it) => this.#untaken(it)).filter((it) => it !== null);
    return untaken.length > 0 ? untaken : this.files.missing(file, url);
  }

  /**
   * Why the program takes a file that is there for none.
   * @param {string} file
   * @returns {string | null}
   */
  #untaken(file) {
    const shown = this.files.shown(file);
    const name = path.relative(this.root, file);
    const other = 'sassw-build takes it';
    if (!isIn(file, this.root)) return `${shown} is there, but the program reads ${this.files.shown(this.root)} alone; ${other}`;
    const odd = whyNoPath(name.split(path.sep).join('/'));
    if (odd) return `${shown} is there, but its name ${odd}; ${other}`;
    const link = this.#linkOn(file);
    if (link) return `${shown} is there, but ${link === file ? 'it' : this.files.shown(link)} is a link, and the program follows none; ${other}`;
    const before = this.#before(name);
    if (before < MOST_FILES) return null;
    return `${shown} is there, but ${before.toLocaleString('en')} files come before it in byte order, and the program reads the first ${MOST_FILES.toLocaleString('en')}; ${other}`;
  }

  /**
   * @param {string} file
   * @returns {string | null}
   */
  #linkOn(file) {
    for (let at = file; at !== this.root && at !== path.dirname(at); at = path.dirname(at)) {
      if (lstatSync(at, { throwIfNoEntry: false })?.isSymbolicLink()) return at;
    }
    return null;
  }

  /**
   * How many files that the program reads come before one.
   * @param {string} name
   * @returns {number}
   */
  #before(name) {
    let count = 0;
    const look = (/** @type {string} */ folder, /** @type {string} */ front) => {
      for (const [it, kind] of this.mounts.disk.list(folder).names) {
        const at = path.join(folder, it);
        if (kind === 'folder') look(at, `${front}${it}/`);
        else if (kind === 'file' && extensionOf(it) && isPath(front + it) && front + it < name && lstatSync(at).size <= MOST_FILE_BYTES) count += 1;
      }
    };
    look(this.root, '');
    return count;
  }
}
