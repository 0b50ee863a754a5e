// The files of the disk as they are, read once and looked at again where something may have changed.

import { readFileSync, readdirSync, realpathSync, statSync } from 'node:fs';
import path from 'node:path';
import { MOST_FILE_BYTES, extensionOf } from './names.js';
import { loadsOf } from './loads.js';

/**
 * Why a file that is there can't be loaded.
 * @typedef {{ kind: 'long', bytes: number } | { kind: 'text', line: number, byte: number } | { kind: 'unreadable', reason: string }} Problem
 *
 * A file that was read.
 * @typedef {object} Sheet
 * @property {string} path the path by which it was asked for, absolute
 * @property {string} real the path without links
 * @property {number} version another one for each content that was seen
 * @property {Buffer} bytes empty where there is a problem
 * @property {string} text without a mark at its start that tells its encoding
 * @property {Problem | null} problem
 * @property {import('./loads.js').Load[]} loads
 *
 * @typedef {'file' | 'folder' | 'link'} Kind
 * @typedef {{ names: Map<string, Kind>, real: string, doubted: boolean, there: boolean }} Folder
 * @typedef {{ sheet: Sheet | null, stamp: string, doubted: boolean, reread: boolean }} Kept
 */

const EMPTY = Buffer.alloc(0);
const UTF8 = new TextDecoder('utf-8', { fatal: true });

/**
 * What keeps a file from being loaded, in words that go behind its name.
 * @param {Problem} problem
 * @returns {string}
 */
export function whyNoSheet(problem) {
  if (problem.kind === 'long') return `has ${problem.bytes.toLocaleString('en')} bytes, and a sheet has at most ${MOST_FILE_BYTES.toLocaleString('en')} (1 MiB)`;
  if (problem.kind === 'text') return `isn't UTF-8: its byte ${problem.byte}, in line ${problem.line}, begins no character; save it as UTF-8`;
  return `can't be read: ${problem.reason}`;
}

/** Looks at folders and files, and keeps what it saw until it is doubted. */
export class Disk {
  /** @type {Map<string, Folder>} */
  #folders = new Map();
  /** @type {Map<string, Kept>} */
  #files = new Map();
  #versions = 0;
  /** Another number whenever another name was seen in a folder, or one was gone: what names lead to may be other files then. */
  listings = 0;

  /** @param {(folder: string) => void} [beforeFolder] is called with each folder before it is listed */
  constructor(beforeFolder = () => {}) {
    this.beforeFolder = beforeFolder;
  }

  /** Has everything looked at again when it is asked for next. */
  doubtAll() {
    for (const it of this.#folders.values()) it.doubted = true;
    for (const it of this.#files.values()) it.doubted = true;
  }

  /**
   * Has these files and folders, and what is below them, looked at again when they are asked for next.
   * @param {string[]} paths absolute, with links or without
   */
  doubt(paths) {
    const exact = new Set(paths);
    const isMeant = (/** @type {string} */ it) => {
      for (let at = it; ; at = path.dirname(at)) {
        if (exact.has(at)) return true;
        if (at === path.dirname(at)) return false;
      }
    };
    const parents = new Set(paths.map((it) => path.dirname(it)));
    for (const [at, folder] of this.#folders) {
      if (parents.has(at) || parents.has(folder.real) || isMeant(at) || isMeant(folder.real)) folder.doubted = true;
    }
    for (const [at, kept] of this.#files) {
      if (isMeant(at) || (kept.sheet && isMeant(kept.sheet.real))) kept.doubted = kept.reread = true;
    }
  }

  /** Looks again at all folders that are doubted, so that `listings` tells whether names lead elsewhere now. */
  refresh() {
    for (const [at, folder] of [...this.#folders]) if (folder.doubted) this.list(at);
  }

  /**
   * What a folder holds.
   * @param {string} folder absolute
   * @returns {Folder} with `there` false where it is no folder that can be listed
   */
  list(folder) {
    const before = this.#folders.get(folder);
    if (before && !before.doubted) return before;
    this.beforeFolder(folder);
    const now = listed(folder);
    if (!before || !sameNames(before, now)) this.listings += 1;
    this.#folders.set(folder, now);
    return now;
  }

  /**
   * What stands at a path, links followed.
   * @param {string} file absolute
   * @returns {'file' | 'folder' | null}
   */
  kind(file) {
    const kind = this.list(path.dirname(file)).names.get(path.basename(file));
    if (kind !== 'link') return kind ?? null;
    try {
      const found = statSync(file);
      return found.isFile() ? 'file' : found.isDirectory() ? 'folder' : null;
    } catch {
      return null;
    }
  }

  /**
   * A file, read.
   * @param {string} file absolute
   * @returns {Sheet | null} null where there is no such file
   */
  sheet(file) {
    if (this.kind(file) !== 'file') return null;
    const kept = this.#files.get(file);
    if (kept && !kept.doubted) return kept.sheet;
    const now = this.#look(file, kept);
    this.#files.set(file, now);
    return now.sheet;
  }

  /**
   * @param {string} file
   * @param {Kept | undefined} before
   * @returns {Kept}
   */
  #look(file, before) {
    const sheet = before?.sheet;
    try {
      const found = statSync(file, { bigint: true });
      const stamp = `${found.dev}:${found.ino}:${found.size}:${found.mtimeNs}:${found.ctimeNs}`;
      if (before && stamp === before.stamp && !before.reread) return { ...before, doubted: false };
      const real = this.#realOf(file);
      const size = Number(found.size);
      const bytes = size > MOST_FILE_BYTES ? EMPTY : readFileSync(file);
      if (sheet && !sheet.problem && sheet.real === real && size <= MOST_FILE_BYTES && sheet.bytes.equals(bytes)) {
        return { sheet, stamp, doubted: false, reread: false };
      }
      const now = size > MOST_FILE_BYTES ? this.#broken(file, real, { kind: 'long', bytes: size }) : this.#read(file, real, bytes);
      return { sheet: now, stamp, doubted: false, reread: false };
    } catch (error) {
      const { code, message } = /** @type {NodeJS.ErrnoException} */ (error);
      if (code === 'ENOENT') return { sheet: null, stamp: '', doubted: false, reread: false };
      return { sheet: this.#broken(file, file, { kind: 'unreadable', reason: message }), stamp: '', doubted: false, reread: false };
    }
  }

  /**
   * @param {string} file
   * @returns {string}
   */
  #realOf(file) {
    const folder = this.list(path.dirname(file));
    const name = path.basename(file);
    if (folder.names.get(name) !== 'link') return path.join(folder.real, name);
    const real = realpathSync(file);
    this.beforeFolder(path.dirname(real));
    return real;
  }

  /**
   * @param {string} file
   * @param {string} real
   * @param {Buffer} bytes
   * @returns {Sheet}
   */
  #read(file, real, bytes) {
    let text;
    try {
      text = UTF8.decode(bytes);
    } catch {
      return this.#broken(file, real, notUtf8(bytes));
    }
    this.#versions += 1;
    const loads = extensionOf(file) === '.css' ? [] : loadsOf(text);
    return { path: file, real, version: this.#versions, bytes, text, problem: null, loads };
  }

  /**
   * @param {string} file
   * @param {string} real
   * @param {Problem} problem
   * @returns {Sheet}
   */
  #broken(file, real, problem) {
    this.#versions += 1;
    return { path: file, real, version: this.#versions, bytes: EMPTY, text: '', problem, loads: [] };
  }
}

/**
 * @param {string} folder
 * @returns {Folder}
 */
function listed(folder) {
  /** @type {Map<string, Kind>} */
  const names = new Map();
  try {
    const real = realpathSync(folder);
    for (const it of readdirSync(folder, { withFileTypes: true })) {
      if (it.isFile()) names.set(it.name, 'file');
      else if (it.isDirectory()) names.set(it.name, 'folder');
      else if (it.isSymbolicLink()) names.set(it.name, 'link');
    }
    return { names, real, doubted: false, there: true };
  } catch {
    return { names, real: folder, doubted: false, there: false };
  }
}

/**
 * @param {Folder} one
 * @param {Folder} other
 * @returns {boolean}
 */
function sameNames(one, other) {
  if (one.there !== other.there || one.names.size !== other.names.size || one.real !== other.real) return false;
  for (const [name, kind] of one.names) {
    // A link is the same name, but what it leads to may be another file.
    if (other.names.get(name) !== kind || kind === 'link') return false;
  }
  return true;
}

/**
 * Where bytes stop being UTF-8: at the first byte of what is no character.
 * @param {Buffer} bytes
 * @returns {Problem}
 */
function notUtf8(bytes) {
  let [good, bad] = [0, bytes.length];
  while (bad - good > 1) {
    const middle = (good + bad) >> 1;
    if (isUtf8(bytes.subarray(0, middle), true)) good = middle;
    else bad = middle;
  }
  while (!isUtf8(bytes.subarray(0, good), false)) good -= 1;
  const line = bytes.subarray(0, good).filter((it) => it === 10).length + 1;
  return { kind: 'text', line, byte: good + 1 };
}

/**
 * @param {Buffer} bytes
 * @param {boolean} goesOn whether the last character may be cut off
 * @returns {boolean}
 */
function isUtf8(bytes, goesOn) {
  try {
    new TextDecoder('utf-8', { fatal: true }).decode(bytes, { stream: goesOn });
    return true;
  } catch {
    return false;
  }
}
