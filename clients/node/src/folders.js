// Watches folders, and tells of what changed in them once a burst of events is over.

import { existsSync, readFileSync, statSync, watch } from 'node:fs';
import path from 'node:path';
import { isBeside } from './output.js';
import { SurroundingsError } from './plan.js';

// How long nothing has to happen until a burst counts as over, in milliseconds: after one or two files, and after more.
const QUIET = 8;
const QUIET_OF_MANY = 80;
const MANY = 3;

// How long a file that is suddenly empty or gone may stay so until that is believed.
const DOUBTFUL = 150;

// A burst that never ends is looked at all the same.
const LONGEST = 10_000;

// While git changes the files of its folder, it is waited for so long.
const LONGEST_OF_GIT = 60_000;

// How often the folders are looked at without an event, for one that was renamed with all above it.
const LOOK = 1000;

/** @typedef {{ watcher: import('node:fs').FSWatcher, stamp: string }} Watched */

/**
 * Folders that are watched, not with what is below them. A folder that goes and comes back is watched again; of one
 * that isn't there the nearest folder above is watched.
 */
export class Folders {
  /** @type {Map<string, Watched>} */
  #watched = new Map();
  /** Folders that are wanted and weren't there. @type {Set<string>} */
  #absent = new Set();
  /** @type {Set<string>} */
  #changed = new Set();
  /** @type {((changed: Set<string>) => void) | null} */
  #wake = null;
  #first = 0;
  #last = 0;
  /** @type {NodeJS.Timeout | null} */
  #timer = null;
  #closed = false;

  /**
   * @param {object} options
   * @param {string} options.root whose repository of git is waited for
   * @param {(file: string) => boolean} options.isKnown whether a file was read before
   * @param {(file: string) => boolean} [options.isOwn] whether a file is one that the watcher itself writes
   */
  constructor({ root, isKnown, isOwn = () => false }) {
    this.isKnown = isKnown;
    this.isOwn = isOwn;
    this.lock = gitLock(root);
    this.looking = setInterval(() => this.#verify(), LOOK);
  }

  /**
   * Watches a folder from now on.
   * @param {string} folder absolute
   * @throws {Error} where the system refuses to watch more
   */
  add(folder) {
    const stamp = stampOf(folder);
    const before = this.#watched.get(folder);
    if (before && before.stamp === stamp) return;
    before?.watcher.close();
    this.#watched.delete(folder);
    if (stamp === '') this.#await(folder);
    else this.#watch(folder, stamp);
  }

  /**
   * The files and folders that changed since the last call, once a burst is over.
   * @returns {Promise<Set<string>>} absolute paths; none where the watch was closed
   */
  next() {
    return new Promise((resolve) => {
      this.#wake = resolve;
      if (this.#closed) this.#give();
      else if (this.#changed.size > 0) this.#arm();
    });
  }

  /** Watches nothing any more, and ends a wait for changes. */
  close() {
    this.#closed = true;
    clearInterval(this.looking);
    if (this.#timer) clearTimeout(this.#timer);
    for (const it of this.#watched.values()) it.watcher.close();
    this.#watched.clear();
    this.#changed.clear();
    this.#give();
  }

  /**
   * @param {string} folder
   * @param {string} stamp
   */
  #watch(folder, stamp) {
    const watcher = watcherOf(folder, (name) => this.#note(name === null ? folder : path.join(folder, name)));
    watcher.on('error', () => this.#note(folder));
    this.#watched.set(folder, { watcher, stamp });
    this.#absent.delete(folder);
  }

  // Watches the nearest folder above one that isn't there.
  /** @param {string} folder */
  #await(folder) {
    this.#absent.add(folder);
    for (let at = path.dirname(folder); ; at = path.dirname(at)) {
      const stamp = stampOf(at);
      if (stamp !== '') {
        if (!this.#watched.has(at)) this.#watch(at, stamp);
        return;
      }
      if (at === path.dirname(at)) return;
    }
  }

  /** @param {string} file */
  #note(file) {
    if (this.#closed || this.isOwn(file) || isBeside(file)) return;
    const now = performance.now();
    if (this.#changed.size === 0) this.#first = now;
    this.#last = now;
    this.#changed.add(file);
    this.#arm();
  }

  #arm() {
    if (!this.#wake || this.#timer) return;
    this.#timer = setTimeout(() => this.#settle(), this.#quiet());
  }

  #quiet() {
    return this.#changed.size < MANY ? QUIET : QUIET_OF_MANY;
  }

  // Gives what changed, unless more may be about to come.
  #settle() {
    this.#timer = null;
    const now = performance.now();
    const [since, whole] = [now - this.#last, now - this.#first];
    const isQuiet = since >= this.#quiet() - 1 || whole > LONGEST;
    const isGit = this.lock !== null && whole < LONGEST_OF_GIT && existsSync(this.lock);
    if (isQuiet && !isGit && !this.#isDoubtful(since, whole)) {
      this.#give();
      return;
    }
    this.#arm();
  }

  /**
   * Whether a file is gone or empty that wasn't, as it is for a moment where an editor writes it anew.
   * @param {number} since the last event
   * @param {number} whole since the first one
   * @returns {boolean}
   */
  #isDoubtful(since, whole) {
    if (since >= DOUBTFUL || whole > LONGEST) return false;
    return [...this.#changed].some((it) => this.isKnown(it) && isEmpty(it));
  }

  #give() {
    const wake = this.#wake;
    if (!wake) return;
    this.#wake = null;
    const changed = this.#changed;
    this.#changed = new Set();
    this.#renew();
    wake(changed);
  }

  // Watches what went and came back.
  #renew() {
    if (this.#closed) return;
    for (const [folder, { stamp }] of [...this.#watched]) if (stampOf(folder) !== stamp) this.add(folder);
    for (const folder of [...this.#absent]) if (stampOf(folder) !== '') this.add(folder);
  }

  #verify() {
    for (const [folder, { stamp }] of this.#watched) if (stampOf(folder) !== stamp) this.#note(folder);
    for (const folder of this.#absent) if (stampOf(folder) !== '') this.#note(folder);
  }
}

/**
 * @param {string} folder
 * @param {(name: string | null) => void} tell gets the name of what changed in it, where that is known
 * @returns {import('node:fs').FSWatcher}
 * @throws {SurroundingsError} where the system watches no more
 */
function watcherOf(folder, tell) {
  try {
    return watch(folder, (_, name) => tell(name));
  } catch (error) {
    const { code, message } = /** @type {NodeJS.ErrnoException} */ (error);
    const isFull = code === 'ENOSPC' || code === 'EMFILE';
    throw new SurroundingsError(isFull ? `the system watches no more folders than it does: raise fs.inotify.max_user_watches or max_user_instances` : `the folder ${folder} can't be watched: ${message}`);
  }
}

/**
 * What tells a folder from another one at its place.
 * @param {string} folder
 * @returns {string} '' where there is none
 */
function stampOf(folder) {
  try {
    const found = statSync(folder);
    return found.isDirectory() ? `${found.dev}:${found.ino}` : '';
  } catch {
    return '';
  }
}

/**
 * @param {string} file
 * @returns {boolean} whether it is gone or has no bytes
 */
function isEmpty(file) {
  try {
    const found = statSync(file);
    return found.isFile() && found.size === 0;
  } catch {
    return true;
  }
}

/**
 * The file that is there while git changes files of the repository that holds a folder.
 * @param {string} folder absolute
 * @returns {string | null} null outside of repositories
 */
function gitLock(folder) {
  for (let at = folder; ; at = path.dirname(at)) {
    const found = path.join(at, '.git');
    if (existsSync(found)) return path.join(gitFolder(found, at), 'index.lock');
    if (at === path.dirname(at)) return null;
  }
}

/**
 * @param {string} found
 * @param {string} at
 * @returns {string}
 */
function gitFolder(found, at) {
  try {
    if (statSync(found).isDirectory()) return found;
    return path.resolve(at, /^gitdir: (.+)$/m.exec(readFileSync(found, 'utf8'))?.[1] ?? found);
  } catch {
    return found;
  }
}
