// Files that aren't there yet: a sentinel file is written when one of them appears, for tools that can only watch files that are there.

import { existsSync, mkdtempSync, rmSync, writeFileSync } from 'node:fs';
import { tmpdir } from 'node:os';
import path from 'node:path';
import { Folders } from './folders.js';

/** Waits for files to appear. */
export class Appearances {
  /** Of each who waits, the places for which it does. @type {Map<string, string[]>} */
  #places = new Map();
  #folders;
  #room;
  #count = 0;
  /** The sentinel: a file that is written whenever a place that is waited for has a file. */
  sentinel;

  /** @param {string} root a folder, absolute, whose repository of git is waited for */
  constructor(root) {
    this.#room = mkdtempSync(path.join(tmpdir(), 'sassw-'));
    this.sentinel = path.join(this.#room, 'appeared');
    writeFileSync(this.sentinel, '0');
    this.#folders = new Folders({ root, isKnown: () => false });
    void this.#run();
  }

  /**
   * Waits for files at these places, in the place of those for which the same one waited before.
   * @param {string} who
   * @param {string[]} places absolute; none is there
   */
  wait(who, places) {
    this.#places.set(who, places);
    for (const folder of new Set(places.map((it) => path.dirname(it)))) this.#folders.add(folder);
    // One may have come while the folder wasn't watched yet.
    this.#look(places);
  }

  /** Waits for nothing any more, and removes the sentinel. */
  close() {
    this.#folders.close();
    rmSync(this.#room, { recursive: true, force: true });
  }

  async #run() {
    for (;;) {
      const changed = await this.#folders.next();
      if (changed.size === 0) return;
      this.#look([...this.#places.values()].flat());
    }
  }

  /** @param {string[]} places */
  #look(places) {
    if (!places.some((it) => existsSync(it))) return;
    this.#count += 1;
    writeFileSync(this.sentinel, String(this.#count));
  }
}
