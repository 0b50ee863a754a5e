// Which sheets a command builds, and where their CSS goes.

import { statSync } from 'node:fs';
import path from 'node:path';
import { Disk } from './disk.js';
import { extensionOf } from './names.js';
import { allSheets, checkSheet, isFile, isPartial } from './sheets.js';
import { WordsError } from './words.js';

/**
 * A sheet to be built.
 * @typedef {object} Task
 * @property {string} entry its path, relative to the folder of the sheets
 * @property {string} out where its CSS goes, absolute
 * @property {string} shown the same as a person reads it, relative to the current folder
 *
 * @typedef {object} Wanted
 * @property {string} root the folder of the sheets, as it was typed
 * @property {string[]} entries words ENTRY or ENTRY:OUT; none for all sheets
 * @property {string} [out] the folder in which those of the sheets are mirrored; `root` without it
 */

/** Something around the command is broken. Its message is a sentence for a person. */
export class SurroundingsError extends Error {
  /** @param {string} message */
  constructor(message) {
    super(message);
    this.name = 'SurroundingsError';
  }
}

/**
 * Checks the folder of the sheets.
 * @param {string} root as it was typed
 * @param {string} command its name, for what a person could write
 * @throws {WordsError} where it is a file
 * @throws {SurroundingsError} where there is no such folder
 */
export function checkRoot(root, command) {
  let found;
  try {
    found = statSync(root);
  } catch (error) {
    const { code, message } = /** @type {NodeJS.ErrnoException} */ (error);
    throw new SurroundingsError(code === 'ENOENT' ? `there is no folder ${root}` : `the folder ${root} can't be read: ${message}`);
  }
  if (found.isDirectory()) return;
  throw new WordsError(`${root}: write ${command} ${path.dirname(root)} ${path.basename(root)}`);
}

/**
 * The sheets that are asked for, as they are now.
 * @param {Wanted} wanted
 * @param {Disk} [disk] what looks at the folders
 * @returns {Task[]} in byte order where all sheets are asked for, else in that of the words
 * @throws {WordsError} where a word names no sheet, or two would be written to one file
 */
export function tasksOf(wanted, disk = new Disk()) {
  const root = path.resolve(wanted.root);
  const words = wanted.entries.length > 0 ? wanted.entries.map((it) => entryOf(it, root, wanted.root)) : allEntries(root, outOf(wanted), disk);
  const tasks = words.map(({ entry, out }) => {
    const file = out === null ? path.join(outOf(wanted), `${entry.slice(0, -extensionOf(entry).length)}.css`) : path.resolve(out);
    return { entry, out: file, shown: path.relative('', file) };
  });
  checkOuts(tasks, root);
  return tasks;
}

/**
 * @param {Wanted} wanted
 * @returns {string}
 */
function outOf(wanted) {
  return path.resolve(wanted.out ?? wanted.root);
}

/**
 * @param {Task[]} tasks
 * @param {string} root
 */
function checkOuts(tasks, root) {
  const sheets = new Map(tasks.map((it) => [path.join(root, it.entry), it]));
  /** @type {Map<string, Task>} */
  const outs = new Map();
  for (const task of tasks) {
    const other = outs.get(task.out);
    if (other) throw new WordsError(`${other.entry} and ${task.entry} would both be written to ${task.shown}: write ${task.entry}:OUT for one of them`);
    if (sheets.has(task.out)) throw new WordsError(`${task.entry} would be written over the sheet ${task.shown}: write ${task.entry}:OUT, or give --out DIR`);
    outs.set(task.out, task);
  }
}

/**
 * @param {string} word
 * @param {string} root
 * @param {string} typed
 * @returns {{ entry: string, out: string | null }}
 */
function entryOf(word, root, typed) {
  const colon = isFile(path.join(root, word)) ? -1 : word.lastIndexOf(':');
  const entry = colon < 0 ? word : word.slice(0, colon);
  const out = colon < 0 ? null : word.slice(colon + 1);
  if (out === '') throw new WordsError(`${word}: write ${entry}, or the file for its CSS behind the colon`);
  checkSheet(entry, { word, root, typed, better: (it) => (out === null ? it : `${it}:${out}`) });
  return { entry, out };
}

/**
 * All sheets of a folder that don't begin with `_`.
 * @param {string} root
 * @param {string} out
 * @param {Disk} disk
 * @returns {Array<{ entry: string, out: null }>}
 */
function allEntries(root, out, disk) {
  return allSheets(root, out, disk).filter((it) => !isPartial(it)).map((entry) => ({ entry, out: null }));
}
