// The sheets of a folder: those that words name, and all of them.

import { statSync } from 'node:fs';
import path from 'node:path';
import { isIn } from './mounts.js';
import { EXTENSIONS, extensionOf } from './names.js';
import { either } from './nearby.js';
import { WordsError } from './words.js';

/**
 * A word in which a sheet is named.
 * @typedef {object} Named
 * @property {string} word as it was typed
 * @property {string} root the folder of the sheets, absolute
 * @property {string} typed the same as it was typed
 * @property {(sheet: string) => string} [better] the word with another sheet in it; the sheet alone without it
 * @property {string[]} [extensions] of what is a sheet there; all without it
 */

/**
 * Checks that a sheet is named by its path in the folder. Whether it is there isn't asked.
 * @param {string} given the path that stands in the word
 * @param {Named} named
 * @throws {WordsError} where it isn't, with what to write
 */
export function checkSheet(given, { word, root, typed, better = (it) => it, extensions = EXTENSIONS }) {
  const write = (/** @type {string} */ it) => new WordsError(`${word}: write ${better(it)}`);
  if (given === '') throw new WordsError(`${word}: write the name of a sheet in ${typed}`);
  const inside = path.resolve(root, given);
  const outside = path.resolve(given);
  if (path.isAbsolute(given) && isIn(given, root) && path.normalize(given) !== root) throw write(path.relative(root, given));
  if (!isFile(inside) && isIn(outside, root) && isFile(outside)) throw write(path.relative(root, outside));
  if (!isIn(inside, root) || inside === root) throw new WordsError(`${word}: write the name of a sheet in ${typed}`);
  const plain = path.relative(root, inside);
  if (plain !== given) throw write(plain);
  if (extensions.includes(extensionOf(given))) return;
  const [found] = extensions.filter((it) => isFile(inside + it));
  if (found) throw write(given + found);
  throw new WordsError(`${word}: write the name of a sheet, which ends in ${either(extensions)}`);
}

/**
 * @param {string} file
 * @returns {boolean}
 */
export function isFile(file) {
  try {
    return statSync(file).isFile();
  } catch {
    return false;
  }
}

/**
 * The sheets of a folder that end in `.scss` or `.sass`, in byte order. Not looked into are `node_modules`, folders whose
 * name begins with a dot, and the folder for what is made.
 * @param {string} root absolute
 * @param {string} out the folder for what is made, absolute; it may be the same
 * @param {import('./disk.js').Disk} disk what looks at the folders
 * @returns {string[]} paths relative to the folder
 */
export function allSheets(root, out, disk) {
  /** @type {string[]} */
  const found = [];
  const seen = new Set();
  const look = (/** @type {string} */ folder) => {
    const { names, real } = disk.list(folder);
    if (seen.has(real)) return;
    seen.add(real);
    for (const name of names.keys()) {
      const at = path.join(folder, name);
      const isSheet = /.\.s[ac]ss$/.test(name) && !name.startsWith('.');
      const isLooked = !name.startsWith('.') && name !== 'node_modules' && at !== out;
      if (isSheet && disk.kind(at) === 'file') found.push(path.relative(root, at));
      else if (isLooked && names.get(name) !== 'file' && disk.kind(at) === 'folder') look(at);
    }
  };
  look(root);
  return found.sort((a, b) => Buffer.compare(Buffer.from(a), Buffer.from(b)));
}

/**
 * Whether a sheet is one that others load, and that isn't built by itself.
 * @param {string} sheet
 * @returns {boolean}
 */
export function isPartial(sheet) {
  return path.basename(sheet).startsWith('_');
}
