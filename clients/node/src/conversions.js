// Which sheets are converted, and where the new ones go.

import { statSync } from 'node:fs';
import path from 'node:path';
import { SYNTAXES } from './converter.js';
import { Disk } from './disk.js';
import { extensionOf } from './names.js';
import { either, nearest } from './nearby.js';
import { allSheets, checkSheet, isFile } from './sheets.js';
import { WordsError } from './words.js';

/**
 * @typedef {import('./converter.js').Syntax} Syntax
 *
 * A sheet to be converted.
 * @typedef {object} Conversion
 * @property {string} sheet its path, relative to the folder of the sheets
 * @property {Syntax} from
 * @property {Syntax} to
 * @property {string} file the sheet, absolute
 * @property {string} shown the same as a person reads it
 * @property {string} out where the new sheet goes, absolute
 * @property {string} outShown the same as a person reads it
 *
 * @typedef {object} Wanted
 * @property {string} root the folder of the sheets, as it was typed
 * @property {string[]} sheets in it; none for all
 * @property {string} [out] the folder in which those of the sheets are mirrored; `root` without it
 * @property {Syntax} [to] the other syntax of each sheet without it
 * @property {string} command its name, for what a person could write
 */

const EXTENSIONS = SYNTAXES.map((it) => `.${it}`);

/**
 * The conversions that are asked for. Sheets that are in the wanted syntax already are left alone.
 * @param {Wanted} wanted
 * @param {Disk} [disk] what looks at the folders
 * @returns {{ conversions: Conversion[], left: number }} in byte order where all sheets are asked for, else in that of the
 *   words; and how many sheets are left alone
 * @throws {WordsError} where a word names no sheet, the folder has none, or two sheets would be written over each other
 */
export function conversionsOf(wanted, disk = new Disk()) {
  const root = path.resolve(wanted.root);
  const out = path.resolve(wanted.out ?? wanted.root);
  checkWords(wanted, root);
  const sheets = wanted.sheets.length > 0 ? wanted.sheets : allSheets(root, out, disk);
  if (sheets.length === 0) throw new WordsError(`${wanted.root}: it has no sheet that ends in ${either(EXTENSIONS)}`);
  const conversions = sheets.map((it) => conversionOf(it, wanted, { root, out })).filter((it) => it.from !== it.to);
  checkOuts(conversions);
  return { conversions, left: sheets.length - conversions.length };
}

/**
 * @param {string} sheet
 * @param {Wanted} wanted
 * @param {{ root: string, out: string }} folders
 * @returns {Conversion}
 */
function conversionOf(sheet, wanted, { root, out }) {
  const from = syntaxOf(sheet);
  const to = wanted.to ?? otherThan(from);
  const name = `${sheet.slice(0, -extensionOf(sheet).length)}.${to}`;
  return {
    sheet, from, to,
    file: path.join(root, sheet),
    shown: path.join(wanted.root, sheet),
    out: path.join(out, name),
    outShown: path.join(wanted.out ?? wanted.root, name),
  };
}

/**
 * @param {string} sheet
 * @returns {Syntax}
 */
function syntaxOf(sheet) {
  return sheet.endsWith('.sass') ? 'sass' : 'scss';
}

/**
 * @param {Syntax} syntax
 * @returns {Syntax}
 */
function otherThan(syntax) {
  return syntax === 'sass' ? 'scss' : 'sass';
}

/**
 * @param {Wanted} wanted
 * @param {string} root
 */
function checkWords({ root: typed, sheets, command }, root) {
  const seen = new Set();
  for (const word of sheets) {
    const file = path.join(root, word);
    if (isFolder(file)) throw new WordsError(`${word}: write ${command} ${path.join(typed, word)}`);
    checkSheet(word, { word, root, typed, extensions: EXTENSIONS });
    if (!isFile(file)) throw new WordsError(`${word}: there is no such sheet in ${typed}${hint(word, root)}`);
    if (seen.has(word)) throw new WordsError(`${word}: write it once`);
    seen.add(word);
  }
}

/**
 * @param {string} word
 * @param {string} root
 * @returns {string}
 */
function hint(word, root) {
  const near = nearest(word, allSheets(root, root, new Disk()));
  return near.length > 0 ? `; did you mean ${either(near)}?` : '';
}

/**
 * @param {string} file
 * @returns {boolean}
 */
function isFolder(file) {
  return statSync(file, { throwIfNoEntry: false })?.isDirectory() ?? false;
}

/**
 * @param {Conversion[]} conversions
 */
function checkOuts(conversions) {
  const sheets = new Map(conversions.map((it) => [it.file, it]));
  for (const { shown, out } of conversions) {
    const other = sheets.get(out);
    if (other) throw new WordsError(`${shown} and ${other.shown} would be written over each other: give ${SYNTAXES.map((it) => `--to ${it}`).join(' or ')}`);
  }
}
