// Converts sheets from SCSS to the indented syntax and back.

import { lstatSync } from 'node:fs';
import path from 'node:path';
import { STATUS } from './build.js';
import { countLines, isSilent, lostComments } from './comments.js';
import { conversionsOf } from './conversions.js';
import { convertSheet } from './converter.js';
import { Disk, whyNoSheet } from './disk.js';
import { problemsOf, saidAt, tellingOf } from './explain.js';
import { extensionOf } from './names.js';
import { counted, has, sizeOf, writeWhole } from './output.js';
import { checkRoot } from './plan.js';
import { findProgram } from './program.js';
import { lineStarts, linesOf, placeAt } from './text.js';

/**
 * @typedef {import('./conversions.js').Conversion} Conversion
 * @typedef {import('./disk.js').Sheet} Sheet
 * @typedef {import('./explain.js').Problem} Problem
 * @typedef {import('./program.js').ProgramError} ProgramError
 *
 * What all conversions share; `files` are the sheets that are converted.
 * @typedef {{ program: string, disk: Disk, files: Set<string> }} Around
 *
 * @typedef {object} ConvertOptions
 * @property {string} root the folder of the sheets
 * @property {string[]} [sheets] paths in it; all sheets where there are none
 * @property {string} [out] the folder for the new sheets; `root` without it
 * @property {'scss' | 'sass'} [to] the syntax that is wanted; the other one of each sheet without it
 * @property {boolean} [force] whether files that stand already are written over
 * @property {boolean} [check] whether nothing is written
 * @property {'text' | 'json' | 'github'} [format] of faults and notes
 * @property {boolean} [colour] whether they have colours
 * @property {string} [program] the path of the program
 * @property {string} [command] the name of the command, for what a person could write
 * @property {(line: string) => void} [say] gets each line about what was written, without its line feed
 * @property {(text: string) => void} [tell] gets each fault and note
 *
 * What became of one sheet; `error` is there where it could be neither converted nor found faulty, or not written.
 * @typedef {object} Converted
 * @property {Conversion} conversion
 * @property {Buffer | null} text the new sheet, null where there is a fault
 * @property {boolean} written whether it was put in its place now
 * @property {Problem[]} problems what keeps it from its place, or notes on what it lacks
 * @property {Error | null} error
 */

const nothing = () => {};
const START = Object.freeze({ line: 1, column: 1 });

/**
 * Converts sheets. What can't be converted is told, and the next one is converted all the same. A file that stands already
 * is written over only where that is asked for.
 * @param {ConvertOptions} options
 * @returns {Promise<{ status: number, converted: Converted[] }>} 0 where all were converted, 1 where some sheet had a fault
 *   or another file stands in its place, 2 where something around them was broken
 * @throws {import('./words.js').WordsError} (as all errors: by the promise) where the options name no sheets
 * @throws {import('./plan.js').SurroundingsError} where there is no such folder
 * @throws {ProgramError} where the program isn't found, or has no such command
 */
export async function convert(options) {
  const { root, sheets = [], out, to, command = 'sassw-convert', say = nothing } = options;
  checkRoot(root, command);
  const disk = new Disk();
  const { conversions, left } = conversionsOf({ root, sheets, out, to, command }, disk);
  const around = { program: findProgram(options.program), disk, files: new Set(conversions.map((it) => it.file)) };
  /** @type {Converted[]} */
  const converted = [];
  for (const it of conversions) converted.push(await convertOne(it, around, options));
  if (conversions.length === 0) say(`nothing to convert: ${counted(left, 'sheet')} in ${to} already`);
  else if (options.check) say(`${converted.filter(isWell).length} of ${counted(conversions.length, 'sheet')} can be converted`);
  return { status: statusOf(converted), converted };
}

/**
 * @param {Conversion} conversion
 * @param {Around} around
 * @param {ConvertOptions} options
 * @returns {Promise<Converted>}
 */
async function convertOne(conversion, around, { check, force, say = nothing, tell = nothing, ...form }) {
  const { file, shown, out, outShown } = conversion;
  /** @type {Converted} */
  const converted = { conversion, text: null, written: false, problems: [], error: null };
  try {
    const sheet = around.disk.sheet(file);
    const { text, problems } = await outcomeOf(conversion, sheet, around);
    converted.text = text;
    const place = text ? placeOf(out, text) : 'free';
    const isTaken = place === 'other' && !force;
    converted.problems = isTaken ? [faultOn(shown, `${outShown} stands there already, and is another file: --force writes over it`)] : place === 'same' ? [] : problems;
    tell(tellingOf(converted.problems, new Map([[shown, sheet?.text ?? '']]), form));
    if (!text || isTaken || check) return converted;
    if (place !== 'same') writeWhole(out, text);
    converted.written = place !== 'same';
    say(converted.written ? `${outShown} ${sizeOf(text.length)}, from ${shown}` : `${outShown} stands there already, just so`);
  } catch (error) {
    const it = /** @type {Error} */ (error);
    if (it.name === 'ProgramError') throw it;
    tell(`${converted.text ? outShown : shown}: ${it.message}\n`);
    converted.error = it;
  }
  return converted;
}

/**
 * What a sheet comes to, with its fault, or with notes on what the new sheet lacks.
 * @param {Conversion} conversion
 * @param {Sheet | null} sheet
 * @param {Around} around
 * @returns {Promise<{ text: Buffer | null, problems: Problem[] }>}
 */
async function outcomeOf(conversion, sheet, { program, files }) {
  const { shown } = conversion;
  if (!sheet) return { text: null, problems: [faultOn(shown, "it isn't there any more")] };
  if (sheet.problem) return { text: null, problems: [faultOn(shown, `it ${whyNoSheet(sheet.problem)}`)] };
  const { text, fault } = await convertSheet(program, conversion, sheet.bytes);
  if (text) return { text, problems: [...commentNotes(conversion, sheet.text, text.toString('utf8')), ...loadNotes(conversion, sheet, files)] };
  // The program knows the sheet by the name `in.scss` or `in.sass`.
  const reply = { messages: [], ran: [], css: null, fault: { ...fault, path: shown }, memory: false };
  return { text: null, problems: problemsOf(reply, new Map([[shown, sheet.text]])) };
}

/**
 * What stands at the place of a new sheet: nothing, the same, or another file.
 * @param {string} out
 * @param {Buffer} text
 * @returns {'free' | 'same' | 'other'}
 */
function placeOf(out, text) {
  if (!lstatSync(out, { throwIfNoEntry: false })) return 'free';
  return has(out, text) ? 'same' : 'other';
}

/**
 * @param {string} shown
 * @param {string} message
 * @returns {Problem}
 */
function faultOn(shown, message) {
  return saidAt(new Map(), { path: shown, span: { from: START, to: START } }, 'fault', message);
}

/**
 * A note on the comments that a new sheet lacks, at the first one.
 * @param {Conversion} conversion
 * @param {string} text
 * @param {string} written
 * @returns {Problem[]} none where it has all
 */
function commentNotes({ from, to, shown }, text, written) {
  const lost = lostComments({ text, syntax: from }, { text: written, syntax: to });
  if (lost.length === 0) return [];
  const lines = countLines(text, lost);
  const silent = lost.filter((it) => isSilent(text, it)).length;
  const kind = silent === lost.length ? 'a silent comment' : silent === 0 ? 'a comment inside of a statement' : 'a comment, silent or inside of a statement';
  const message = `${counted(lines, 'line')} ${lines === 1 ? 'holds' : 'hold'} ${kind}, which the new sheet lacks`;
  return [noteAt(shown, text, lost[0].from, lost[0].from + linesOf(text.slice(lost[0].from, lost[0].to))[0].length, message)];
}

/**
 * Notes on the loads that name a sheet which is converted by the extension of its old syntax.
 * @param {Conversion} conversion
 * @param {Sheet} sheet
 * @param {Set<string>} files
 * @returns {Problem[]}
 */
function loadNotes({ file, shown }, { text, loads }, files) {
  const named = loads.filter(({ url }) => {
    const target = path.join(path.dirname(file), url);
    return files.has(target) || files.has(path.join(path.dirname(target), `_${path.basename(target)}`));
  });
  return named.map(({ url, from, to }) => noteAt(shown, text, from, to, `"${url}" means the old sheet: write "${url.slice(0, -extensionOf(url).length)}"`));
}

/**
 * @param {string} shown
 * @param {string} text
 * @param {number} from an offset
 * @param {number} to
 * @param {string} message
 * @returns {Problem}
 */
function noteAt(shown, text, from, to, message) {
  const starts = lineStarts(text);
  const span = { from: placeAt(text, starts, from), to: placeAt(text, starts, to) };
  return saidAt(new Map([[shown, text]]), { path: shown, span }, 'note', message);
}

/**
 * @param {Converted} converted
 * @returns {boolean}
 */
function isWell({ error, problems }) {
  return !error && problems.every((it) => it.kind !== 'fault');
}

/**
 * @param {Converted[]} converted
 * @returns {number}
 */
function statusOf(converted) {
  if (converted.some((it) => it.error)) return STATUS.broken;
  return converted.every(isWell) ? STATUS.well : STATUS.fault;
}
