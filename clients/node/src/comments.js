// The comments of a sheet, and which of them a conversion leaves out.

import { bracketsOf } from './brackets.js';
import { lineStarts, linesOf } from './text.js';

/** @typedef {import('./brackets.js').Extent} Extent */

/**
 * The comments of a sheet, silent and loud ones.
 * @param {string} text
 * @param {string} syntax 'scss' or 'sass'
 * @returns {Extent[]} in their order
 */
export function commentsOf(text, syntax) {
  return syntax === 'sass' ? commentsOfLines(text) : bracketsOf(text).comments;
}

/**
 * The comments of a sheet that the one written from it lacks: all silent ones, and loud ones inside of a statement.
 * @param {{ text: string, syntax: string }} sheet
 * @param {{ text: string, syntax: string }} written
 * @returns {Extent[]}
 */
export function lostComments(sheet, written) {
  const kept = commentsOf(written.text, written.syntax).map((it) => wordsOf(written.text, it)).filter((it) => it !== '');
  let next = 0;
  return commentsOf(sheet.text, sheet.syntax).filter((it) => {
    if (isSilent(sheet.text, it)) return true;
    const words = wordsOf(sheet.text, it);
    if (words === '') return false;
    const isKept = words === kept[next];
    if (isKept) next += 1;
    return !isKept;
  });
}

/**
 * Whether a comment is one that ends with its line.
 * @param {string} text
 * @param {Extent} comment
 * @returns {boolean}
 */
export function isSilent(text, comment) {
  return text.startsWith('//', comment.from);
}

/**
 * How many lines comments stand in, without lines in which nothing stands.
 * @param {string} text
 * @param {Extent[]} comments
 * @returns {number}
 */
export function countLines(text, comments) {
  const lines = new Set();
  const starts = lineStarts(text);
  let line = 0;
  for (const { from, to } of comments) {
    while (line + 1 < starts.length && starts[line + 1] <= from) line += 1;
    for (const [at, row] of linesOf(text.slice(from, to)).entries()) if (row.trim() !== '') lines.add(line + at);
  }
  return lines.size;
}

/**
 * What a loud comment says, however its lines are laid out.
 * @param {string} text
 * @param {Extent} comment
 * @returns {string} '' where it says nothing
 */
function wordsOf(text, { from, to }) {
  const inside = text.slice(from + 2, to).trimEnd().replace(/\*\/$/, '');
  return linesOf(inside).map((it) => it.trim().replace(/^\*+/, '').trim()).filter((it) => it !== '').join('\n');
}

/**
 * The comments of a sheet in lines. What is deeper than one that begins a line belongs to it.
 * @param {string} text
 * @returns {Extent[]}
 */
function commentsOfLines(text) {
  /** @type {Extent[]} */
  const found = [];
  const starts = lineStarts(text);
  const endOf = (/** @type {number} */ line) => starts[line + 1] ?? text.length;
  let from = 0;
  for (let line = 0; line < starts.length; line += 1) {
    const sign = from === starts[line] ? /^[ \t]*(?=\/[/*])/.exec(text.slice(from, endOf(line))) : null;
    if (sign) {
      line = lastDeeper(text, starts, line);
      found.push(...commentsTogether(text, from + sign[0].length, endOf(line)));
      from = endOf(line);
      continue;
    }
    const { open, comments } = bracketsOf(text.slice(from, endOf(line)));
    // The statement goes on in the next line.
    if (open.some((it) => it.sign !== '/*') && line + 1 < starts.length) continue;
    for (const it of comments) found.push({ from: from + it.from, to: from + it.to });
    from = endOf(line);
  }
  return found;
}

/**
 * The last one of the lines below one that are deeper.
 * @param {string} text
 * @param {number[]} starts
 * @param {number} line counts from 0
 * @returns {number} the line itself where none is
 */
function lastDeeper(text, starts, line) {
  const depth = (/** @type {number} */ it) => /^[ \t]*/.exec(text.slice(starts[it], starts[it + 1]))?.[0].length ?? 0;
  const isBlank = (/** @type {number} */ it) => text.slice(starts[it], starts[it + 1]).trim() === '';
  let last = line;
  for (let at = line + 1; at < starts.length; at += 1) {
    if (isBlank(at)) continue;
    if (depth(at) <= depth(line)) break;
    last = at;
  }
  return last;
}

/**
 * The comment that begins at a place of lines which belong to it, and those behind its end.
 * @param {string} text
 * @param {number} from
 * @param {number} to the end of the lines
 * @returns {Extent[]}
 */
function commentsTogether(text, from, to) {
  const end = isSilent(text, { from, to }) ? -1 : text.slice(from + 2, to).indexOf('*/');
  if (end < 0) return [{ from, to }];
  const behind = from + 2 + end + 2;
  const rest = text.slice(behind, to).search(/\/[/*]/);
  return [{ from, to: behind }, ...(rest < 0 ? [] : commentsTogether(text, behind + rest, to))];
}
