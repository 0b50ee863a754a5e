// Lines and columns of a text, as the program counts them and as editors do.

/** @typedef {import('./reply.js').Place} Place */

const BREAK = /\r\n|[\n\r\f]/g;

/**
 * Where the lines of a text begin, in UTF-16 units.
 * @param {string} text
 * @returns {number[]}
 */
export function lineStarts(text) {
  return [0, ...Array.from(text.matchAll(BREAK), (it) => it.index + it[0].length)];
}

/**
 * The lines of a text, without what ends them.
 * @param {string} text
 * @returns {string[]}
 */
export function linesOf(text) {
  return text.split(/\r\n|[\n\r\f]/);
}

/**
 * The place of an offset.
 * @param {string} text
 * @param {number[]} starts those of the text
 * @param {number} offset in UTF-16 units
 * @returns {Place}
 */
export function placeAt(text, starts, offset) {
  let [low, high] = [0, starts.length];
  while (high - low > 1) {
    const middle = (low + high) >> 1;
    if (starts[middle] <= offset) low = middle;
    else high = middle;
  }
  return { line: low + 1, column: countCharacters(text.slice(starts[low], offset)) + 1 };
}

/**
 * The offset of a place, in UTF-16 units; the end of the text where the place is beyond it.
 * @param {string} text
 * @param {number[]} starts those of the text
 * @param {Place} place
 * @returns {number}
 */
export function offsetOf(text, starts, place) {
  const start = starts[place.line - 1];
  if (start === undefined) return text.length;
  const line = text.slice(start, starts[place.line] ?? text.length);
  return start + unitsBefore(line, place.column);
}

/**
 * How many UTF-16 units stand before a column of a line.
 * @param {string} line
 * @param {number} column counts characters from 1
 * @returns {number}
 */
export function unitsBefore(line, column) {
  let units = 0;
  let left = column - 1;
  for (const it of line) {
    if (left <= 0) break;
    left -= 1;
    units += it.length;
  }
  return units + Math.max(left, 0);
}

/**
 * @param {string} text
 * @returns {number} how many characters it has
 */
export function countCharacters(text) {
  let count = 0;
  for (const _ of text) count += 1;
  return count;
}
