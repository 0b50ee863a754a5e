// Why a sheet in lines can't hold a statement.

import { bracketsOf } from './brackets.js';

/**
 * @typedef {import('./notes.js').At} At
 * @typedef {import('./notes.js').Notes} Notes
 *
 * A reason, as far as the statement shows it: what it is, and what a person can do.
 * @typedef {{ head: string, help: string }} Reason
 */

const STRING = String.raw`"(?:\\[^]|[^"\\])*"|'(?:\\[^]|[^'\\])*'`;

// What may hold the signs for which lines stand.
const HOLDERS = new RegExp(String.raw`${STRING}|url\([^"')]*\)|#\{(?:${STRING}|[^}"'])*\}`, 'g');

// A loud comment in a block is a statement, and one before it is none.
const EMPTY_BLOCK = /^(?:\s|\/\*(?:[^*]|\*(?!\/))*\*\/|\/\/[^\n\r\f]*)*\{(?:\s|\/\/[^\n\r\f]*)*\}/;

// Of a text that a note repeats.
const LONGEST = 40;

/**
 * What can be said of a fault of lines.
 * @param {At} at
 * @returns {Notes}
 */
export function notesOfLines(at) {
  const seen = at.it.startsWith('/*') ? [ofComment(at)] : [ofBlock(at), ofSign(at), ofComma(at), ofCustom(at), ofString(at), ofBackslash(at), ofSemicolon(at)];
  const found = seen.filter((it) => it !== null);
  const reasons = found.length > 0 ? found : [ofBranches(at)].filter((it) => it !== null);
  return { head: reasons[0]?.head ?? null, sure: false, notes: reasons.map((it) => ({ text: it.help })) };
}

/**
 * @param {At} at
 * @returns {Reason}
 */
function ofComment({ it }) {
  if (it.includes('#{')) return { head: "lines can't hold a comment with `#{}`", help: 'write its text without `#{}`' };
  return { head: "lines can't hold a comment without words", help: 'take it out, or write a word in it' };
}

/**
 * @param {At} at
 * @returns {Reason | null}
 */
function ofBlock({ it, text, to }) {
  if (!EMPTY_BLOCK.test(text.slice(to))) return null;
  const help = it.startsWith('@function') ? 'write a `@return` in it' : 'take it out, or write in it what gives no CSS, as `$none: null;`';
  return { head: "lines can't hold a block without a statement", help };
}

/**
 * @param {At} at
 * @returns {Reason | null}
 */
function ofSign({ it, text, from }) {
  if (it.startsWith('=')) return { head: 'a line that begins with `=` is a `@mixin`', help: 'a selector begins with another sign: look for what is missing before it' };
  if (!it.startsWith('+')) return null;
  const isNested = bracketsOf(text.slice(0, from)).open.length > 0;
  const better = isNested ? `& ${it}` : `#{"+"}${it.slice(1)}`;
  return { head: 'a line that begins with `+` is an `@include`', help: `write \`${short(better.replace(/\s+/g, ' '))}\`` };
}

/**
 * @param {At} at
 * @returns {Reason | null}
 */
function ofComma({ it }) {
  if (!it.endsWith(',')) return null;
  return { head: 'a line that ends in a comma goes on in the next one', help: 'take the comma out; a list of one item can be written in parentheses, as `(a,)`' };
}

/**
 * @param {At} at
 * @returns {Reason | null}
 */
function ofCustom({ it }) {
  if (!it.startsWith('--')) return null;
  const [sign] = /[;{}]/.exec(it.replace(HOLDERS, '')) ?? [];
  const isLong = /[\n\r\f]/.test(it);
  if (sign === undefined) return isLong ? { head: "lines can't hold a custom property over several lines", help: 'write it in one line' } : null;
  const value = it.slice(it.indexOf(':') + 1).trim();
  const isPlain = !/["\\#\n\r\f]/.test(value) && value.length <= LONGEST;
  const text = isPlain ? `${it.slice(0, it.indexOf(':'))}: #{"${value}"}` : '#{".."}';
  return { head: `lines can't hold a custom property with \`${sign}\``, help: `write its value as a text${isLong ? ' in one line' : ''}: \`${text}\`` };
}

/**
 * @param {At} at
 * @returns {Reason | null}
 */
function ofString({ it }) {
  const strings = it.match(new RegExp(STRING, 'g')) ?? [];
  if (it.startsWith('--') || !strings.some((text) => /[\n\r\f]/.test(text))) return null;
  return { head: "lines can't hold a string over several lines", help: 'write it in one line' };
}

/**
 * @param {At} at
 * @returns {Reason | null}
 */
function ofBackslash({ it }) {
  if (it.startsWith('--') || !/(?:^|[^\\])(?:\\\\)*\\[\n\r\f]/.test(it.replace(HOLDERS, ''))) return null;
  return { head: "lines can't hold a `\\` before the end of a line", help: 'take it out: it escapes nothing there' };
}

/**
 * @param {At} at
 * @returns {Reason | null}
 */
function ofSemicolon({ it }) {
  if (it.startsWith('--') || !it.replace(HOLDERS, '').includes(';')) return null;
  return { head: "lines can't hold a `;`", help: 'write it as a text: `#{";"}`' };
}

/**
 * @param {At} at
 * @returns {Reason | null}
 */
function ofBranches({ it }) {
  if (!it.startsWith('@if')) return null;
  return { head: "lines can't hold one of the branches of this `@if`", help: 'look for an empty block, and for a condition that ends in a comma' };
}

/**
 * @param {string} text
 * @returns {string}
 */
function short(text) {
  return text.length > LONGEST ? `${text.slice(0, LONGEST - 1)}…` : text;
}
