// What is wrong where a sheet can't go on: what is open, what is missing, and what isn't of the sheet's syntax.

import { bracketsOf } from './brackets.js';
import { extensionOf } from './names.js';
import { placeAt } from './text.js';

/**
 * @typedef {import('./notes.js').At} At
 * @typedef {import('./notes.js').Notes} Notes
 * @typedef {import('./explain.js').Note} Note
 */

const CLOSERS = /** @type {Record<string, string>} */ ({ '{': '}', '(': ')', '[': ']', '#{': '}', '"': '"', "'": "'", '/*': '*/' });

/**
 * What can be said of a fault of the grammar.
 * @param {At} at
 * @returns {Notes}
 */
export function notesOfGrammar(at) {
  const found = ofUnclosed(at) ?? ofEnd(at) ?? ofNamespace(at) ?? ofSyntax(at) ?? ofSign(at) ?? ofSemicolon(at);
  return found ?? { head: null, sure: false, notes: [] };
}

/**
 * A note with a place of its own.
 * @param {At} at
 * @param {string} text
 * @param {number} from an offset
 * @param {number} [length] in UTF-16 units
 * @returns {Note}
 */
function noteAt({ text: sheet, starts, fault }, text, from, length = 1) {
  const span = { from: placeAt(sheet, starts, from), to: placeAt(sheet, starts, from + length) };
  return { text, path: fault.path, span };
}

/**
 * @param {At} at
 * @param {number} offset
 * @returns {number}
 */
function lineOf({ text, starts }, offset) {
  return placeAt(text, starts, offset).line;
}

/**
 * A string, a comment or a `#{` that isn't closed: the fault stands at its first character.
 * @param {At} at
 * @returns {Notes | null}
 */
function ofUnclosed({ text, from, fault }) {
  const isSass = extensionOf(fault.path) === '.sass';
  if (text.startsWith('/*', from) && !isSass) return { head: 'the comment that begins here isn\'t closed', sure: true, notes: [{ text: 'put `*/` at its end' }] };
  if (text.startsWith('#{', from) && bracketsOf(text.slice(from)).open.some((it) => it.at === 0)) {
    return { head: 'the `#{` that begins here isn\'t closed', sure: true, notes: [{ text: 'put `}` behind the value' }] };
  }
  const quote = text[from];
  if (quote !== '"' && quote !== "'") return null;
  const line = /^(?:\\[^]|[^\\\n\r\f])*/.exec(text.slice(from + 1))?.[0] ?? '';
  const end = new RegExp(`^(?:\\\\[^]|#\\{[^}]*\\}|[^\\\\${quote}])*${quote}`);
  if (end.test(line)) return null;
  return { head: `the string that begins here isn't closed in its line`, sure: true, notes: [{ text: `put ${quote} at its end` }] };
}

/**
 * The end of the text.
 * @param {At} at
 * @returns {Notes | null}
 */
function ofEnd(at) {
  const { text, from } = at;
  if (text.slice(from).trim() !== '') return null;
  const { open, uneven } = bracketsOf(text);
  const inner = open.at(-1);
  if (!inner) {
    const isLines = extensionOf(at.fault.path) === '.sass';
    const text = isLines ? 'a block, or a `:` and a value, is missing here' : 'a `;`, a `{` or a value is missing before it';
    return { head: 'the sheet ends too early', sure: true, notes: [{ text }] };
  }
  const notes = [noteAt(at, `\`${inner.sign}\` of line ${lineOf(at, inner.at)} is still open: \`${CLOSERS[inner.sign]}\` is missing`, inner.at, inner.sign.length)];
  if (open.length > 1) notes.push({ text: `around it are open: ${open.slice(0, -1).map((it) => `\`${it.sign}\` of line ${lineOf(at, it.at)}`).join(', ')}` });
  if (uneven) notes.push(unevenNote(at, uneven));
  return { head: 'the sheet ends while something is open', sure: true, notes };
}

/**
 * @param {At} at
 * @param {import('./brackets.js').Uneven} uneven
 * @returns {Note}
 */
function unevenNote(at, { open, close }) {
  return noteAt(at, `or else that of line ${lineOf(at, open)}, whose \`}\` would be that of line ${lineOf(at, close)}, which isn't indented like it`, open);
}

/**
 * A URL without a namespace.
 * @param {At} at
 * @returns {Notes | null}
 */
function ofNamespace({ text, from, it }) {
  if (!/^(["']).*\1$/s.test(it) || !/@use\s*$/.test(text.slice(0, from))) return null;
  return { head: `${it} gives no name for a namespace`, sure: true, notes: [{ text: `say one: \`@use ${it} as name;\`` }] };
}

/**
 * What isn't of the syntax of the file.
 * @param {At} at
 * @returns {Notes | null}
 */
function ofSyntax({ fault, it, text, from, starts }) {
  const extension = extensionOf(fault.path);
  if (extension === '.css') {
    const isNested = bracketsOf(text.slice(0, from)).open.length > 0;
    if (/^(?:\/\/|\$|#\{|&)/.test(text.slice(from))) return { head: `plain CSS has no \`${/^(?:\/\/|\$|#\{|&)/.exec(text.slice(from))?.[0]}\``, sure: true, notes: [{ text: 'name the file `.scss` to write Sass in it' }] };
    return isNested ? { head: null, sure: true, notes: [{ text: 'no rule stands in a rule of plain CSS: name the file `.scss` to nest rules' }] } : null;
  }
  if (extension !== '.sass') return null;
  if (/^[{};]/.test(it)) return { head: `a sheet in lines has no \`${it[0]}\``, sure: true, notes: [{ text: 'indentation and line ends stand for `{`, `}` and `;`; name the file `.scss` to write them' }] };
  const line = text.slice(starts[fault.span.from.line - 1], from);
  if (!/^[ \t]*$/.test(line)) return null;
  const others = text.split(/\r\n|[\n\r\f]/).map((row) => /^[ \t]*/.exec(row)?.[0] ?? '');
  const hasBoth = others.some((row) => row.includes(' ')) && others.some((row) => row.includes('\t'));
  if (hasBoth) return { head: 'tabs and spaces are mixed in the indentation', sure: true, notes: [{ text: 'a sheet is indented by one of the two' }] };
  if (line === '') return null;
  return { head: 'this line is indented like no line above', sure: true, notes: [{ text: 'its indentation has to be that of a line above whose block is still open' }] };
}

/**
 * A sign that closes nothing, or that stands in brackets which are open.
 * @param {At} at
 * @returns {Notes | null}
 */
function ofSign(at) {
  const { text, from, it } = at;
  const { open, uneven } = bracketsOf(text.slice(0, from));
  const inner = open.at(-1);
  const closes = it === '}' || it === ')' || it === ']';
  if (closes && !inner) {
    const notes = uneven ? [noteAt(at, `the \`}\` of line ${lineOf(at, uneven.close)} isn't indented like the \`{\` of line ${lineOf(at, uneven.open)}, which it closes`, uneven.close)] : [];
    return { head: `\`${it}\` closes nothing`, sure: true, notes: [...notes, { text: `take it out, or put the sign that it closes before it` }] };
  }
  const isIn = inner && inner.sign !== '{' && (closes || it === ';' || it === '{' || it === '');
  if (isIn && CLOSERS[inner.sign] !== it) {
    return { head: null, sure: true, notes: [noteAt(at, `\`${inner.sign}\` of line ${lineOf(at, inner.at)} is open here: \`${CLOSERS[inner.sign]}\` is missing`, inner.at, inner.sign.length)] };
  }
  if (it.startsWith('@else')) return { head: null, sure: true, notes: [{ text: '`@else` stands directly behind the `}` of an `@if`' }] };
  if (closes && /[:,(]\s*$/.test(text.slice(0, from))) return { head: null, sure: true, notes: [{ text: 'a value is missing before it' }] };
  if (it === ';' && /:\s*$/.test(text.slice(0, from))) return { head: null, sure: true, notes: [{ text: 'a value is missing before it' }] };
  return null;
}

/**
 * The first statement of a line where the line before lacks its `;`.
 * @param {At} at
 * @returns {Notes | null}
 */
function ofSemicolon(at) {
  const { text, starts, from, fault } = at;
  if (extensionOf(fault.path) === '.sass') return null;
  const lineStart = starts[fault.span.from.line - 1];
  if (!/^\s*(?:\$?[\w-]+\s*)?$/.test(text.slice(lineStart, from))) return null;
  const before = text.slice(0, lineStart).replace(/\/\*[^]*?\*\/|\/\/[^\n\r\f]*/g, (it) => ' '.repeat(it.length)).trimEnd();
  if (before === '' || /[;{},(:]$/.test(before)) return null;
  return { head: null, sure: true, notes: [noteAt(at, `a \`;\` may be missing at the end of line ${lineOf(at, before.length)}`, before.length)] };
}
