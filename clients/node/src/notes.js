// What the code of a fault alone can't say.

import { notesOfGrammar } from './grammar-notes.js';
import { notesOfLines } from './line-notes.js';
import { decodedString, defaultNamespace, loadsOf } from './loads.js';
import { either, nearest } from './nearby.js';
import { lineStarts, offsetOf, placeAt } from './text.js';

/**
 * @typedef {import('./reply.js').Fault} Fault
 * @typedef {import('./explain.js').Files} Files
 * @typedef {import('./explain.js').Note} Note
 *
 * @typedef {object} Notes
 * @property {string | null} head a sentence that says more than the code's own
 * @property {boolean} sure whether the notes say what is wrong, so that what the code's row has to say is of no use
 * @property {Note[]} notes
 */

const NONE = Object.freeze({ head: null, sure: false, notes: [] });

/** The modules that are built in. */
export const BUILT_IN = ['sass:color', 'sass:list', 'sass:map', 'sass:math', 'sass:meta', 'sass:string'];

/**
 * What can be said of a fault beyond its code.
 * @param {Fault} fault
 * @param {Files} files
 * @returns {Notes}
 */
export function notesOf(fault, files) {
  const text = files.text(fault.path);
  if (text === null) return fault.code === 19 ? entryNotes(fault, files) : NONE;
  const merge = mergeNote(fault, text);
  if (merge) return { head: 'the sheet holds a merge that isn\'t settled', sure: true, notes: [merge] };
  const starts = lineStarts(text);
  const from = offsetOf(text, starts, fault.span.from);
  const to = offsetOf(text, starts, fault.span.to);
  const at = { fault, files, text, starts, from, to, it: text.slice(from, to) };
  switch (fault.code) {
    case 10:
      return notesOfGrammar(at);
    case 11:
      return variableNotes(at);
    case 12:
      return namespaceNotes(at);
    case 13:
    case 37:
      return memberNotes(at);
    case 19:
      return missingNotes(at);
    case 20:
      return severalNotes(at);
    case 42:
      return notesOfLines(at);
    default:
      return NONE;
  }
}

/**
 * A fault at its place in the text.
 * @typedef {object} At
 * @property {Fault} fault
 * @property {Files} files
 * @property {string} text
 * @property {number[]} starts
 * @property {number} from the offset of its span
 * @property {number} to
 * @property {string} it what stands at the span
 */

/**
 * @param {Fault} fault
 * @param {string} text
 * @returns {Note | null}
 */
function mergeNote({ path }, text) {
  const ours = /^<{7}(?: .*)?$/m.exec(text);
  const theirs = /^>{7}(?: .*)?$/m.exec(text);
  if (!ours || !theirs || theirs.index < ours.index) return null;
  const from = placeAt(text, lineStarts(text), ours.index);
  const span = { from, to: { line: from.line, column: from.column + [...ours[0]].length } };
  const line = placeAt(text, lineStarts(text), theirs.index).line;
  return { text: `its markers go from here to line ${line}: choose what stays, and take them out`, path, span };
}

/**
 * @param {Fault} fault
 * @param {Files} files
 * @returns {Notes}
 */
function entryNotes(fault, files) {
  const [head, ...rest] = files.missing(fault.path, null);
  return { head: head ?? 'there is no such file', sure: true, notes: rest.map((it) => ({ text: it })) };
}

/**
 * @param {At} at
 * @param {string[]} names
 * @param {(name: string) => string} shown
 * @returns {Note[]}
 */
function nearNotes({ it }, names, shown) {
  const near = nearest(it, names);
  return near.length === 0 ? [] : [{ text: `did you mean ${either(near.map(shown))}?` }];
}

/**
 * @param {string} text
 * @returns {string[]}
 */
function variablesIn(text) {
  return Array.from(text.matchAll(/\$[\w\-\u0080-\u{10ffff}]+/gu), (it) => it[0]);
}

/**
 * @param {At} at
 * @returns {Notes}
 */
function variableNotes(at) {
  const { text, fault, files, it } = at;
  const own = Array.from(text.matchAll(/(\$[\w\-\u0080-\u{10ffff}]+)\s*:/gu), (found) => found[1]);
  const given = Array.from(text.matchAll(/@(?:mixin|function|each|for|include)\b[^{;]*/g), (found) => variablesIn(found[0])).flat();
  const near = nearNotes(at, [...own, ...given].filter((name) => name !== it), (name) => `\`${name}\``);
  const used = loadsOf(text).filter((load) => load.rule === 'use');
  const spaces = used.filter((load) => declares(files, fault.path, load.url, it)).map((load) => load.namespace ?? defaultNamespace(load.url));
  const named = spaces.filter((space) => space !== '*').map((space) => `\`${space}.${it}\``);
  if (named.length > 0) return { head: null, sure: true, notes: [{ text: `a module that is loaded has it: write ${either(named)}` }] };
  return { head: null, sure: near.length > 0, notes: near };
}

/**
 * Whether a sheet that a URL means has a variable at its left side.
 * @param {Files} files
 * @param {string} path
 * @param {string} url
 * @param {string} variable with `$`
 * @returns {boolean}
 */
function declares(files, path, url, variable) {
  return files.meant(path, url).some((it) => membersOf(files, it, 0).includes(variable));
}

/**
 * The members that a sheet and its forwards have: variables with `$`.
 * @param {Files} files
 * @param {string} path
 * @param {number} depth how many forwards led here
 * @returns {string[]}
 */
function membersOf(files, path, depth) {
  const text = files.text(path) ?? '';
  const own = Array.from(text.matchAll(/(?:^|[;{}\n])\s*(\$[\w\-\u0080-\u{10ffff}]+)\s*:|@(?:mixin|function)\s+([\w\-]+)|^=([\w\-]+)/gmu), (it) => it[1] ?? it[2] ?? it[3]);
  if (depth === 8) return own;
  const forwards = loadsOf(text).filter((it) => it.rule === 'forward');
  const forwarded = forwards.flatMap((it) => files.meant(path, it.url).flatMap((file) => {
    const members = membersOf(files, file, depth + 1);
    const prefix = it.namespace?.endsWith('*') ? it.namespace.slice(0, -1) : '';
    return members.map((name) => (name.startsWith('$') ? `$${prefix}${name.slice(1)}` : prefix + name));
  }));
  return [...own, ...forwarded].filter((name) => !/^\$?[-_]/.test(name));
}

/**
 * @param {At} at
 * @returns {Notes}
 */
function namespaceNotes(at) {
  const used = loadsOf(at.text).filter((it) => it.rule === 'use');
  const spaces = used.map((it) => it.namespace ?? defaultNamespace(it.url)).filter((it) => it !== '*');
  const near = nearNotes(at, spaces, (it) => `\`${it}\``);
  if (near.length > 0) return { head: null, sure: true, notes: near };
  if (BUILT_IN.includes(`sass:${at.it}`)) return { head: null, sure: true, notes: [{ text: `load the built-in module: \`@use "sass:${at.it}";\`` }] };
  const known = spaces.length === 0 ? 'this sheet loads no module' : `this sheet's namespaces are ${spaces.map((it) => `\`${it}\``).join(', ')}`;
  return { head: null, sure: false, notes: [{ text: known }] };
}

/**
 * @param {At} at
 * @returns {Notes}
 */
function memberNotes(at) {
  const { text, files, fault, it } = at;
  const [space, member] = it.includes('.') ? [it.slice(0, it.indexOf('.')), it.slice(it.indexOf('.') + 1)] : [null, it];
  const used = loadsOf(text).filter((load) => load.rule === 'use');
  const meant = used.filter((load) => (space === null ? load.namespace === '*' : (load.namespace ?? defaultNamespace(load.url)) === space));
  const members = meant.flatMap((load) => files.meant(fault.path, load.url).flatMap((file) => membersOf(files, file, 0)));
  const own = space === null ? Array.from(text.matchAll(/@mixin\s+([\w\-]+)|^=([\w\-]+)/gm), (found) => found[1] ?? found[2]) : [];
  const shown = (/** @type {string} */ name) => `\`${space === null ? name : `${space}.${name}`}\``;
  const near = nearest(member, [...members, ...own]).map(shown);
  if (near.length > 0) return { head: null, sure: true, notes: [{ text: `did you mean ${either(near)}?` }] };
  if (fault.code === 13 && space !== null && meant.length > 0) {
    const where = meant.flatMap((load) => files.meant(fault.path, load.url)).map((file) => files.shown(file));
    if (where.length > 0) return { head: null, sure: false, notes: [{ text: `\`${space}\` is ${either(where)}` }] };
  }
  return NONE;
}

/**
 * @param {At} at
 * @returns {Notes}
 */
function missingNotes({ it, fault, files }) {
  const isUrl = /^(["']).*\1$/s.test(it);
  if (!isUrl) return entryNotes(fault, files);
  const url = decodedString(it);
  if (url.startsWith('sass:')) {
    const near = nearest(url.slice(5), BUILT_IN.map((name) => name.slice(5)));
    const text = near.length > 0 ? `did you mean ${either(near.map((name) => `"sass:${name}"`))}?` : `the built-in modules are ${BUILT_IN.join(', ')}`;
    return { head: `there is no built-in module ${it}`, sure: true, notes: [{ text }] };
  }
  const said = files.missing(fault.path, url);
  return { head: null, sure: said.length > 0, notes: said.map((text) => ({ text })) };
}

/**
 * @param {At} at
 * @returns {Notes}
 */
function severalNotes({ it, fault, files }) {
  const meant = /^(["']).*\1$/s.test(it) ? files.meant(fault.path, decodedString(it)) : [];
  if (meant.length < 2) return NONE;
  return { head: null, sure: false, notes: [{ text: `they are ${meant.map((file) => files.shown(file)).join(' and ')}` }] };
}
