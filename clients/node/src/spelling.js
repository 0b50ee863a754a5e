// A sheet as the session gets it, and where its places stand in the file.

import { defaultNamespace, isName } from './loads.js';
import { lineStarts, placeAt } from './text.js';

/**
 * @typedef {import('./reply.js').Place} Place
 * @typedef {import('./reply.js').Span} Span
 *
 * What stands in place of another text of one line: both begin at `column`.
 * @typedef {{ line: number, column: number, was: number, is: number }} Change
 *
 * @typedef {object} Spelling
 * @property {Buffer} bytes what is put
 * @property {string} key another one for each other content
 * @property {(span: Span) => Span} back where a span of what was put stands in the file
 */

/**
 * A sheet with other URLs in some of its loads. Where a URL was a namespace's name, that is written out behind it.
 * @param {import('./disk.js').Sheet} sheet
 * @param {Array<{ load: import('./loads.js').Load, url: string }>} changes in order
 * @returns {Spelling}
 */
export function spell(sheet, changes) {
  const key = String(sheet.version);
  if (changes.length === 0) return { bytes: sheet.bytes, key, back: (span) => span };
  const starts = lineStarts(sheet.text);
  /** @type {Change[]} */
  const made = [];
  let [text, at] = ['', 0];
  for (const { load, url } of changes) {
    const was = sheet.text.slice(load.from, load.to);
    // One that goes over lines stays, and means no file.
    if (/[\n\r\f]/.test(was)) continue;
    const is = `${was[0]}${url}${was[0]}${namespaceOf(load, url)}`;
    text += sheet.text.slice(at, load.from) + is;
    at = load.to;
    made.push({ ...placeAt(sheet.text, starts, load.from), was: [...was].length, is: [...is].length });
  }
  text += sheet.text.slice(at);
  const back = (/** @type {Span} */ span) => ({ from: placeBack(span.from, made, 'from'), to: placeBack(span.to, made, 'to') });
  return { bytes: Buffer.from(text, 'utf8'), key: `${key} ${changes.map((it) => it.load.from)}`, back };
}

/**
 * @param {import('./loads.js').Load} load
 * @param {string} url
 * @returns {string}
 */
function namespaceOf(load, url) {
  if (load.rule !== 'use' || load.namespace !== null) return '';
  const name = defaultNamespace(load.url);
  return isName(name) && name !== defaultNamespace(url) ? ` as ${name}` : '';
}

/**
 * @param {Place} place
 * @param {Change[]} changes
 * @param {'from' | 'to'} end
 * @returns {Place}
 */
function placeBack({ line, column }, changes, end) {
  let shift = 0;
  for (const it of changes.filter((change) => change.line === line)) {
    const first = it.column - shift;
    if (column <= first) break;
    // Inside: the whole of it is meant, and nothing of it is a place of the file.
    if (column < first + it.is) return { line, column: end === 'from' ? it.column : it.column + it.was };
    shift += it.was - it.is;
  }
  return { line, column: column + shift };
}
