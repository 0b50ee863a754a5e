// A reply, explained: for terminals, for editors, and for the logs of GitHub.

import { faultOf } from './faults.js';
import { notesOf } from './notes.js';
import { excerptOf, headOf, plainText } from './excerpt.js';
import { lineStarts, linesOf, offsetOf, unitsBefore } from './text.js';

/**
 * @typedef {import('./reply.js').Reply} Reply
 * @typedef {import('./reply.js').Place} Place
 * @typedef {import('./reply.js').Span} Span
 *
 * What an explanation asks about the files of a reply.
 * @typedef {object} Files
 * @property {(path: string) => string | null} text of a file, null where there is none
 * @property {(path: string) => string} shown a path as a person reads it
 * @property {(path: string, url: string | null) => string[]} missing why a URL in a file means no file, in sentences, the
 *   surest first; null asks for the file itself as the entry
 * @property {(path: string) => Step[]} chain the loads that led to a file, the entry's first; none for the entry
 * @property {(path: string, url: string) => string[]} meant the files that a URL in a file means
 *
 * A load that led on.
 * @typedef {{ path: string, span: Span, url: string }} Step
 *
 * What a note says; with a path and a span it has a place of its own.
 * @typedef {{ text: string, path?: string, span?: Span }} Note
 *
 * A fault or a message, as data. `path` is as a person reads it, `file` as in the reply. `span` counts characters;
 * `from` and `to` are the same places in UTF-16 units, as editors count. All count from 1.
 * @typedef {object} Problem
 * @property {'fault' | 'warning' | 'debug' | 'note'} kind
 * @property {number | null} code of the fault; null for what is said without one, and where memory was missing
 * @property {string} path
 * @property {string} file
 * @property {Span} span
 * @property {Place} from
 * @property {Place} to
 * @property {string} message one sentence, or what the sheet says
 * @property {string} frame the lines of the sheet, with the place underlined; '' for messages
 * @property {Note[]} notes
 */

const LONGEST = 48;

/**
 * Explains a reply.
 * @param {Reply} reply
 * @param {Files | Map<string, string | Buffer>} files those of the reply, by their paths in it
 * @param {{ format?: 'text' | 'json' | 'github', colour?: boolean }} [options] `text` without it. `json` is a line of
 *   JSON for each problem, `github` a workflow command for each
 * @returns {string} lines with a line feed each, or '' where there is nothing to explain
 */
export function explain(reply, files, options = {}) {
  return tellingOf(problemsOf(reply, files), files, options);
}

/**
 * What is told of problems.
 * @param {Problem[]} problems
 * @param {Files | Map<string, string | Buffer>} files those in which they stand
 * @param {{ format?: 'text' | 'json' | 'github', colour?: boolean }} [options] as for `explain`
 * @returns {string} lines with a line feed each
 */
export function tellingOf(problems, files, { format = 'text', colour = false } = {}) {
  const given = filesOf(files);
  const form = { text: textForm, json: jsonForm, github: githubForm }[format];
  return problems.map((it) => form(it, given, colour)).join('');
}

/**
 * What is said of a place without a code.
 * @param {Files | Map<string, string | Buffer>} files
 * @param {{ path: string, span: Span }} at
 * @param {'fault' | 'note'} kind
 * @param {string} message one sentence
 * @returns {Problem}
 */
export function saidAt(files, at, kind, message) {
  return problemAt(filesOf(files), at, { kind, code: null, message, frame: '', notes: [] });
}

/**
 * The messages and the fault of a reply, explained as data.
 * @param {Reply} reply
 * @param {Files | Map<string, string | Buffer>} files
 * @returns {Problem[]} the messages in their order, then the fault
 */
export function problemsOf(reply, files) {
  const given = filesOf(files);
  const said = reply.messages.filter((it) => it.kind !== 'fatal');
  const problems = said.map((it) => {
    const kind = it.kind === 'debug' ? 'debug' : 'warning';
    return problemAt(given, it, { kind, code: null, message: it.text, frame: '', notes: [] });
  });
  if (reply.fault) problems.push(faultProblem(reply, given));
  if (reply.memory) problems.push(memoryProblem());
  return problems;
}

/** @returns {Problem} */
function memoryProblem() {
  const place = { line: 1, column: 1 };
  const message = 'there was not enough memory to compile';
  return { kind: 'fault', code: null, path: '', file: '', span: { from: place, to: place }, from: place, to: place, message, frame: '', notes: [] };
}

/**
 * @param {Reply} reply
 * @param {Files} files
 * @returns {Problem}
 */
function faultProblem(reply, files) {
  const fault = /** @type {import('./reply.js').Fault} */ (reply.fault);
  const row = faultOf(fault.code);
  const text = files.text(fault.path);
  const fatal = reply.messages.filter((it) => it.kind === 'fatal').at(-1);
  const notes = notesOf(fault, files);
  // Of an entry that means no file no place is wrong.
  const { from, to } = fault.span;
  const isEntry = fault.code === 19 && from.line === to.line && from.column === to.column;
  const frame = text === null || isEntry ? '' : excerptOf(linesOf(text), fault.span, null);
  const own = fault.code === 25 && fatal ? fatal.text : null;
  const message = own ?? notes.head ?? (row ? row.says.replace('{it}', () => quoted(text, fault.span)) : `fault ${fault.code}`);
  const help = row && !notes.sure ? [{ text: row.help }] : [];
  const chain = files.chain(fault.path).reverse().map((it) => ({
    text: `loaded by ${headOf(files.shown(it.path), it.span.from)} as "${it.url}"`,
  }));
  return problemAt(files, fault, { kind: 'fault', code: fault.code, message, frame, notes: [...notes.notes, ...help, ...chain] });
}

/**
 * @param {Files} files
 * @param {{ path: string, span: Span }} at
 * @param {{ kind: Problem['kind'], code: number | null, message: string, frame: string, notes: Note[] }} rest
 * @returns {Problem}
 */
function problemAt(files, { path, span }, rest) {
  const lines = linesOf(files.text(path) ?? '');
  const unit = (/** @type {Place} */ it) => ({ line: it.line, column: unitsBefore(lines[it.line - 1] ?? '', it.column) + 1 });
  return { ...rest, path: files.shown(path), file: path, span, from: unit(span.from), to: unit(span.to) };
}

/**
 * What stands at a span, in one line and not too long.
 * @param {string | null} text
 * @param {Span} span
 * @returns {string}
 */
export function quoted(text, span) {
  if (text === null) return 'this';
  const starts = lineStarts(text);
  const whole = text.slice(offsetOf(text, starts, span.from), offsetOf(text, starts, span.to)).trim();
  if (whole === '') return 'what stands here';
  const line = whole.replace(/\s+/g, ' ');
  const short = [...line].length > LONGEST ? `${[...line].slice(0, LONGEST - 1).join('')}…` : line;
  return /^["']/.test(short) ? short : `\`${short}\``;
}

/**
 * @param {Files | Map<string, string | Buffer>} files
 * @returns {Files}
 */
function filesOf(files) {
  if (!(files instanceof Map)) return files;
  return {
    text: (path) => files.get(path)?.toString().replace(/^\ufeff/, '') ?? null,
    shown: (path) => path,
    missing: () => [],
    chain: () => [],
    meant: () => [],
  };
}

/**
 * @param {Problem} problem
 * @param {Files} files
 * @param {boolean} colour
 * @returns {string}
 */
function textForm(problem, files, colour) {
  const paint = colour ? painted : plainText;
  const { kind, code, path, span, message } = problem;
  const tone = { fault: 'red', warning: 'yellow', debug: 'cyan', note: 'cyan' }[kind];
  const word = { fault: '', warning: 'warning: ', debug: 'debug: ', note: 'note: ' }[kind];
  const place = path ? `${paint(headOf(path, span.from), 'bold')}: ` : '';
  const number = code === null ? '' : ` (fault ${code})`;
  const lines = [`${place}${paint(word + message, tone)}${number}`];
  const text = problem.frame ? files.text(problem.file) : null;
  if (text !== null) lines.push(excerptOf(linesOf(text), span, colour ? paint : null, tone));
  for (const it of problem.notes) lines.push(noteForm(it, files, colour ? paint : null));
  return `${lines.join('\n')}\n${kind === 'fault' ? '\n' : ''}`;
}

/**
 * @param {Note} note
 * @param {Files} files
 * @param {((text: string, tone: string) => string) | null} paint
 * @returns {string}
 */
function noteForm(note, files, paint) {
  const sign = paint ? paint('=', 'blue') : '=';
  const line = `  ${sign} ${note.text}`;
  const text = note.path === undefined ? null : files.text(note.path);
  if (!note.span || text === null) return line;
  return `${line}\n${excerptOf(linesOf(text), note.span, paint, 'blue')}`;
}

const TONES = /** @type {Record<string, string>} */ ({ bold: '1', red: '1;31', yellow: '1;33', cyan: '36', blue: '1;34' });

/**
 * @param {string} text
 * @param {string} tone
 * @returns {string}
 */
function painted(text, tone) {
  return `\u001b[${TONES[tone]}m${text}\u001b[0m`;
}

/**
 * @param {Problem} problem
 * @param {Files} files
 * @returns {string}
 */
function jsonForm(problem, files) {
  const { kind, code, path, from, to, message, notes } = problem;
  const told = notes.map((it) => {
    if (!it.span || it.path === undefined) return { text: it.text };
    const lines = linesOf(files.text(it.path) ?? '');
    const unit = (/** @type {Place} */ at) => ({ line: at.line, column: unitsBefore(lines[at.line - 1] ?? '', at.column) + 1 });
    return { text: it.text, path: files.shown(it.path), from: unit(it.span.from), to: unit(it.span.to) };
  });
  return `${JSON.stringify({ kind, code, path, from, to, message, notes: told })}\n`;
}

/**
 * @param {Problem} problem
 * @returns {string}
 */
function githubForm({ kind, code, path, from, to, message, notes }) {
  const data = (/** @type {string} */ it) => it.replace(/%/g, '%25').replace(/\r/g, '%0D').replace(/\n/g, '%0A');
  const property = (/** @type {string} */ it) => data(it).replace(/:/g, '%3A').replace(/,/g, '%2C');
  const word = { fault: 'error', warning: 'warning', debug: 'notice', note: 'notice' }[kind];
  const title = code === null ? 'sassw' : `sassw fault ${code}`;
  const place = path ? `file=${property(path)},line=${from.line},col=${from.column},endLine=${to.line},endColumn=${to.column},` : '';
  return `::${word} ${place}title=${property(title)}::${data([message, ...notes.map((it) => it.text)].join('\n'))}\n`;
}
