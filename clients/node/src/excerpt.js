// Lines of a sheet with a place in them underlined, as they stand on a terminal.

/** @typedef {import('./reply.js').Span} Span */
/** @typedef {import('./reply.js').Place} Place */

// Of a place that goes over more lines, only the first ones are shown, and the last.
const MOST_LINES = 4;

/**
 * A path with a place, in the form that terminals and editors can follow.
 * @param {string} path
 * @param {Place} place
 * @returns {string}
 */
export function headOf(path, place) {
  return `${path}:${place.line}:${place.column}`;
}

/**
 * A text without colours.
 * @param {string} text
 * @returns {string}
 */
export function plainText(text) {
  return text;
}

/**
 * The lines of a span, each with its number and with what belongs to the span underlined.
 * @param {string[]} lines all lines of the text
 * @param {Span} span
 * @param {((text: string, tone: string) => string) | null} paint gives a text its colour; null leaves it
 * @param {string} [tone] of what underlines
 * @returns {string} lines with line feeds between them
 */
export function excerptOf(lines, span, paint, tone = 'red') {
  const give = paint ?? plainText;
  const { from, to } = span;
  const last = Math.min(lines.length, to.column === 1 && to.line > from.line ? to.line - 1 : to.line);
  const wide = String(Math.max(last, from.line)).length;
  const bar = (/** @type {string} */ number) => give(`${number.padStart(wide)} |`, 'blue');
  const rows = [bar('')];
  // A line without text shows nothing, so the one before it is shown too.
  const isBlank = (lines[from.line - 1] ?? '').trim() === '';
  if (isBlank && from.line > 1) rows.push(`${bar(String(from.line - 1))} ${shown(lines[from.line - 2])}`.trimEnd());
  for (let line = from.line; line <= Math.max(last, from.line); line += 1) {
    const isLeftOut = last - from.line >= MOST_LINES && line >= from.line + MOST_LINES - 2 && line < last;
    if (isLeftOut) {
      if (line === from.line + MOST_LINES - 2) rows.push(`${' '.repeat(wide)} …`);
      continue;
    }
    const text = lines[line - 1] ?? '';
    const begin = line === from.line ? from.column - 1 : leading(text);
    const end = line === to.line ? to.column - 1 : [...text.trimEnd()].length;
    rows.push(`${bar(String(line))} ${shown(text)}`.trimEnd(), `${bar('')} ${underline(text, begin, end, (it) => give(it, tone))}`);
  }
  return rows.join('\n');
}

/**
 * @param {string} text
 * @returns {number}
 */
function leading(text) {
  return text.length - text.trimStart().length;
}

/**
 * A line in which each character has its width: others than a tab that move the cursor, or are no characters, are `?`.
 * @param {string} text
 * @returns {string}
 */
function shown(text) {
  return text.replace(/[\u0000-\u0008\u000b-\u001f\u007f-\u009f\u2028\u2029\u202a-\u202e\u2066-\u2069]/g, '?');
}

/**
 * @param {string} text
 * @param {number} begin
 * @param {number} end
 * @param {(text: string) => string} paint
 * @returns {string}
 */
function underline(text, begin, end, paint) {
  const all = [...text];
  const before = all.slice(0, begin).map((it) => (it === '\t' ? '\t' : ' '.repeat(widthOf(it)))).join('');
  const missing = ' '.repeat(Math.max(0, begin - all.length));
  const under = all.slice(begin, end).reduce((sum, it) => sum + (it === '\t' ? 1 : widthOf(it)), 0);
  return `${before}${missing}${paint('^'.repeat(Math.max(1, under)))}`;
}

const NARROW = /^[\u0020-\u02ff]$/;
const WIDE = /^[\u1100-\u115f\u2e80-\u303e\u3041-\u33ff\u3400-\u4dbf\u4e00-\u9fff\ua000-\ua4cf\uac00-\ud7a3\uf900-\ufaff\ufe30-\ufe6f\uff00-\uff60\uffe0-\uffe6\u{1f300}-\u{1f64f}\u{1f680}-\u{1f6ff}\u{1f900}-\u{1faff}\u{20000}-\u{3fffd}]$/u;

/**
 * How many columns of a terminal a character takes.
 * @param {string} character
 * @returns {number}
 */
function widthOf(character) {
  if (NARROW.test(character)) return 1;
  if (/^[\p{Mn}\p{Me}\u200b-\u200f\ufe00-\ufe0f]$/u.test(character)) return 0;
  return WIDE.test(character) ? 2 : 1;
}
