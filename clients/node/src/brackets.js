// What is open at a place of a text: brackets, `#{`, strings and comments; and the comments of a text.

/**
 * Something that was opened. Offsets count UTF-16 units.
 * @typedef {{ sign: string, at: number }} Open
 *
 * Where something stands: from its first character to behind its last one.
 * @typedef {{ from: number, to: number }} Extent
 *
 * A pair of braces whose lines aren't indented alike, so that they may not belong together.
 * @typedef {{ open: number, close: number }} Uneven
 *
 * @typedef {object} Brackets
 * @property {Open[]} open what is open at the end, the outermost first
 * @property {Uneven | null} uneven the first such pair
 * @property {Extent[]} comments in their order, silent and loud ones
 */

const CLOSES = /** @type {Record<string, string>} */ ({ '}': '{', ')': '(', ']': '[' });
const SIGNS = /\/\*[^]*?(?:\*\/|$)|\/\/[^\n\r\f]*|url\([ \t]*(?:[^"'\s)#]|#\{[^}]*\})(?:[^)\n#]|#(?!\{)|#\{[^}]*\})*\)|\\[^]|#\{|["'{}()[\]]/gu;

/**
 * What is open at the end of a text.
 * @param {string} text a sheet, or the start of one
 * @returns {Brackets}
 */
export function bracketsOf(text) {
  /** @type {Brackets} */
  const found = { open: [], uneven: null, comments: [] };
  SIGNS.lastIndex = 0;
  for (let it = SIGNS.exec(text); it; it = SIGNS.exec(text)) {
    const [sign] = it;
    if (sign === '"' || sign === "'") SIGNS.lastIndex = throughString(text, it.index, found);
    else if (/^\/[/*]/.test(sign)) noteComment(sign, it.index, found);
    else if (sign === '#{' || Object.values(CLOSES).includes(sign)) found.open.push({ sign, at: it.index });
    else if (sign in CLOSES) close(text, it.index, found);
    const inner = found.open.at(-1);
    // The `}` that ended a value in a string: the string goes on.
    if (sign === '}' && inner && isQuote(inner.sign)) {
      found.open.pop();
      SIGNS.lastIndex = throughString(text, inner.at, found, it.index + 1);
    }
  }
  return found;
}

/**
 * @param {string} sign
 * @returns {boolean}
 */
function isQuote(sign) {
  return sign === '"' || sign === "'";
}

/**
 * Goes to the end of a string, or to a `#{` in it; what isn't closed is noted as open.
 * @param {string} text
 * @param {number} at its quote
 * @param {Brackets} found
 * @param {number} [from] where to go on
 * @returns {number} where to look next
 */
function throughString(text, at, found, from = at + 1) {
  const quote = text[at];
  for (let here = from; here < text.length; here += 1) {
    const sign = text[here];
    if (sign === quote) return here + 1;
    if (/[\n\r\f]/.test(sign)) return here;
    if (sign === '\\') here += 1;
    else if (text.startsWith('#{', here)) {
      found.open.push({ sign: quote, at }, { sign: '#{', at: here });
      return here + 2;
    }
  }
  found.open.push({ sign: quote, at });
  return text.length;
}

/**
 * @param {string} comment
 * @param {number} at
 * @param {Brackets} found
 */
function noteComment(comment, at, found) {
  found.comments.push({ from: at, to: at + comment.length });
  const isClosed = comment.startsWith('//') || (comment.length >= 4 && comment.endsWith('*/'));
  if (!isClosed) found.open.push({ sign: '/*', at });
}

/**
 * @param {string} text
 * @param {number} at
 * @param {Brackets} found
 */
function close(text, at, found) {
  const opens = CLOSES[text[at]];
  const inner = found.open.at(-1);
  const fits = inner && (inner.sign === opens || (opens === '{' && inner.sign === '#{'));
  if (!inner || !fits) return;
  found.open.pop();
  if (inner.sign !== '{' || found.uneven) return;
  const before = lineBefore(text, at);
  const isFirst = /^[ \t]*$/.test(before);
  if (isFirst && before !== indentation(text, inner.at)) found.uneven = { open: inner.at, close: at };
}

/**
 * @param {string} text
 * @param {number} at
 * @returns {string}
 */
function lineBefore(text, at) {
  return text.slice(text.lastIndexOf('\n', at - 1) + 1, at);
}

/**
 * @param {string} text
 * @param {number} at
 * @returns {string}
 */
function indentation(text, at) {
  return /^[ \t]*/.exec(lineBefore(text, at))?.[0] ?? '';
}
