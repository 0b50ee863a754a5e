// The loads that a sheet asks for: its `@use` and `@forward`, found in its text.

/**
 * A load as it is written. Offsets count UTF-16 units of the text; `from` is the opening quote, `to` is behind the
 * closing one.
 * @typedef {object} Load
 * @property {'use' | 'forward'} rule
 * @property {string} url with its escapes decoded
 * @property {number} from
 * @property {number} to
 * @property {string | null} namespace what stands behind `as`, or null
 */

// What has to be passed over so that a rule in a comment or a string isn't taken for one, and the rules themselves.
const PIECES = new RegExp(
  [
    String.raw`/\*[^]*?(?:\*/|$)`,
    String.raw`//[^\n\r\f]*`,
    String.raw`url\([ \t]*[^"'\s)][^)\n]*\)`,
    String.raw`"(?:\\[^]|[^"\\\n\r\f])*"?`,
    String.raw`'(?:\\[^]|[^'\\\n\r\f])*'?`,
    String.raw`@(?<rule>use|forward)(?![\w\-\\]|[^\x00-\x7f])`,
  ].join('|'),
  'gu',
);
const BLANK = String.raw`(?:\s|/\*[^]*?\*/|//[^\n\r\f]*)*`;
const STRING = new RegExp(`${BLANK}(?<string>"(?:\\\\[^]|[^"\\\\\\n\\r\\f])*"|'(?:\\\\[^]|[^'\\\\\\n\\r\\f])*')`, 'yu');
const NAMESPACE = new RegExp(`${BLANK}as\\s+(?<name>\\*|[\\w\\-*]+|[^\\s;()]+)`, 'yu');

/**
 * What a string stands for, by the rules of docs/LANGUAGE.md.
 * @param {string} quoted with its quotes
 * @returns {string}
 */
export function decodedString(quoted) {
  const escapes = /\\(?:(?<hex>[0-9a-fA-F]{1,6})(?:\r\n|\s)?|(?<end>\r\n|[\n\r\f])|(?<self>[^]))/gu;
  return quoted.slice(1, -1).replace(escapes, (...all) => {
    const { hex, self } = all.at(-1);
    if (hex === undefined) return self ?? '';
    const code = Number.parseInt(hex, 16);
    const isNone = code === 0 || code > 0x10ffff || (code >= 0xd800 && code <= 0xdfff);
    return isNone ? '\ufffd' : String.fromCodePoint(code);
  });
}

/**
 * The loads of a text of SCSS or of a sheet in lines, in order. A rule in a comment or a string is none.
 * @param {string} text
 * @returns {Load[]}
 */
export function loadsOf(text) {
  /** @type {Load[]} */
  const loads = [];
  PIECES.lastIndex = 0;
  for (let piece = PIECES.exec(text); piece; piece = PIECES.exec(text)) {
    const rule = piece.groups?.rule;
    if (rule) {
      const load = loadAt(text, PIECES.lastIndex, /** @type {'use' | 'forward'} */ (rule));
      if (load) {
        loads.push(load);
        PIECES.lastIndex = load.to;
      }
    }
  }
  return loads;
}

/**
 * The load whose string begins at a place, or behind blanks there.
 * @param {string} text
 * @param {number} at
 * @param {'use' | 'forward'} rule
 * @returns {Load | null} null where no whole string stands there
 */
export function loadAt(text, at, rule) {
  STRING.lastIndex = at;
  const string = STRING.exec(text)?.groups?.string;
  if (string === undefined) return null;
  const to = STRING.lastIndex;
  NAMESPACE.lastIndex = to;
  const namespace = NAMESPACE.exec(text)?.groups?.name ?? null;
  return { rule, url: decodedString(string), from: to - string.length, to, namespace };
}

/**
 * The namespace that a `@use` has without `as`: the last part of its URL up to the first `.`, without one leading `_`.
 * @param {string} url
 * @returns {string} it need not be a name
 */
export function defaultNamespace(url) {
  const last = url.slice(url.startsWith('sass:') ? 5 : url.lastIndexOf('/') + 1);
  return last.split('.')[0].replace(/^_/, '');
}

const NAME = /^(?:--[\w\-\u0080-\u{10ffff}]*|-?[A-Za-z_\u0080-\u{10ffff}][\w\-\u0080-\u{10ffff}]*)$/u;

/**
 * Whether a text is a name without escapes.
 * @param {string} text
 * @returns {boolean}
 */
export function isName(text) {
  return NAME.test(text);
}
