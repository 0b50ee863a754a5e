// Which names the program takes for files: the paths of docs/PROTOCOL.md.

/** The most bytes that a path may have. */
export const MOST_PATH_BYTES = 255;

/** The most bytes of a file. */
export const MOST_FILE_BYTES = 1_048_576;

/** The most files that a session holds. */
export const MOST_FILES = 4096;

/** The most load paths of a compile. */
export const MOST_LOAD_PATHS = 8;

/** The most bytes of a request's line, without its line feed. */
export const MOST_LINE_BYTES = 1024;

/** The extensions of sheets. */
export const EXTENSIONS = ['.scss', '.sass', '.css'];

const SEGMENT = /^[A-Za-z0-9._@-]+$/;

/**
 * Whether a text is a segment of a path: letters, digits, `.`, `_`, `-` and `@`, and neither `.` nor `..`.
 * @param {string} text
 * @returns {boolean}
 */
export function isSegment(text) {
  return SEGMENT.test(text) && text !== '.' && text !== '..';
}

/**
 * Whether a text is a path: 1 to 255 bytes, segments with single `/` between.
 * @param {string} text
 * @returns {boolean}
 */
export function isPath(text) {
  return text.length <= MOST_PATH_BYTES && text.split('/').every(isSegment);
}

/**
 * What keeps a text from being a path, in words that go behind its name.
 * @param {string} text
 * @returns {string | null} null where it is a path
 */
export function whyNoPath(text) {
  if (isPath(text)) return null;
  if (text === '') return 'is empty';
  const odd = [...text].find((it) => !/[A-Za-z0-9._@/-]/.test(it));
  if (odd !== undefined) return `has the character ${JSON.stringify(odd)}, and a path has letters A to Z, digits, ".", "_", "-", "@" and "/"`;
  if (text.length > MOST_PATH_BYTES) return `has ${text.length} bytes, and a path has at most ${MOST_PATH_BYTES}`;
  return 'has a part that is empty, "." or ".."';
}

/**
 * The extension of a sheet.
 * @param {string} name
 * @returns {string} '.scss', '.sass', '.css', or '' where the name has none of these
 */
export function extensionOf(name) {
  return EXTENSIONS.find((it) => name.endsWith(it)) ?? '';
}
