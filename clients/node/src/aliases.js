// Names of files that the program doesn't take, and the names that stand for them in a session.

import { extensionOf, isSegment } from './names.js';

const ODD = /[^A-Za-z0-9._@-]/gu;
const DIGITS = 'abcdefghijklmnopqrstuvwxyz0123456789ABCDEFGHIJKLMNOPQRSTUVWXYZ';

/**
 * Gives each segment of a path one that the program takes: itself, or for an odd one another of the same length. The
 * underscore in front and the extension of a sheet stay, so that the program finds by a URL's alias the alias of its file.
 */
export class Aliases {
  /** @type {Map<string, string>} */
  #aliases = new Map();
  /** @type {Set<string>} */
  #taken = new Set();

  /**
   * The alias of a segment; always the same one, and no other segment's.
   * @param {string} segment neither empty nor `.` nor `..`
   * @returns {string}
   */
  of(segment) {
    const extension = extensionOf(segment);
    const front = segment.startsWith('_') ? '_' : '';
    const stem = segment.slice(front.length, Math.max(front.length, segment.length - extension.length));
    return front + this.#ofStem(stem) + extension;
  }

  /**
   * @param {string} stem
   * @returns {string}
   */
  #ofStem(stem) {
    const known = this.#aliases.get(stem);
    if (known !== undefined) return known;
    let alias = stem;
    if (stem !== '' && !isSegment(`a${stem}`)) alias = stem.replace(ODD, '@');
    for (let turn = 0; this.#taken.has(alias); turn += 1) alias = spelled(stem, turn);
    this.#aliases.set(stem, alias);
    this.#taken.add(alias);
    return alias;
  }
}

/**
 * One of many spellings of a stem: the digits of a number in place of its odd characters, and behind them where these
 * are too few.
 * @param {string} stem
 * @param {number} turn
 * @returns {string}
 */
function spelled(stem, turn) {
  let left = turn;
  const digit = () => {
    const it = DIGITS[left % DIGITS.length];
    left = Math.floor(left / DIGITS.length);
    return it;
  };
  let alias = stem.replace(ODD, digit);
  while (left > 0 || alias === stem) alias += `@${digit()}`;
  return alias;
}
