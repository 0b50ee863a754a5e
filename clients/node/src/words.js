// The words of the commands.

import { nearest } from './nearby.js';

/** Words that are no command's. Its message names the word and says what to write. */
export class WordsError extends Error {
  /** @param {string} message */
  constructor(message) {
    super(message);
    this.name = 'WordsError';
  }
}

/**
 * An option: what it takes, if anything, and whether it may stand several times.
 * @typedef {{ takes?: string, many?: boolean, may?: string[] }} Option
 *
 * What words say: of each option that stands there its value, its values, or true.
 * @typedef {{ options: Record<string, any>, rest: string[] }} Words
 */

/**
 * Reads words. A value stands behind its option, or behind `=`; behind `--` no word is an option.
 * @param {string[]} words
 * @param {Record<string, Option>} known by their names with dashes
 * @returns {Words}
 * @throws {WordsError} where a word is no option, or lacks its value
 */
export function readWords(words, known) {
  /** @type {Words} */
  const read = { options: {}, rest: [] };
  for (let at = 0; at < words.length; at += 1) {
    const word = words[at];
    if (word === '--') {
      read.rest.push(...words.slice(at + 1));
      break;
    }
    if (!word.startsWith('-') || word === '-') {
      read.rest.push(word);
      continue;
    }
    const { name, value } = cut(word, known);
    const option = known[name];
    if (!option) throw new WordsError(`${word}: there is no such option${hint(name, known)}`);
    if (!option.takes && value !== null) throw new WordsError(`${word}: write ${name}, which takes no value`);
    const given = option.takes ? value ?? words[(at += 1)] : true;
    if (given === undefined || given === '') throw new WordsError(`${name}: write ${name} ${option.takes}`);
    if (option.may && !option.may.includes(given)) throw new WordsError(`${name} ${given}: write ${option.may.map((it) => `${name} ${it}`).join(' or ')}`);
    if (!option.many && name in read.options) throw new WordsError(`${name}: write it once`);
    if (option.many) (read.options[name] ??= []).push(given);
    else read.options[name] = given;
  }
  return read;
}

/**
 * @param {string} word
 * @param {Record<string, Option>} known
 * @returns {{ name: string, value: string | null }}
 */
function cut(word, known) {
  const equals = word.indexOf('=');
  if (word.startsWith('--')) return equals < 0 ? { name: word, value: null } : { name: word.slice(0, equals), value: word.slice(equals + 1) };
  const short = word.slice(0, 2);
  return word.length > 2 && known[short]?.takes ? { name: short, value: word.slice(2) } : { name: word, value: null };
}

/**
 * @param {string} name
 * @param {Record<string, Option>} known
 * @returns {string}
 */
function hint(name, known) {
  const [near] = nearest(name, Object.keys(known));
  return near ? `; did you mean ${near}?` : '; --help lists them';
}

/**
 * A whole number from 1 on.
 * @param {string} name of the option
 * @param {string} text
 * @returns {number}
 * @throws {WordsError} where it is none
 */
export function countOf(name, text) {
  if (!/^[1-9][0-9]{0,3}$/.test(text)) throw new WordsError(`${name} ${text}: write a number from 1 to 9999`);
  return Number(text);
}
