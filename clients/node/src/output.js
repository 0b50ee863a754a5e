// What the commands write: files, put in place at once, and lines about them.

import { chmodSync, mkdirSync, readFileSync, realpathSync, renameSync, rmSync, statSync, writeFileSync } from 'node:fs';
import path from 'node:path';

const BESIDE = /^\..+\.[0-9]+-[0-9]+\.sassw$/;
let written = 0;

/**
 * Whether a file's name is one under which another was about to be written.
 * @param {string} file
 * @returns {boolean}
 */
export function isBeside(file) {
  return BESIDE.test(path.basename(file));
}

/**
 * Writes a file beside its place and renames it, so that nobody reads a part of it. A link at its place stays one, and
 * folders that are missing are made.
 * @param {string} file
 * @param {Buffer | string} content
 * @throws {Error} where the disk refuses; then the file is as before
 */
export function writeWhole(file, content) {
  mkdirSync(path.dirname(file), { recursive: true });
  const place = realPlace(file);
  written += 1;
  const beside = path.join(path.dirname(place), `.${path.basename(place)}.${process.pid}-${written}.sassw`);
  try {
    writeFileSync(beside, content);
    keepMode(place, beside);
    renameSync(beside, place);
  } catch (error) {
    rmSync(beside, { force: true });
    throw error;
  }
}

/**
 * @param {string} place
 * @param {string} beside
 */
function keepMode(place, beside) {
  try {
    chmodSync(beside, statSync(place).mode & 0o777);
  } catch {
    // There is none before, so it gets the mode of new files.
  }
}

/**
 * @param {string} file
 * @returns {string}
 */
function realPlace(file) {
  try {
    return realpathSync(file);
  } catch {
    return file;
  }
}

/**
 * Whether a file has just this content.
 * @param {string} file
 * @param {Buffer} content
 * @returns {boolean}
 */
export function has(file, content) {
  try {
    return statSync(file).size === content.length && readFileSync(file).equals(content);
  } catch {
    return false;
  }
}

/**
 * A count of bytes as a person reads it, by thousands.
 * @param {number} bytes
 * @returns {string} as `812 B`, `1.5 kB`, `622 kB` or `2.1 MB`
 */
export function sizeOf(bytes) {
  if (bytes < 1000) return `${bytes} B`;
  const isLarge = bytes >= 999_500;
  const count = bytes / (isLarge ? 1_000_000 : 1000);
  return `${count < 9.95 ? count.toFixed(1) : Math.round(count)} ${isLarge ? 'MB' : 'kB'}`;
}

/**
 * A count with its word.
 * @param {number} count
 * @param {string} word
 * @returns {string} as `1 module` or `2 modules`
 */
export function counted(count, word) {
  return `${count} ${word}${count === 1 ? '' : 's'}`;
}

/**
 * Milliseconds as a person reads them.
 * @param {number} milliseconds
 * @returns {string} as `18 ms` or `1.3 s`
 */
export function timeOf(milliseconds) {
  return milliseconds < 1000 ? `${Math.round(milliseconds)} ms` : `${(milliseconds / 1000).toFixed(1)} s`;
}
