// Where the program `sassw` stands.

import { accessSync, constants, statSync } from 'node:fs';
import path from 'node:path';
import { fileURLToPath } from 'node:url';

/** The program could not be found or started. Its message is a sentence for a person. */
export class ProgramError extends Error {
  /** @param {string} message */
  constructor(message) {
    super(message);
    this.name = 'ProgramError';
  }
}

// Where a build of this repository leaves the program.
const BUILT = fileURLToPath(new URL('../../../crates/sassw/out/sassw', import.meta.url));

/**
 * @param {string} file
 * @returns {boolean}
 */
function isProgram(file) {
  try {
    accessSync(file, constants.X_OK);
    return statSync(file).isFile();
  } catch {
    return false;
  }
}

/**
 * @param {string} file
 * @param {string} said where the path was said
 * @returns {string}
 */
function named(file, said) {
  const found = path.resolve(file);
  if (isProgram(found)) return found;
  throw new ProgramError(`${said} names ${file}, which is no program that can be run`);
}

/**
 * The path of the program: the one that is asked for, else that of the environment's SASSW, else `sassw` on the PATH,
 * else the one that was built in this repository.
 * @param {string} [wanted] a path
 * @returns {string} an absolute path
 * @throws {ProgramError} where there is none, with a sentence that says what to do
 */
export function findProgram(wanted) {
  if (wanted) return named(wanted, 'the option for the program');
  if (process.env.SASSW) return named(process.env.SASSW, 'the variable SASSW');
  const folders = (process.env.PATH ?? '').split(path.delimiter).filter(Boolean);
  const found = [...folders.map((it) => path.resolve(it, 'sassw')), BUILT].find(isProgram);
  if (found) return found;
  throw new ProgramError('the program sassw was not found: put it on the PATH, or name it by the variable SASSW');
}
