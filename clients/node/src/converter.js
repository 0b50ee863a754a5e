// One conversion by the program: a process `sassw convert FROM TO`.

import { spawn } from 'node:child_process';
import { ProgramError } from './program.js';
import { readWritten } from './reply.js';
import { SessionEnded } from './session.js';

/**
 * @typedef {'scss' | 'sass'} Syntax
 *
 * What a sheet came to: its text in the other syntax, or the fault that keeps it from being written there.
 * @typedef {{ text: Buffer, fault: null } | { text: null, fault: import('./reply.js').Fault }} Outcome
 */

/** Both syntaxes, which are their extensions too. @type {Syntax[]} */
export const SYNTAXES = ['scss', 'sass'];

// The statuses of docs/PROTOCOL.md.
const WRITTEN = 0;
const FAULTY = 1;
const UNKNOWN = 7;

/**
 * Writes a sheet of one syntax in another.
 * @param {string} program its path
 * @param {{ from: Syntax, to: Syntax }} syntaxes
 * @param {Buffer} sheet
 * @returns {Promise<Outcome>} the path of a fault is that of the program: `in.` and the syntax
 * @throws {ProgramError} (as all errors: by the promise) where the program doesn't start, or has no such command
 * @throws {SessionEnded} where it came to nothing, as for want of memory
 */
export async function convertSheet(program, { from, to }, sheet) {
  const { status, out } = await run(program, ['convert', from, to], sheet);
  if (status === WRITTEN) return { text: out, fault: null };
  if (status === UNKNOWN) throw new ProgramError(`the program ${program} has no command "convert": it is older than 4.2.0, or another program`);
  if (status !== FAULTY) throw new SessionEnded(status);
  const fault = faultIn(out);
  if (!fault) throw new ProgramError(`the program ${program} gave no fault of a conversion`);
  return { text: null, fault };
}

/**
 * @param {Buffer} line
 * @returns {import('./reply.js').Fault | null} null where it is no line of a fault
 */
function faultIn(line) {
  try {
    return readWritten(line)?.fault ?? null;
  } catch {
    return null;
  }
}

/**
 * @param {string} program
 * @param {string[]} words
 * @param {Buffer} input
 * @returns {Promise<{ status: number | string, out: Buffer }>}
 */
function run(program, words, input) {
  return new Promise((resolve, reject) => {
    const child = spawn(program, words, { stdio: ['pipe', 'pipe', 'ignore'] });
    /** @type {Buffer[]} */
    const chunks = [];
    child.once('error', (error) => reject(new ProgramError(`the program ${program} does not start: ${error.message}`)));
    child.stdout.on('data', (chunk) => chunks.push(chunk));
    child.once('close', (status, signal) => resolve({ status: status ?? signal ?? 'unknown', out: Buffer.concat(chunks) }));
    // A process that ends breaks the pipe; what comes of that is told by its status.
    child.stdin.on('error', () => {});
    child.stdin.end(input);
  });
}
