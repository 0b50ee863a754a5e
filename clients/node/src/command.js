// What all commands have in common: their words, how they end, and what they write.

import { readFileSync } from 'node:fs';
import { STATUS } from './build.js';
import { countOf, readWords } from './words.js';

/** The options of commands that build. @type {Record<string, import('./words.js').Option>} */
export const BUILD_OPTIONS = {
  '--out': { takes: 'DIR' },
  '-I': { takes: 'DIR', many: true },
  '--jobs': { takes: 'N' },
  '--deps': { takes: 'FILE' },
  '--format': { takes: 'FORMAT', may: ['text', 'json', 'github'] },
  '--program': { takes: 'FILE' },
};

/** What `--help` says of them. */
export const BUILD_HELP = `  SRC            the folder of the sheets
  ENTRY[:OUT]    a sheet in it, and the file for its CSS; without any, all .scss and .sass sheets
                 whose name doesn't begin with _, but for those in node_modules and in folders .*
  --out DIR      the folder for the CSS, in which the folders of SRC are mirrored; else SRC itself
  -I DIR         a folder in which loads are looked for too; up to eight, in their order
  --jobs N       share the sheets out over N processes
  --deps FILE    write make's rules for what was built from what
  --format F     how faults and messages are told: text, json (a line each, UTF-16 columns) or github
  --program FILE the program sassw; else what the variable SASSW names, else that on the PATH`;

/** Whether standard error takes colours. @returns {boolean} */
export function takesColour() {
  if (process.env.NO_COLOR) return false;
  if (process.env.FORCE_COLOR && process.env.FORCE_COLOR !== '0') return true;
  return Boolean(process.stderr.isTTY) && process.env.TERM !== 'dumb';
}

/** The version of the package. @returns {string} */
export function version() {
  const file = new URL('../package.json', import.meta.url);
  return JSON.parse(readFileSync(file, 'utf8')).version;
}

/**
 * The options of a build that words ask for.
 * @param {Record<string, any>} options as they were read
 * @param {string[]} rest
 * @param {string} command
 * @returns {import('./build.js').BuildOptions}
 * @throws {import('./words.js').WordsError} where a count is none
 */
export function buildOptions(options, rest, command) {
  const [root, ...entries] = rest;
  return {
    root, entries, command,
    out: options['--out'],
    loadPaths: options['-I'] ?? [],
    jobs: options['--jobs'] === undefined ? 1 : countOf('--jobs', options['--jobs']),
    deps: options['--deps'],
    format: options['--format'] ?? 'text',
    colour: takesColour(),
    program: options['--program'],
    say: (line) => void process.stdout.write(`${line}\n`),
    tell: (text) => void process.stderr.write(text),
  };
}

/**
 * Runs a command to its end and sets the status of the process: what `run` gives, 7 with a line on standard error for
 * wrong words, 2 with one for what is broken around the command. `--help` and `--version` are answered here.
 * @param {object} command
 * @param {string} command.name
 * @param {string} command.usage what stands behind the name
 * @param {string} command.help
 * @param {Record<string, import('./words.js').Option>} command.options
 * @param {(options: Record<string, any>, rest: string[]) => Promise<number>} command.run
 * @returns {Promise<void>}
 */
export async function runCommand({ name, usage, help, options, run }) {
  // A reader that has gone, as `head` does, wants no more.
  process.stdout.on('error', (error) => process.exit(/** @type {any} */ (error).code === 'EPIPE' ? STATUS.well : STATUS.broken));
  const words = process.argv.slice(2);
  const before = words.slice(0, words.includes('--') ? words.indexOf('--') : words.length);
  if (before.includes('--help') || before.includes('-h')) {
    process.stdout.write(`${name} ${usage}\n\n${help}\n  --help         say this\n  --version      say the version\n`);
    return;
  }
  if (before.includes('--version')) {
    process.stdout.write(`${name} ${version()}\n`);
    return;
  }
  try {
    const read = readWords(words, options);
    process.exitCode = await run(read.options, read.rest);
  } catch (error) {
    const it = /** @type {Error} */ (error);
    const isKnown = ['WordsError', 'SurroundingsError', 'ProgramError', 'RequestError', 'SessionEnded'].includes(it.name);
    process.stderr.write(`${name}: ${isKnown ? it.message : it.stack}\n`);
    process.exitCode = it.name === 'WordsError' ? STATUS.words : STATUS.broken;
  }
}
