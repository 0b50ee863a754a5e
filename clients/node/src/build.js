// Builds the sheets of a folder once.

import path from 'node:path';
import { Compiler } from './compiler.js';
import { makeRules } from './dependencies.js';
import { counted, sizeOf, timeOf, writeWhole } from './output.js';
import { SurroundingsError, checkRoot, tasksOf } from './plan.js';
import { shareOut } from './share.js';
import { WordsError } from './words.js';

/**
 * @typedef {import('./plan.js').Task} Task
 * @typedef {import('./compiler.js').Compiled} Compiled
 *
 * @typedef {object} BuildOptions
 * @property {string} root the folder of the sheets
 * @property {string[]} [entries] words ENTRY or ENTRY:OUT; all sheets that don't begin with `_` where there are none
 * @property {string} [out] the folder for the CSS; `root` without it
 * @property {string[]} [loadPaths] up to eight folders
 * @property {number} [jobs] how many processes of the program are started at most; 1 without it
 * @property {string} [deps] a file that gets the rules of make
 * @property {'text' | 'json' | 'github'} [format] of explanations
 * @property {boolean} [colour] whether explanations have colours
 * @property {string} [program] the path of the program
 * @property {string} [command] the name of the command, for what a person could write
 * @property {(line: string) => void} [say] gets each line about what was built, without its line feed
 * @property {(text: string) => void} [tell] gets each explanation
 *
 * What became of one sheet; `error` is there where it could be neither compiled nor found faulty, or not written.
 * @typedef {{ task: Task, compiled: Compiled | null, error: Error | null }} Built
 */

/** The statuses of the commands. */
export const STATUS = Object.freeze({ well: 0, fault: 1, broken: 2, words: 7 });

const nothing = () => {};

/**
 * Builds sheets once. A sheet with a fault keeps the CSS that it has, and the next one is built all the same.
 * @param {BuildOptions} options
 * @returns {Promise<{ status: number, built: Built[] }>} 0 where all were built, 1 where some sheet had a fault, 2 where
 *   something around them was broken
 * @throws {WordsError} (as all errors: by the promise) where the options name no sheets
 * @throws {SurroundingsError} where there is no such folder
 * @throws {import('./program.js').ProgramError} where the program isn't found
 */
export async function build(options) {
  const { root, entries = [], out, loadPaths = [], command = 'sassw-build' } = options;
  checkRoot(root, command);
  checkLoadPaths(loadPaths);
  const tasks = tasksOf({ root, entries, out });
  if (tasks.length === 0) throw new WordsError(`${root}: it has no sheet whose name doesn't begin with "_", so write which one to build`);
  const compilers = share(tasks, options);
  try {
    const lots = await Promise.all(compilers.map((it) => buildLot(it, options)));
    const built = lots.flat().sort((a, b) => tasks.indexOf(a.task) - tasks.indexOf(b.task));
    if (options.deps) writeDependencies(options.deps, built);
    return { status: statusOf(built), built };
  } finally {
    await Promise.all(compilers.map((it) => it.compiler.close()));
  }
}

/**
 * Checks that load paths are folders.
 * @param {string[]} loadPaths
 * @throws {WordsError} where there are more than eight
 * @throws {SurroundingsError} where one isn't there
 */
export function checkLoadPaths(loadPaths) {
  if (loadPaths.length > 8) throw new WordsError(`-I stands ${loadPaths.length} times, and at most 8 load paths are taken`);
  for (const it of loadPaths) checkRoot(it, '-I');
}

/**
 * @param {Task[]} tasks
 * @param {BuildOptions} options
 * @returns {Array<{ compiler: Compiler, tasks: Task[] }>}
 */
function share(tasks, { root, loadPaths, program, format, colour, jobs = 1 }) {
  const compiler = () => new Compiler({ root, loadPaths, program, format, colour, told: true });
  const first = compiler();
  if (jobs === 1 || tasks.length === 1) return [{ compiler: first, tasks }];
  const lots = shareOut(tasks, jobs, (it) => first.graph(it.entry).sheets);
  return lots.map((lot, at) => ({ compiler: at === 0 ? first : compiler(), tasks: lot }));
}

/**
 * @param {{ compiler: Compiler, tasks: Task[] }} lot
 * @param {BuildOptions} options
 * @returns {Promise<Built[]>}
 */
async function buildLot({ compiler, tasks }, options) {
  /** @type {Built[]} */
  const built = [];
  for (const task of tasks) built.push(await buildTask(compiler, task, options));
  return built;
}

/**
 * @param {Compiler} compiler
 * @param {Task} task
 * @param {BuildOptions} options
 * @returns {Promise<Built>}
 */
async function buildTask(compiler, task, { say = nothing, tell = nothing }) {
  let compiled = null;
  try {
    compiled = await compiler.compile(task.entry);
    if (compiled.explanation) tell(compiled.explanation);
    if (compiled.css) {
      writeWhole(task.out, compiled.css);
      say(`${task.shown} ${sizeOf(compiled.css.length)}, ${counted(compiled.modules, 'module')}, ${timeOf(compiled.milliseconds)}`);
    }
    return { task, compiled, error: null };
  } catch (error) {
    const it = /** @type {Error} */ (error);
    if (it.name === 'ProgramError') throw it;
    tell(`${task.shown}: ${it.message}\n`);
    return { task, compiled, error: it };
  }
}

/**
 * @param {string} file
 * @param {Built[]} built
 */
function writeDependencies(file, built) {
  const known = built.filter((it) => it.compiled).map(({ task, compiled }) => ({ shown: task.shown, dependencies: compiled?.dependencies ?? [] }));
  try {
    writeWhole(path.resolve(file), makeRules(known));
  } catch (error) {
    throw new SurroundingsError(`the dependencies can't be written to ${file}: ${/** @type {Error} */ (error).message}`);
  }
}

/**
 * @param {Built[]} built
 * @returns {number}
 */
function statusOf(built) {
  if (built.some((it) => it.error || it.compiled?.memory)) return STATUS.broken;
  return built.some((it) => it.compiled?.fault) ? STATUS.fault : STATUS.well;
}

