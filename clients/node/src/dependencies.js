// The rules of make that say which files the CSS depends on.

import path from 'node:path';

/**
 * A name as it stands in a makefile, as a prerequisite; as a target its `%` is quoted too.
 * @param {string} name
 * @param {boolean} [isTarget]
 * @returns {string}
 * @throws {Error} where make has no way to write it: it has a line break
 */
export function makeName(name, isTarget = false) {
  if (/[\n\r]/.test(name)) throw new Error(`make can't have the name ${JSON.stringify(name)}, since it has a line break`);
  // A backslash stands for itself unless it stands before one of the characters that it quotes.
  const quoted = isTarget ? /(\\*)([ \t#:%])/g : /(\\*)([ \t#:])/g;
  return name.replace(quoted, (_, slashes, sign) => `${slashes}${slashes}\\${sign}`).replace(/\$/g, '$$$$');
}

/**
 * Rules that make each CSS anew when a file that it was made of is newer. Each of these files has an empty rule too, so
 * that one that is gone is no error, but makes the CSS anew.
 * @param {Array<{ shown: string, dependencies: string[] }>} built `shown` is the CSS, and paths are absolute but for it
 * @param {string} [from] the folder in which make runs
 * @returns {string}
 */
export function makeRules(built, from = process.cwd()) {
  const near = (/** @type {string} */ it) => path.relative(from, it);
  const rules = built.map((it) => `${makeName(it.shown, true)}: ${it.dependencies.map((file) => makeName(near(file))).join(' \\\n ')}\n`);
  const sources = [...new Set(built.flatMap((it) => it.dependencies))].map((it) => `${makeName(near(it), true)}:\n`);
  return [...rules, '', ...sources].join('\n');
}
