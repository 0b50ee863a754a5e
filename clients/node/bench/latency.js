// How long it takes from a save of one sheet to the new CSS in its place, at a system of 400 modules or of as many as are asked for, each of
// ten rules with 20 names of two other modules: by `sassw-watch`, by `recipes/watch.sh`, and by `sassc` under `entr`, which gets the same
// sheets with `@import` and a prefix for each module's names, since it reads no `@use`. One sheet is a module that nothing else uses, the
// other one that all others use.
// A save truncates the file and writes it. What is missing is left out by name.
// Usage: node bench/latency.js [SAVES [MODULES]]
// @ts-check
import { readFileSync, writeFileSync } from 'node:fs';
import { join } from 'node:path';
import { Room, missing, repository, until } from '../test/room.js';

const MODULES = Number(process.argv[3] ?? 400);
const RULES = 10;
const SAVES = Number(process.argv[2] ?? 20);
const MOST_MILLISECONDS = 60_000;
const FIRST_MILLISECONDS = 600_000;

/** What both kinds of CSS end with, whichever of the two sheets was saved; white space counts as one space. */
const LAST_RULE = `.m${MODULES - 1}-${RULES - 1}:hover { width: ${2 * RULES}px; }`;

const names = (prefix, first = '1px') =>
  Array.from({ length: RULES }, (_, number) => `$${prefix}n${number}: ${number === 0 ? first : `${number + 1}px`};\n`).join('');

const rules = (number, lib, theme, property = 'width') =>
  Array.from(
    { length: RULES },
    (_, rule) =>
      `.m${number}-${rule} {\n  ${property}: ${lib}n${rule};\n  height: ${theme}n${rule};\n  &:hover {\n    width: ${theme}n${rule} + ${lib}n${rule};\n  }\n}\n`,
  ).join('');

const numbers = Array.from({ length: MODULES }, (_, number) => number);
const lines = (text) => numbers.map(text).join('');

/** The system as modules, and as imports: its files, and the texts of two of them with a mark that comes in the CSS. */
const systems = {
  uses: {
    files: {
      '_lib.scss': names(''),
      '_theme.scss': names(''),
      'main.scss': lines((number) => `@use "m${number}";\n`),
      ...Object.fromEntries(numbers.map((number) => [`_m${number}.scss`, `@use "lib";\n@use "theme";\n${rules(number, 'lib.$', 'theme.$')}`])),
    },
    leaf: (mark) => `@use "lib";\n@use "theme";\n${rules(7, 'lib.$', 'theme.$', `-x${mark}-width`)}`,
    shared: (mark) => names('', `${mark}px`),
  },
  imports: {
    files: {
      '_lib.scss': names('lib-'),
      '_theme.scss': names('theme-'),
      'main.scss': `@import "lib";\n@import "theme";\n${lines((number) => `@import "m${number}";\n`)}`,
      ...Object.fromEntries(numbers.map((number) => [`_m${number}.scss`, rules(number, '$lib-', '$theme-')])),
    },
    leaf: (mark) => rules(7, '$lib-', '$theme-', `-x${mark}-width`),
    shared: (mark) => names('lib-', `${mark}px`),
  },
};

const own = join(repository, 'clients/node/bin/sassw-watch.js');
const ways = [
  { name: 'sassw-watch', needs: [], system: systems.uses, words: ['node', own, 'src', 'main.scss', '--out', 'css'] },
  { name: 'recipes/watch.sh', needs: ['inotifywait'], system: systems.uses, words: [join(repository, 'recipes/watch.sh'), 'src', 'css', 'main.scss'] },
  {
    name: 'sassc under entr',
    needs: ['sassc', 'entr'],
    system: systems.imports,
    words: ['sh', '-c', 'mkdir -p css && find src -name "*.scss" | entr -n sassc src/main.scss css/main.css'],
  },
];

/** Waits without a pause, so that the time is that of the CSS; whole is a CSS that ends as the first one did. */
async function inPlace(file, mark, ends) {
  const begun = performance.now();
  while (performance.now() - begun < MOST_MILLISECONDS) {
    const css = readFileSync(file, 'utf8');
    if (css.includes(mark) && css.trimEnd().endsWith(ends)) return performance.now() - begun;
    await new Promise((done) => setTimeout(done, 1));
  }
  throw new Error(`no CSS with ${mark}`);
}

async function measured(way) {
  const closing = /** @type {Array<() => Promise<void>>} */ ([]);
  const room = await Room.of({ after: (/** @type {() => Promise<void>} */ close) => closing.push(close) });
  try {
    const sheets = Object.entries(way.system.files).map(([path, text]) => [`src/${path}`, text]);
    await room.write(Object.fromEntries(sheets));
    const started = room.start(way.words);
    const css = () => (room.has('css/main.css') ? readFileSync(room.at('css/main.css'), 'utf8').trimEnd() : '');
    const isWhole = () => css().slice(-LAST_RULE.length * 2).replaceAll(/\s+/g, ' ').endsWith(LAST_RULE);
    await until('the first CSS', isWhole, () => started.out + started.err, FIRST_MILLISECONDS);
    const ends = css().slice(-LAST_RULE.length);
    const result = {};
    for (const [kind, path, of] of [['leaf', '_m7.scss', (turn) => `-x${turn}-width`], ['shared', '_lib.scss', (turn) => `width: ${turn}px`]]) {
      const times = [];
      for (let turn = 0; turn < SAVES; turn++) {
        // What the tool does behind a build isn't counted to the next one.
        await new Promise((done) => setTimeout(done, 300));
        const mark = 5000 + 100 * turn;
        writeFileSync(room.at(`src/${path}`), way.system[kind](mark));
        times.push(await inPlace(room.at('css/main.css'), of(mark), ends));
      }
      result[kind] = times.sort((one, other) => one - other);
    }
    return result;
  } finally {
    for (const close of closing) await close();
  }
}

const told = (times) => `least ${times[0].toFixed(0)} ms, half within ${times[times.length >> 1].toFixed(0)} ms, most ${times.at(-1).toFixed(0)} ms`;
for (const way of ways) {
  const absent = missing(...way.needs);
  if (absent) {
    console.log(`${way.name}: left out, ${absent}`);
    continue;
  }
  const { leaf, shared } = await measured(way);
  console.log(`${way.name}, a module that nothing uses: ${told(leaf)}`);
  console.log(`${way.name}, a module that all use: ${told(shared)}`);
}
