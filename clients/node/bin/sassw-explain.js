#!/usr/bin/env node
// Says what a fault means, and explains what the program wrote.

import { readFileSync } from 'node:fs';
import { STATUS } from '../src/build.js';
import { runCommand, takesColour } from '../src/command.js';
import { explain } from '../src/explain.js';
import { FAULTS, meaningOf } from '../src/faults.js';
import { PlainFolder } from '../src/plain-folder.js';
import { checkRoot } from '../src/plan.js';
import { readWritten } from '../src/reply.js';
import { WordsError } from '../src/words.js';

/**
 * @param {string[]} codes
 * @returns {number}
 */
function meanings(codes) {
  const texts = codes.map((it) => {
    const text = meaningOf(Number(it));
    if (text === null) throw new WordsError(`${it}: write a code from ${FAULTS[0].code} to ${FAULTS.at(-1)?.code}`);
    return text;
  });
  process.stdout.write(texts.join('\n'));
  return STATUS.well;
}

/**
 * @param {string[]} words SRC, and then the words of `once`
 * @param {'text' | 'json' | 'github'} format
 * @returns {number}
 */
function explanation([root, entry, ...loadPaths], format) {
  checkRoot(root, 'sassw-explain');
  let reply;
  try {
    reply = readWritten(readFileSync(0));
  } catch (error) {
    throw new WordsError(`standard input is nothing that sassw wrote: ${/** @type {Error} */ (error).message}`);
  }
  if (!reply) return STATUS.well;
  const files = new PlainFolder(root, entry ?? null, loadPaths);
  const colour = process.stdout.isTTY ? takesColour() : Boolean(process.env.FORCE_COLOR);
  process.stdout.write(explain(reply, files, { format, colour }));
  return reply.fault ? STATUS.fault : reply.memory ? STATUS.broken : STATUS.well;
}

await runCommand({
  name: 'sassw-explain',
  usage: 'CODE.. | SRC [ENTRY [LOAD..]] [--format F]',
  help: `Says what the code of a fault means, with an example; or explains what the program sassw wrote, which it reads
from standard input:

  sassw once src main.scss > new.css 2> said || cat said new.css | sassw-explain src main.scss

  CODE           the code of a fault, 10 to 42
  SRC            the folder that the program read
  ENTRY, LOAD    as the program got them; with them it is told which loads led to the place
  --format F     text, json (a line each, UTF-16 columns) or github

Status 0: it was said, or there is no fault; 1: there is one; 2: there is no such folder; 7: wrong words.
`,
  options: { '--format': { takes: 'FORMAT', may: ['text', 'json', 'github'] } },
  run: async (options, rest) => {
    if (rest.length === 0) throw new WordsError('write the code of a fault, or the folder that the program read');
    if (/^[0-9]+$/.test(rest[0])) return meanings(rest);
    return explanation(rest, options['--format'] ?? 'text');
  },
});
