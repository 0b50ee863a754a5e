#!/usr/bin/env node
// Converts the sheets of a folder from SCSS to the indented syntax and back.

import { runCommand, takesColour } from '../src/command.js';
import { convert } from '../src/convert.js';
import { SYNTAXES } from '../src/converter.js';
import { WordsError } from '../src/words.js';

await runCommand({
  name: 'sassw-convert',
  usage: 'SRC [SHEET..] [--to SYNTAX] [--out DIR] [--check] [--force] [--format F]',
  help: `Converts sheets from SCSS to the indented syntax and back. Each new sheet is put in place whole; what can't be
converted is explained on standard error, and so is which comments the new sheet lacks. Plain CSS is left alone, and the
old sheets stay: where both stand, a URL without an extension means both, until the old one is taken away.

  SRC            the folder of the sheets
  SHEET          a sheet in it; without any, all .scss and .sass sheets, but for those in node_modules and in folders .*
  --to SYNTAX    scss or sass, the extension of the new sheets; sheets that have it are left alone. Without it each sheet
                 is written in the other syntax
  --out DIR      the folder for the new sheets, in which the folders of SRC are mirrored; else beside the old ones
  --check        write nothing, and tell what would fail
  --force        write over other files that stand in the places of the new sheets
  --format F     how faults and notes are told: text, json (a line each, UTF-16 columns) or github
  --program FILE the program sassw; else what the variable SASSW names, else that on the PATH

Status 0: all were converted; 1: a sheet has a fault, holds what lines can't hold, or another file stands in its place;
2: the program or the folder isn't there, or something can't be written; 7: wrong words.
`,
  options: {
    '--to': { takes: 'SYNTAX', may: SYNTAXES },
    '--out': { takes: 'DIR' },
    '--check': {},
    '--force': {},
    '--format': { takes: 'FORMAT', may: ['text', 'json', 'github'] },
    '--program': { takes: 'FILE' },
  },
  run: async (options, rest) => {
    const [root, ...sheets] = rest;
    if (root === undefined) throw new WordsError('write which folder to convert: sassw-convert SRC');
    const { status } = await convert({
      root, sheets,
      to: options['--to'],
      out: options['--out'],
      check: options['--check'] === true,
      force: options['--force'] === true,
      format: options['--format'] ?? 'text',
      colour: takesColour(),
      program: options['--program'],
      say: (line) => void process.stdout.write(`${line}\n`),
      tell: (text) => void process.stderr.write(text),
    });
    return status;
  },
});
