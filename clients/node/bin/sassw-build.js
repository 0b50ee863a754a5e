#!/usr/bin/env node
// Builds the sheets of a folder once.

import { build } from '../src/build.js';
import { BUILD_HELP, BUILD_OPTIONS, buildOptions, runCommand } from '../src/command.js';
import { WordsError } from '../src/words.js';

await runCommand({
  name: 'sassw-build',
  usage: 'SRC [ENTRY[:OUT]..] [--out DIR] [-I DIR..] [--jobs N] [--deps FILE] [--format F]',
  help: `Builds the sheets of a folder. Each CSS is put in place whole; a sheet with a fault keeps what it has, and the
fault is explained on standard error.

${BUILD_HELP}

Status 0: all were built; 1: a sheet has a fault; 2: the program or a folder isn't there, or something can't be
written; 7: wrong words.
`,
  options: BUILD_OPTIONS,
  run: async (options, rest) => {
    if (rest.length === 0) throw new WordsError('write which folder to build: sassw-build SRC');
    return (await build(buildOptions(options, rest, 'sassw-build'))).status;
  },
});
