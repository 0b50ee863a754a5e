#!/usr/bin/env node
// Builds the sheets of a folder whenever they change.

import { BUILD_HELP, BUILD_OPTIONS, buildOptions, runCommand } from '../src/command.js';
import { watch } from '../src/watch.js';
import { WordsError } from '../src/words.js';

await runCommand({
  name: 'sassw-watch',
  usage: 'SRC [ENTRY[:OUT]..] [--out DIR] [-I DIR..] [--why] [--jobs N] [--deps FILE] [--format F]',
  help: `Builds the sheets of a folder, and again whenever they change, with a line for each build:

  main.css 622 kB, 2 of 402 modules, 18 ms (tokens/_m7.scss)

${BUILD_HELP}
  --why          tell which modules ran in each build, and why

It ends when it is interrupted, with status 0; 2: the program or a folder isn't there; 7: wrong words.
`,
  options: { ...BUILD_OPTIONS, '--why': {} },
  run: async (options, rest) => {
    if (rest.length === 0) throw new WordsError('write which folder to watch: sassw-watch SRC');
    const ending = new AbortController();
    for (const it of ['SIGINT', 'SIGTERM', 'SIGHUP']) process.once(it, () => ending.abort());
    const build = buildOptions(options, rest, 'sassw-watch');
    return watch({ ...build, why: options['--why'] === true, signal: ending.signal });
  },
});
