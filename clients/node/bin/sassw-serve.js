#!/usr/bin/env node
// Serves the CSS of a folder's sheets, and tells pages of each change.

import { runCommand, takesColour } from '../src/command.js';
import { PORT, serve } from '../src/serving.js';
import { WordsError } from '../src/words.js';

const MOST_PORT = 65_535;

/**
 * @param {string | undefined} text
 * @returns {number}
 * @throws {WordsError} where it is no port
 */
function portOf(text = String(PORT)) {
  if (!/^[0-9]{1,5}$/.test(text) || Number(text) > MOST_PORT) throw new WordsError(`--port ${text}: write a number from 0 to ${MOST_PORT}; 0 is any port that is free`);
  return Number(text);
}

await runCommand({
  name: 'sassw-serve',
  usage: 'SRC [ENTRY..] [--port N] [--files DIR] [-I DIR..] [--allow ORIGIN..]',
  help: `Serves the CSS of a folder's sheets on this machine alone, and compiles them again whenever they change. A page with
these two lines gets new CSS without a reload, and shows an explained fault until it is mended:

  <link rel="stylesheet" href="http://127.0.0.1:${PORT}/main.css">
  <script src="http://127.0.0.1:${PORT}/sassw.js"></script>

  SRC             the folder of the sheets
  ENTRY           a sheet in it; without any, all .scss and .sass sheets whose name doesn't begin with _
  --port N        where to listen, ${PORT} without it; 0 is any port that is free
  --files DIR     serve the files of this folder too: pages, and the images and fonts of the CSS
  -I DIR          a folder in which loads are looked for too; up to eight, in their order
  --allow ORIGIN  let pages from there read the CSS and its faults, beside those of this machine: an origin such as
                  https://design.test, or null for pages that are opened as files
  --program FILE  the program sassw; else what the variable SASSW names, else that on the PATH

It ends when it is interrupted, with status 0; 2: the program or a folder isn't there, or the port is taken; 7: wrong
words.
`,
  options: {
    '--port': { takes: 'N' },
    '--files': { takes: 'DIR' },
    '-I': { takes: 'DIR', many: true },
    '--allow': { takes: 'ORIGIN', many: true },
    '--program': { takes: 'FILE' },
  },
  run: async (options, rest) => {
    const [root, ...entries] = rest;
    if (root === undefined) throw new WordsError('write which folder to serve: sassw-serve SRC');
    const ending = new AbortController();
    for (const it of ['SIGINT', 'SIGTERM', 'SIGHUP']) process.once(it, () => ending.abort());
    return serve({
      root, entries,
      port: portOf(options['--port']),
      files: options['--files'],
      origins: options['--allow'] ?? [],
      loadPaths: options['-I'] ?? [],
      colour: takesColour(),
      program: options['--program'],
      say: (line) => void process.stdout.write(`${line}\n`),
      tell: (text) => void process.stderr.write(text),
      signal: ending.signal,
    });
  },
});
