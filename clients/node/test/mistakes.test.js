// Mistakes that people make, each with the whole explanation that it gets.
// @ts-check
import assert from 'node:assert/strict';
import { test } from 'node:test';
import { Compiler } from '../src/index.js';
import { Room, program } from './room.js';

/**
 * Each mistake stands in a folder of its own: `IN` is `src/` and its name. A string is the sheet `main.scss`.
 * @type {Array<[string, string | Record<string, string | Buffer>, string]>}
 */
const MISTAKES = [
  [
    'a-brace-that-is-not-closed',
    '.a {\n  color: red;\n\n.b {\n  color: blue;\n}\n',
    `IN/main.scss:7:1: the sheet ends while something is open (fault 10)
  |
6 | }
7 |
  | ^
  = \`{\` of line 1 is still open: \`}\` is missing
  |
1 | .a {
  |    ^
`,
  ],
  [
    'an-inner-brace-that-is-not-closed',
    '.a {\n  .b {\n    color: red;\n}\n.c {\n  color: blue;\n}\n',
    `IN/main.scss:8:1: the sheet ends while something is open (fault 10)
  |
7 | }
8 |
  | ^
  = \`{\` of line 1 is still open: \`}\` is missing
  |
1 | .a {
  |    ^
  = or else that of line 2, whose \`}\` would be that of line 4, which isn't indented like it
  |
2 |   .b {
  |      ^
`,
  ],
  [
    'a-bracket-that-is-not-closed',
    '.a {\n  color: rgb(1, 2, 3;\n}\n',
    `IN/main.scss:2:21: \`;\` can't stand here (fault 10)
  |
2 |   color: rgb(1, 2, 3;
  |                     ^
  = \`(\` of line 2 is open here: \`)\` is missing
  |
2 |   color: rgb(1, 2, 3;
  |             ^
`,
  ],
  [
    'a-string-that-is-not-closed',
    '.a {\n  content: "abc;\n}\n',
    `IN/main.scss:2:12: the string that begins here isn't closed in its line (fault 10)
  |
2 |   content: "abc;
  |            ^
  = put " at its end
`,
  ],
  [
    'a-comment-that-is-not-closed',
    '.a { b: c; }\n/* more\n.b { c: d; }\n',
    `IN/main.scss:2:1: the comment that begins here isn't closed (fault 10)
  |
2 | /* more
  | ^
  = put \`*/\` at its end
`,
  ],
  [
    'a-semicolon-that-is-missing',
    '.a {\n  color: red\n  width: 1px;\n}\n',
    `IN/main.scss:3:8: \`:\` can't stand here (fault 10)
  |
3 |   width: 1px;
  |        ^
  = a \`;\` may be missing at the end of line 2
  |
2 |   color: red
  |             ^
`,
  ],
  [
    'a-brace-too-many',
    '.a {\n  color: red;\n}\n}\n',
    `IN/main.scss:4:1: \`}\` closes nothing (fault 10)
  |
4 | }
  | ^
  = take it out, or put the sign that it closes before it
`,
  ],
  [
    'a-merge',
    '.a {\n<<<<<<< HEAD\n  b: c;\n=======\n  b: d;\n>>>>>>> other\n}\n',
    `IN/main.scss:3:7: the sheet holds a merge that isn't settled (fault 10)
  |
3 |   b: c;
  |       ^
  = its markers go from here to line 6: choose what stays, and take them out
  |
2 | <<<<<<< HEAD
  | ^^^^^^^^^^^^
`,
  ],
  [
    'a-url-without-a-namespace',
    '@use "12";\n',
    `IN/main.scss:1:6: "12" gives no name for a namespace (fault 10)
  |
1 | @use "12";
  |      ^^^^
  = say one: \`@use "12" as name;\`
`,
  ],
  [
    'a-variable-that-is-spelt-wrong',
    '$brand: navy;\na {\n\tcolor: $brnd;\n}\n',
    `IN/main.scss:3:9: unknown variable \`$brnd\` (fault 11)
  |
3 | \tcolor: $brnd;
  | \t       ^^^^^
  = did you mean \`$brand\`?
`,
  ],
  [
    'a-namespace-that-is-left-out',
    { 'main.scss': '@use "lib";\na { content: "日本"; color: $ink; }\n', '_lib.scss': '$ink: black;\n' },
    `IN/main.scss:2:27: unknown variable \`$ink\` (fault 11)
  |
2 | a { content: "日本"; color: $ink; }
  |                             ^^^^
  = a module that is loaded has it: write \`lib.$ink\`
`,
  ],
  [
    'a-built-in-module-that-is-not-loaded',
    'a { b: map.get((c: d), c); }\n',
    `IN/main.scss:1:8: unknown namespace \`map\` (fault 12)
  |
1 | a { b: map.get((c: d), c); }
  |        ^^^
  = load the built-in module: \`@use "sass:map";\`
`,
  ],
  [
    'a-mixin-that-is-spelt-wrong',
    { 'main.scss': '@use "lib";\na { @include lib.buton; }\n', '_lib.scss': '@forward "buttons";\n', '_buttons.scss': '@mixin button { b: c; }\n' },
    `IN/main.scss:2:14: unknown member \`lib.buton\` (fault 13)
  |
2 | a { @include lib.buton; }
  |              ^^^^^^^^^
  = did you mean \`lib.button\`?
`,
  ],
  [
    'units-that-do-not-fit',
    'a { width: 1px + 1em; }\n',
    `IN/main.scss:1:12: units that don't fit in \`1px + 1em\` (fault 16)
  |
1 | a { width: 1px + 1em; }
  |            ^^^^^^^^^
  = only units of one kind are added and compared, as \`px\` and \`in\`, or \`s\` and \`ms\`; for others write \`calc()\`
`,
  ],
  [
    'a-file-that-is-spelt-wrong',
    { 'main.scss': '@use "parts/card";\n', 'parts/_card.scss': '\n@use "../tokens/colours";\n', 'tokens/_colors.scss': '' },
    `IN/parts/_card.scss:2:6: no file is meant by "../tokens/colours" (fault 19)
  |
2 | @use "../tokens/colours";
  |      ^^^^^^^^^^^^^^^^^^^
  = there is no such file in IN/tokens
  = did you mean "../tokens/colors"?
  = loaded by IN/main.scss:1:6 as "parts/card"
`,
  ],
  [
    'a-url-from-another-folder',
    { 'main.scss': '@use "src/a-url-from-another-folder/lib";\n', '_lib.scss': '' },
    `IN/main.scss:1:6: no file is meant by "src/a-url-from-another-folder/lib" (fault 19)
  |
1 | @use "src/a-url-from-another-folder/lib";
  |      ^^^^^^^^^^^^^^^^^^^^^^^^^^^^^^^^^^^
  = "src/a-url-from-another-folder/lib" is written from the current folder, but a URL is looked for from the folder of its sheet: write "lib"
`,
  ],
  [
    'a-url-of-another-tool',
    '@use "~theme/all";\n',
    `IN/main.scss:1:6: no file is meant by "~theme/all" (fault 19)
  |
1 | @use "~theme/all";
  |      ^^^^^^^^^^^^
  = \`~\` is of other tools: give the folder as a load path, as in -I node_modules, and write "theme/all"
`,
  ],
  [
    'a-built-in-module-that-is-spelt-wrong',
    '@use "sass:maths";\n',
    `IN/main.scss:1:6: there is no built-in module "sass:maths" (fault 19)
  |
1 | @use "sass:maths";
  |      ^^^^^^^^^^^^
  = did you mean "sass:math"?
`,
  ],
  [
    'a-file-that-is-not-utf-8',
    { 'main.scss': '@use "lib";\n', '_lib.scss': Buffer.from('a {\n  b: "\xe4";\n}\n', 'latin1') },
    `IN/main.scss:1:6: no file is meant by "lib" (fault 19)
  |
1 | @use "lib";
  |      ^^^^^
  = IN/_lib.scss is there, but isn't UTF-8: its byte 11, in line 2, begins no character; save it as UTF-8
`,
  ],
  [
    'a-file-that-is-too-long',
    { 'main.scss': '@use "lib";\n', '_lib.scss': 'a'.repeat(1_048_577) },
    `IN/main.scss:1:6: no file is meant by "lib" (fault 19)
  |
1 | @use "lib";
  |      ^^^^^
  = IN/_lib.scss is there, but has 1,048,577 bytes, and a sheet has at most 1,048,576 (1 MiB)
`,
  ],
  [
    'a-file-beside-its-partial',
    { 'main.scss': '@use "lib";\n', '_lib.scss': '', 'lib.scss': '' },
    `IN/main.scss:1:6: several files are meant by "lib" (fault 20)
  |
1 | @use "lib";
  |      ^^^^^
  = they are IN/lib.scss and IN/_lib.scss
  = keep one of the files, or write the URL with its extension
`,
  ],
  [
    'sheets-that-load-each-other',
    { 'main.scss': '@use "a";\n', '_a.scss': '@use "b";\n', '_b.scss': '@use "a";\n' },
    `IN/_b.scss:1:6: "a" is being loaded already: the sheets load each other in a circle (fault 21)
  |
1 | @use "a";
  |      ^^^
  = move what both need to a third sheet that both load
  = loaded by IN/_a.scss:1:6 as "b"
  = loaded by IN/main.scss:1:6 as "a"
`,
  ],
  [
    'an-error-of-the-sheet',
    { 'main.scss': '@use "a";\n', '_a.scss': '@warn "soon";\n@debug 1 + 1;\n@error "no #{1 + 1}";\n' },
    `IN/_a.scss:1:1: warning: soon
IN/_a.scss:2:1: debug: 2
IN/_a.scss:3:1: no 2 (fault 25)
  |
3 | @error "no #{1 + 1}";
  | ^^^^^^^^^^^^^^^^^^^^
  = the sheet itself says so, by \`@error\`
  = loaded by IN/main.scss:1:6 as "a"
`,
  ],
  [
    'an-extend',
    '.a { @extend .b; }\n',
    `IN/main.scss:1:6: \`@extend\` isn't supported (fault 30)
  |
1 | .a { @extend .b; }
  |      ^^^^^^^^^^
  = write what is shared as a \`@mixin\` and \`@include\` it, or give the element both classes
`,
  ],
  [
    'an-import-of-a-sheet',
    { 'main.scss': '@import "lib";\n', '_lib.scss': '' },
    `IN/main.scss:1:1: \`@import\` of a sheet isn't supported (fault 31)
  |
1 | @import "lib";
  | ^^^^^^^^^^^^^
  = load the sheet with \`@use\`, and write its members with the namespace: \`@use "colors"; a { color: colors.$brand; }\`
`,
  ],
  [
    'a-load-behind-a-rule',
    { 'main.scss': 'a { b: c; }\n@use "lib";\n', '_lib.scss': '' },
    `IN/main.scss:2:1: \`@use "lib"\` must stand before all else (fault 38)
  |
2 | @use "lib";
  | ^^^^^^^^^^
  = move it to the top of the sheet, above every rule
`,
  ],
  [
    'braces-in-a-sheet-in-lines',
    { 'main.scss': '@use "lib";\n', 'lib.sass': 'a {\n  b: c\n}\n' },
    `IN/lib.sass:1:3: a sheet in lines has no \`{\` (fault 10)
  |
1 | a {
  |   ^
  = indentation and line ends stand for \`{\`, \`}\` and \`;\`; name the file \`.scss\` to write them
  = loaded by IN/main.scss:1:6 as "lib"
`,
  ],
  [
    'tabs-and-spaces-in-a-sheet-in-lines',
    { 'main.scss': '@use "lib";\n', 'lib.sass': 'a\n  b: c\nd\n\te: f\n' },
    `IN/lib.sass:4:2: tabs and spaces are mixed in the indentation (fault 10)
  |
4 | \te: f
  | \t^
  = a sheet is indented by one of the two
  = loaded by IN/main.scss:1:6 as "lib"
`,
  ],
  [
    'a-rule-in-a-rule-of-plain-css',
    { 'main.scss': '@use "lib";\n', 'lib.css': 'a { & b { c: d; } }\n' },
    `IN/lib.css:1:5: plain CSS has no \`&\` (fault 10)
  |
1 | a { & b { c: d; } }
  |     ^
  = name the file \`.scss\` to write Sass in it
  = loaded by IN/main.scss:1:6 as "lib"
`,
  ],
  [
    'an-entry-that-is-spelt-wrong',
    { 'mian.scss': '' },
    `IN/main.scss:1:1: there is no file IN/main.scss (fault 19)
  = did you mean IN/mian.scss?
`,
  ],
];

test('typical mistakes, with their whole explanation', async (t) => {
  const room = await Room.of(t);
  process.chdir(room.folder);
  for (const [name, files] of MISTAKES) {
    const all = typeof files === 'string' ? { 'main.scss': files } : files;
    await room.write(Object.fromEntries(Object.entries(all).map(([path, text]) => [`src/${name}/${path}`, text])));
  }
  const compiler = new Compiler({ root: 'src', program: program() });
  t.after(() => compiler.close());
  for (const [name, , explanation] of MISTAKES) {
    await t.test(name, async () => {
      const compiled = await compiler.compile(`${name}/main.scss`);
      assert.equal(compiled.explanation, `${explanation.replaceAll('IN/', `src/${name}/`)}\n`);
    });
  }
});
