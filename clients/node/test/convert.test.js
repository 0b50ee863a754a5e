// Conversions: which sheets, where the new ones go, what is told of those that can't be written, and what is never lost unsaid.
// @ts-check
import assert from 'node:assert/strict';
import { readFileSync, readdirSync, symlinkSync } from 'node:fs';
import { join } from 'node:path';
import test from 'node:test';
import { commentsOf } from '../src/comments.js';
import { FAULTS, build, convert, explain } from '../src/index.js';
import { Room, program, repository } from './room.js';

const COMMAND = join(repository, 'clients/node/bin/sassw-convert.js');
const BRACES = (name) => `${name} {\n  b: c;\n}\n`;
const LINES = (name) => `${name}\n  b: c\n`;

/** A room that is the current folder, with files. */
async function roomWith(t, files) {
  const room = await Room.of(t);
  await room.write(files);
  process.chdir(room.folder);
  return room;
}

/** A conversion in this process: its status, and what it said and told. */
async function converted(options = {}) {
  const said = [];
  const told = [];
  const result = await convert({ root: 'src', program: program(), say: (it) => said.push(it), tell: (it) => told.push(it), ...options });
  return { ...result, said, told: told.join('') };
}

/** What is told of one sheet `src/a.scss` that isn't converted. */
async function refusal(room, text, options = {}) {
  await room.write({ 'src/a.scss': text });
  const { status, told } = await converted({ check: true, ...options });
  assert.equal(status, 1, text);
  return told;
}

test('all sheets of a folder are converted, partials too, and stand beside the old ones', async (t) => {
  const room = await roomWith(t, {
    'src/main.scss': '@use "parts/a";\n',
    'src/parts/_a.scss': BRACES('a'),
    'src/pages/home.sass': LINES('h'),
    'src/plain.css': BRACES('p'),
    'src/node_modules/x/x.scss': BRACES('x'),
    'src/.hidden/y.scss': BRACES('y'),
  });
  const { status, out, err } = await room.run(['node', COMMAND, 'src']);
  assert.deepEqual([status, err], [0, '']);
  assert.equal(out, 'src/main.sass 15 B, from src/main.scss\nsrc/pages/home.scss 14 B, from src/pages/home.sass\nsrc/parts/_a.sass 9 B, from src/parts/_a.scss\n');
  assert.deepEqual([await room.read('src/main.sass'), await room.read('src/parts/_a.sass'), await room.read('src/pages/home.scss')], ['@use "parts/a"\n', LINES('a'), BRACES('h')]);
  assert.deepEqual(readdirSync('src').sort(), ['.hidden', 'main.sass', 'main.scss', 'node_modules', 'pages', 'parts', 'plain.css']);
  assert.deepEqual(readdirSync('src/node_modules/x'), ['x.scss']);
});

test('the new sheets go to another folder, some of them alone, and those of the wanted syntax are left alone', async (t) => {
  const room = await roomWith(t, { 'src/a.scss': BRACES('a'), 'src/a.sass': LINES('a'), 'src/x/_b.scss': BRACES('b'), 'src/out/_c.scss': BRACES('c') });
  assert.deepEqual((await converted({ sheets: ['x/_b.scss', 'a.sass'], out: 'new' })).said, ['new/x/_b.sass 9 B, from src/x/_b.scss', 'new/a.scss 14 B, from src/a.sass']);
  assert.equal(await room.read('new/x/_b.sass'), LINES('b'));
  // The folder for the new sheets isn't looked into.
  assert.deepEqual((await converted({ to: 'sass', out: 'src/out' })).said, ['src/out/a.sass 9 B, from src/a.scss', 'src/out/x/_b.sass 9 B, from src/x/_b.scss']);
  assert.deepEqual(await converted({ to: 'scss', sheets: ['a.scss'] }), { status: 0, converted: [], said: ['nothing to convert: 1 sheet in scss already'], told: '' });
});

test('nothing is written over, unless that is asked for', async (t) => {
  const room = await roomWith(t, { 'src/a.scss': BRACES('a'), 'src/a.sass': 'old\n', 'src/b.scss': BRACES('b'), 'else/b.sass': 'old\n' });
  symlinkSync('../else/b.sass', 'src/b.sass');
  const taken = await converted({ to: 'sass' });
  assert.equal(taken.status, 1);
  assert.match(taken.told, /^src\/a\.scss:1:1: src\/a\.sass stands there already, and is another file: --force writes over it\n\nsrc\/b\.scss:1:1: /);
  assert.deepEqual([await room.read('src/a.sass'), await room.read('else/b.sass')], ['old\n', 'old\n']);
  assert.deepEqual((await converted({ to: 'sass', force: true })).said, ['src/a.sass 9 B, from src/a.scss', 'src/b.sass 9 B, from src/b.scss']);
  // Whatever is the same may stand; a link stays one; nothing is left beside the sheets.
  const again = await converted({ to: 'sass' });
  assert.deepEqual([again.status, again.said, again.told], [0, ['src/a.sass stands there already, just so', 'src/b.sass stands there already, just so'], '']);
  assert.deepEqual([await room.read('src/a.sass'), await room.read('else/b.sass'), readdirSync('src').sort()], [LINES('a'), LINES('b'), ['a.sass', 'a.scss', 'b.sass', 'b.scss']]);
});

test('a check writes nothing and tells what would fail', async (t) => {
  const room = await roomWith(t, { 'src/a.scss': BRACES('a'), 'src/b.scss': 'a { }\n', 'src/c.scss': '// x\n', 'src/c.sass': 'old\n' });
  const { status, said, told, converted: all } = await converted({ to: 'sass', check: true });
  assert.deepEqual([status, said], [1, ['1 of 3 sheets can be converted']]);
  assert.match(told, /^src\/b\.scss:1:1: .* \(fault 42\)\n[^]*\n\nsrc\/c\.scss:1:1: src\/c\.sass stands there already, .*\n\n$/);
  assert.deepEqual(readdirSync('src').sort(), ['a.scss', 'b.scss', 'c.sass', 'c.scss']);
  assert.deepEqual(all.map((it) => [it.conversion.sheet, it.text?.toString() ?? null, it.written]), [['a.scss', LINES('a'), false], ['b.scss', null, false], ['c.scss', '', false]]);
  await room.write({ 'src/b.scss': '', 'src/c.sass': '' });
  assert.deepEqual((await converted({ to: 'sass', check: true })).status, 0);
});

test('what cannot be converted is told of the sheet itself, and the others are converted', async (t) => {
  const room = await roomWith(t, { 'src/_b.scss': 'a { content: "😀"; b { } }\n', 'src/c.sass': 'a\n  b: $\n', 'src/d.scss': BRACES('d') });
  const { status, out, err } = await room.run(['node', COMMAND, 'src']);
  assert.deepEqual([status, out], [1, 'src/d.sass 9 B, from src/d.scss\n']);
  assert.equal(
    err,
    `src/_b.scss:1:19: lines can't hold a block without a statement (fault 42)
  |
1 | a { content: "😀"; b { } }
  |                    ^
  = take it out, or write in it what gives no CSS, as \`$none: null;\`
  = change it, or leave the sheet in SCSS: sheets of both syntaxes load each other

src/c.sass:2:7: the sheet ends too early (fault 10)
  |
2 |   b: $
  |       ^
  = a block, or a \`:\` and a value, is missing here

`,
  );
  assert.deepEqual(readdirSync('src').sort(), ['_b.scss', 'c.sass', 'd.sass', 'd.scss']);
  const json = (await converted({ sheets: ['_b.scss'], format: 'json' })).told;
  const { code, path, from, to } = JSON.parse(json);
  assert.deepEqual([code, path, from, to], [42, 'src/_b.scss', { line: 1, column: 20 }, { line: 1, column: 21 }]);
  const github = (await converted({ sheets: ['_b.scss'], format: 'github' })).told;
  assert.match(github, /^::error file=src\/_b\.scss,line=1,col=20,endLine=1,endColumn=21,title=sassw fault 42::lines can't hold /);
});

test('sheets that are no text are told, and what cannot be written', async (t) => {
  const room = await roomWith(t, { 'src/a.scss': BRACES('a'), 'src/b.scss': BRACES('b'), 'file': '' });
  await room.write({ 'src/b.scss': Buffer.from('a {\n  b: "\xe4";\n}\n', 'latin1'), 'src/c.scss': 'a'.repeat(1_048_577) });
  const { status, said, told } = await converted();
  assert.deepEqual([status, said], [1, ['src/a.sass 9 B, from src/a.scss']]);
  assert.equal(told, `src/b.scss:1:1: it isn't UTF-8: its byte 11, in line 2, begins no character; save it as UTF-8\n\nsrc/c.scss:1:1: it has 1,048,577 bytes, and a sheet has at most 1,048,576 (1 MiB)\n\n`);
  const broken = await converted({ sheets: ['a.scss'], out: 'file' });
  assert.equal(broken.status, 2);
  assert.match(broken.told, /^file\/a\.sass: .*(ENOTDIR|EEXIST)/);
});

/** Statements that lines can't hold: what is told of them, and what a person can write. */
const REFUSED = [
  ['a { b { } }', "lines can't hold a block without a statement", 'a { b { $none: null; } }'],
  ['@function f() { // x\n}', "lines can't hold a block without a statement", '@function f() { @return 1; }'],
  ['a { + b { c: d; } }', 'a line that begins with `+` is an `@include`', 'a { & + b { c: d; } }'],
  ['+ a { b: c; }', 'a line that begins with `+` is an `@include`', '#{"+"} a { b: c; }'],
  ['= a { b: c; }', 'a line that begins with `=` is a `@mixin`', 'a { b: c; }'],
  ['a, { b: c; }', 'a line that ends in a comma goes on in the next one', 'a { b: c; }'],
  ['a { b: c,; }', 'a line that ends in a comma goes on in the next one', 'a { b: (c,); }'],
  ['a { --b: {c: d; e: f}; }', "lines can't hold a custom property with `{`", 'a { --b: #{"{c: d; e: f}"}; }'],
  ['a { --b: c\n d; }', "lines can't hold a custom property over several lines", 'a { --b: c d; }'],
  ['@foo [a;b];', "lines can't hold a `;`", '@foo [a#{";"}b];'],
  ['@foo "a\\\nb";', "lines can't hold a string over several lines", '@foo "ab";'],
  ['@foo a \\\n b;', "lines can't hold a `\\` before the end of a line", '@foo a b;'],
  ['/**/', "lines can't hold a comment without words", ''],
  ['/* #{1} */', "lines can't hold a comment with `#{}`", '/* 1 */'],
  ['@if true { a { b: c; } } @else { }', "lines can't hold one of the branches of this `@if`", '@if true { a { b: c; } }'],
];

test('each reason for which lines cannot hold a statement, and what is advised', async (t) => {
  const room = await roomWith(t, {});
  for (const [text, message, better] of REFUSED) {
    const told = JSON.parse(await refusal(room, text, { format: 'json' }));
    assert.deepEqual([told.code, told.message], [42, message], text);
    assert.ok(told.notes.length >= 2 && !/undefined|null[^;]|NaN/.test(told.notes[0].text), text);
    await room.write({ 'src/a.scss': better });
    assert.equal((await converted({ check: true })).told, '', better);
  }
  // Where the statement shows none, it is told as a whole.
  const at = (column) => ({ line: 1, column });
  const fault = { code: 42, path: 'a.scss', span: { from: at(5), to: at(9) } };
  const whole = explain({ messages: [], ran: [], css: null, fault, memory: false }, new Map([['a.scss', 'a { b: c; }']]));
  assert.match(whole, /^a\.scss:1:5: a sheet in lines can't hold `b: c` \(fault 42\)\n/);
  assert.equal(JSON.parse(await refusal(room, 'a { --b: [{c: "d"}]; }', { format: 'json' })).notes[0].text, 'write its value as a text: `#{".."}`');
});

test('the example of the table comes to its fault', async (t) => {
  const room = await roomWith(t, {});
  const [, text, line] = /^`([^`]+)` → `error (.*)`$/.exec(FAULTS.find((it) => it.code === 42)?.example ?? '') ?? [];
  const { status, out } = await room.run(['sh', '-c', 'printf %s "$1" | sassw convert scss sass', '', text]);
  assert.deepEqual([status, out], [1, `error ${line}\n`]);
  const { out: meaning } = await room.run(['node', join(repository, 'clients/node/bin/sassw-explain.js'), '42']);
  assert.match(meaning, /^fault 42: a statement that a sheet in lines can't hold, .*\n {2}stands at: the statement\n/);
});

test('comments that the new sheet lacks are told', async (t) => {
  const room = await roomWith(t, {
    'src/a.scss': '/* 😀 */ .a { // one\n  b: url(//x.y/#{1}//z) "//"; // two\n  /* kept */\n}\n',
    'src/b.scss': 'a { b: /* in */ c; }\n/* kept\n * too */\n',
    'src/c.sass': 'a\n  b: c /* in */ d\n// one\n   two\n\n/* kept\n   too\n',
    'src/d.scss': '/* kept */ a { b: c; }\n',
  });
  const { status, told } = await converted();
  assert.equal(status, 0);
  assert.equal(
    told,
    `src/a.scss:1:14: note: 2 lines hold a silent comment, which the new sheet lacks
src/b.scss:1:8: note: 1 line holds a comment inside of a statement, which the new sheet lacks
src/c.sass:2:8: note: 3 lines hold a comment, silent or inside of a statement, which the new sheet lacks
`,
  );
  assert.equal(await room.read('src/a.sass'), '/* 😀\n.a\n  b: url(//x.y/#{1}//z) "//"\n  /* kept\n');
  assert.equal(await room.read('src/c.scss'), 'a {\n  b: c d;\n}\n/* kept\n * too */\n');
  const note = JSON.parse((await converted({ sheets: ['a.scss'], out: 'new', format: 'json' })).told);
  assert.deepEqual([note.kind, note.code, note.from, note.to], ['note', null, { line: 1, column: 15 }, { line: 1, column: 21 }]);
  assert.match((await converted({ sheets: ['b.scss'], out: 'new', format: 'github' })).told, /^::notice file=src\/b\.scss,line=1,col=8,endLine=1,endColumn=16,title=sassw::1 line holds /);
});

test('comments are found where they are ones', () => {
  const found = (text, syntax) => commentsOf(text, syntax).map((it) => text.slice(it.from, it.to));
  assert.deepEqual(found('a { b: "#{f("//")} // c" url( "//d" ); /* // */ } // e', 'scss'), ['/* // */', '// e']);
  assert.deepEqual(found('$a: (\n  // b\n    c: d,\n  e: f) // g\nh\n  /* i */ // j\n  k: l\n', 'sass'), ['// b', '// g', '/* i */', '// j\n']);
  assert.deepEqual(found("a\r\n\tb: c // d\r\n\t// don't\r\n\t\te /* f\r\n\tg: h\r\n", 'sass'), ['// d', "// don't\r\n\t\te /* f\r\n"]);
});

test('loads that name the old sheet by its extension are told', async (t) => {
  await roomWith(t, { 'src/a.scss': '@use "lib/b.scss";\n@use "lib/c.css";\n@use "lib/d";\n', 'src/lib/_b.scss': '', 'src/lib/c.css': '', 'src/lib/_d.scss': '' });
  assert.equal((await converted({ check: true })).told, 'src/a.scss:1:6: note: "lib/b.scss" means the old sheet: write "lib/b"\n');
});

test('a folder moves to the other syntax as docs/BUILDING.md says, and gives the same CSS', async (t) => {
  const room = await roomWith(t, {
    'src/main.scss': '// entry\n@use "tokens";\n@use "tools" with ($gap: 2px);\n.a { @include tools.box { color: tokens.$ink; } }\n',
    'src/_tokens.scss': '$ink: #123 !default; // dark\n',
    'src/_tools.scss': '$gap: 1px !default;\n@mixin box { margin: $gap * 2; @content; &:hover { --x: y; } }\n',
    'src/odd.scss': '@use "tokens";\n.b { --c: {d: e}; color: tokens.$ink; }\n',
  });
  for (const it of ['build', 'convert']) symlinkSync(join(repository, `clients/node/bin/sassw-${it}.js`), room.at(`bin/sassw-${it}`));
  const page = readFileSync(join(repository, 'docs/BUILDING.md'), 'utf8');
  const [, steps] = /## To the other syntax\n[^]*?\n\n((?: {4}.*\n)+)/.exec(page) ?? [];
  const { status, out, err } = await room.run(['sh', '-c', steps]);
  assert.equal(status, 0, out + err);
  assert.match(err, /^src\/odd\.scss:2:6: lines can't hold a custom property with `\{` \(fault 42\)$/m);
  assert.deepEqual(readdirSync('src').sort(), ['_tokens.sass', '_tools.sass', 'main.sass', 'odd.scss']);
  assert.equal(await room.read('after/main.css'), await room.read('before/main.css'));
  // And back.
  assert.equal((await converted({ to: 'scss', out: 'back' })).status, 0);
  assert.equal((await build({ root: 'back', program: program(), out: 'again' })).status, 0);
  assert.equal(await room.read('again/main.css'), await room.read('before/main.css'));
});

test('wrong words are named, with what to write', async (t) => {
  const room = await roomWith(t, { 'src/main.scss': BRACES('a'), 'src/card.sass': LINES('b'), 'src/sub/x.scss': '', 'src/y.scss': '', 'src/y.sass': '', 'src/z.css': '', 'none/a.css': '' });
  const wrong = [
    [{ sheets: ['./main.scss'] }, './main.scss: write main.scss'],
    [{ sheets: ['src/main.scss'] }, 'src/main.scss: write main.scss'],
    [{ sheets: [room.at('src/sub/x.scss')] }, `${room.at('src/sub/x.scss')}: write sub/x.scss`],
    [{ sheets: ['card'] }, 'card: write card.sass'],
    [{ sheets: ['mian.scss'] }, 'mian.scss: there is no such sheet in src; did you mean main.scss?'],
    [{ sheets: ['sub'] }, 'sub: write sassw-convert src/sub'],
    [{ sheets: ['z.css'] }, 'z.css: write the name of a sheet, which ends in .scss or .sass'],
    [{ sheets: ['../x.scss'] }, '../x.scss: write the name of a sheet in src'],
    [{ sheets: ['main.scss', 'main.scss'] }, 'main.scss: write it once'],
    [{}, 'src/y.sass and src/y.scss would be written over each other: give --to scss or --to sass'],
    [{ root: 'src/main.scss' }, 'src/main.scss: write sassw-convert src main.scss'],
    [{ root: 'none' }, 'none: it has no sheet that ends in .scss or .sass'],
  ];
  for (const [options, message] of wrong) await assert.rejects(converted(options), { name: 'WordsError', message });
  await assert.rejects(converted({ root: 'nope' }), { name: 'SurroundingsError', message: 'there is no folder nope' });
  assert.deepEqual(readdirSync('src').sort(), ['card.sass', 'main.scss', 'sub', 'y.sass', 'y.scss', 'z.css']);
});

test('how the command ends', async (t) => {
  const room = await roomWith(t, { 'src/main.scss': BRACES('a') });
  const run = async (...words) => {
    const { status, out, err } = await room.run(['node', COMMAND, ...words]);
    return [status, out, err];
  };
  assert.deepEqual(await run('--version'), [0, 'sassw-convert 1.1.0\n', '']);
  const [status, help] = await run('--help');
  assert.equal(status, 0);
  for (const it of ['SRC', 'SHEET', '--to', '--out', '--check', '--force', '--format', '--program']) assert.ok(help.includes(it), it);
  assert.deepEqual(await run('src', '--to', 'less'), [7, '', 'sassw-convert: --to less: write --to scss or --to sass\n']);
  assert.deepEqual(await run('src', '--chek'), [7, '', 'sassw-convert: --chek: there is no such option; did you mean --check?\n']);
  assert.deepEqual(await run('src', '--force=yes'), [7, '', 'sassw-convert: --force=yes: write --force, which takes no value\n']);
  assert.deepEqual(await run(), [7, '', 'sassw-convert: write which folder to convert: sassw-convert SRC\n']);
  assert.deepEqual(await run('nope'), [2, '', 'sassw-convert: there is no folder nope\n']);
  const gone = room.at('gone');
  assert.deepEqual(await run('src', '--program', gone), [2, '', `sassw-convert: the option for the program names ${gone}, which is no program that can be run\n`]);
  await room.write({ 'older': '#!/bin/sh\nexit 7\n', 'full': '#!/bin/sh\nexit 6\n' });
  await room.run(['chmod', '+x', 'older', 'full']);
  assert.deepEqual(await run('src', '--program', 'full'), [2, '', 'src/main.scss: the program sassw ended with status 6: there was not enough memory\n']);
  assert.deepEqual(await run('src', '--program', 'older'), [2, '', `sassw-convert: the program ${room.at('older')} has no command "convert": it is older than 4.2.0, or another program\n`]);
});
