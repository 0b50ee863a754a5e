// Builds: which sheets, where their CSS goes, what stays on a fault, what depends on what, and how they are shared out.
// @ts-check
import assert from 'node:assert/strict';
import { closeSync, lstatSync, openSync, readFileSync, readdirSync, symlinkSync } from 'node:fs';
import { join } from 'node:path';
import test from 'node:test';
import { build } from '../src/index.js';
import { makeName } from '../src/dependencies.js';
import { sizeOf } from '../src/output.js';
import { shareOut } from '../src/share.js';
import { Room, program, repository } from './room.js';

const COMMAND = join(repository, 'clients/node/bin/sassw-build.js');
const CSS = (name) => `${name} {\n  b: c;\n}\n`;
const SCSS = (name) => `${name} { b: c; }\n`;

/** A room that is the current folder, with files. */
async function roomWith(t, files) {
  const room = await Room.of(t);
  await room.write(files);
  process.chdir(room.folder);
  return room;
}

/** A build in this process: its status, and what it said and told. */
async function built(options) {
  const said = [];
  const told = [];
  const { status } = await build({ program: program(), say: (it) => said.push(it), tell: (it) => told.push(it), ...options });
  return { status, said, told: told.join('') };
}

test('all sheets of a folder are built, and the folders are mirrored', async (t) => {
  const room = await roomWith(t, {
    'src/main.scss': '@use "parts/a";\n',
    'src/parts/_a.scss': SCSS('a'),
    'src/pages/home.sass': 'h\n  b: c\n',
    'src/plain.css': SCSS('p'),
    'src/node_modules/x/x.scss': SCSS('x'),
    'src/.hidden/y.scss': SCSS('y'),
  });
  const { status, out, err } = await room.run(['node', COMMAND, 'src', '--out', 'dist']);
  assert.deepEqual([status, err], [0, '']);
  assert.equal(out.replace(/\d+ ms|\d+\.\d s/g, 'T'), 'dist/main.css 14 B, 2 modules, T\ndist/pages/home.css 14 B, 1 module, T\n');
  assert.deepEqual(readdirSync(room.at('dist'), { recursive: true }).sort(), ['main.css', 'pages', 'pages/home.css']);
  assert.equal(await room.read('dist/main.css'), CSS('a'));
  assert.equal(await room.read('dist/pages/home.css'), CSS('h'));
});

test('a sheet with a fault keeps its CSS, and the others are built', async (t) => {
  const room = await roomWith(t, { 'src/a.scss': 'a { b: $c; }\n', 'src/b.scss': SCSS('b'), 'src/a.css': 'old', 'src/b.css': 'old' });
  const { status, out, err } = await room.run(['node', COMMAND, 'src']);
  assert.equal(status, 1);
  assert.match(out, /^src\/b\.css 14 B, 1 module, \S+ m?s\n$/);
  assert.ok(err.startsWith('src/a.scss:1:8: unknown variable `$c` (fault 11)\n  |\n1 | a { b: $c; }\n  |        ^^\n'), err);
  assert.deepEqual([await room.read('src/a.css'), await room.read('src/b.css')], ['old', CSS('b')]);
});

test('faults and messages in the form that is asked for', async (t) => {
  await roomWith(t, { 'src/a.scss': '@warn "x";\na { b: $c; }\n' });
  const { told } = await built({ root: 'src', format: 'json' });
  const [warning, fault] = told.trimEnd().split('\n').map((it) => JSON.parse(it));
  assert.deepEqual([warning.kind, warning.message, fault.code, fault.path, fault.from], ['warning', 'x', 11, 'src/a.scss', { line: 2, column: 8 }]);
  assert.match((await built({ root: 'src', format: 'github' })).told, /^::warning file=src\/a\.scss,line=1,.*\n::error file=src\/a\.scss,line=2,col=8,/);
});

test('an entry has a file for its CSS of its own', async (t) => {
  const room = await roomWith(t, { 'src/a.scss': SCSS('a'), 'src/b.scss': SCSS('b'), 'src/_c.scss': SCSS('c') });
  const { status, said } = await built({ root: 'src', entries: ['a.scss:dist/x/one.css', '_c.scss'] });
  assert.equal(status, 0);
  assert.deepEqual(said.map((it) => it.split(' ')[0]), ['dist/x/one.css', 'src/_c.css']);
  assert.deepEqual([room.has('src/b.css'), await room.read('dist/x/one.css')], [false, CSS('a')]);
});

test('the CSS is put in place whole', async (t) => {
  const room = await roomWith(t, { 'src/a.scss': SCSS('a'), 'src/a.css': 'the old one', 'elsewhere/b.css': 'old', 'src/b.scss': SCSS('b') });
  symlinkSync('../elsewhere/b.css', room.at('src/b.css'));
  const reader = openSync(room.at('src/a.css'), 'r');
  t.after(() => closeSync(reader));
  assert.equal((await built({ root: 'src' })).status, 0);
  // Who has opened the file reads all of the old one; nothing is left beside it; a link stays one.
  assert.equal(readFileSync(reader, 'utf8'), 'the old one');
  assert.equal(await room.read('src/a.css'), CSS('a'));
  assert.deepEqual(readdirSync(room.at('src')).sort(), ['a.css', 'a.scss', 'b.css', 'b.scss']);
  assert.ok(lstatSync(room.at('src/b.css')).isSymbolicLink());
  assert.equal(await room.read('elsewhere/b.css'), CSS('b'));
});

test('what cannot be written is told, and the next sheet is built', async (t) => {
  const room = await roomWith(t, { 'src/a.scss': SCSS('a'), 'src/b.scss': SCSS('b'), 'file': '' });
  const { status, told } = await built({ root: 'src', entries: ['a.scss:file/a.css', 'b.scss'] });
  assert.equal(status, 2);
  assert.match(told, /^file\/a\.css: .*(ENOTDIR|EEXIST)/);
  assert.equal(await room.read('src/b.css'), CSS('b'));
});

test('the rules of make name what each CSS depends on', async (t) => {
  const room = await roomWith(t, {
    'src/main.scss': '@use "parts/a";\n@use "my #1" as one;\n// @use "c";\n',
    'src/parts/_a.scss': '@use "sass:math";\n@forward "../b";\n',
    'src/_b.scss': '',
    'src/_c.scss': '',
    'src/my #1.scss': '',
    'src/bad.scss': '@use "b";\na { b: $c; }\n',
  });
  const { status } = await built({ root: 'src', entries: ['main.scss', 'bad.scss'], out: 'dist', deps: 'dist/css.d' });
  assert.equal(status, 1);
  assert.equal(
    await room.read('dist/css.d'),
    `dist/main.css: src/main.scss \\
 src/parts/_a.scss \\
 src/my\\ \\#1.scss \\
 src/_b.scss

dist/bad.css: src/bad.scss \\
 src/_b.scss


src/main.scss:

src/parts/_a.scss:

src/my\\ \\#1.scss:

src/_b.scss:

src/bad.scss:
`,
  );
  assert.equal(makeName('a$b c\\ d%'), 'a$$b\\ c\\\\\\ d%');
  assert.equal(makeName('a%', true), 'a\\%');
});

test('sheets are shared out, those together that load the same', async (t) => {
  const file = (name, size) => [name, { bytes: Buffer.alloc(size) }];
  const reach = { a: [file('x', 100), file('1', 1)], b: [file('y', 100), file('2', 1)], c: [file('x', 100), file('3', 1)], d: [file('y', 100), file('4', 1)] };
  assert.deepEqual(shareOut(['a', 'b', 'c', 'd'], 2, (it) => /** @type {any} */ (new Map(reach[it]))), [['a', 'c'], ['b', 'd']]);
  assert.deepEqual(shareOut(['a'], 8, (it) => /** @type {any} */ (new Map(reach[it]))), [['a']]);
  const names = ['a', 'b', 'c', 'd', 'e'];
  const room = await roomWith(t, Object.fromEntries(names.map((it) => [`src/${it}.scss`, `@use "lib";\n${SCSS(it)}`])));
  await room.write({ 'src/_lib.scss': '', 'src/e.scss': 'a { b: $c; }' });
  const { status, said, told } = await built({ root: 'src', jobs: 3 });
  assert.equal(status, 1);
  assert.deepEqual(said.map((it) => it.split(' ')[0]).sort(), ['src/a.css', 'src/b.css', 'src/c.css', 'src/d.css']);
  assert.match(told, /^src\/e\.scss:1:8: /);
  for (const it of ['a', 'b', 'c', 'd']) assert.equal(await room.read(`src/${it}.css`), CSS(it));
});

test('wrong words are named, with what to write', async (t) => {
  const room = await roomWith(t, { 'src/main.scss': SCSS('a'), 'src/sub/x.scss': '', 'src/main.sass': '', 'none/_a.scss': '' });
  const wrong = [
    [{ entries: ['./main.scss'] }, './main.scss: write main.scss'],
    [{ entries: ['src/main.scss:a.css'] }, 'src/main.scss:a.css: write main.scss:a.css'],
    [{ entries: [room.at('src/sub/x.scss')] }, `${room.at('src/sub/x.scss')}: write sub/x.scss`],
    [{ entries: ['sub//x.scss'] }, 'sub//x.scss: write sub/x.scss'],
    [{ entries: ['main'] }, 'main: write main.scss'],
    [{ entries: ['x.less'] }, 'x.less: write the name of a sheet, which ends in .scss, .sass or .css'],
    [{ entries: ['../x.scss'] }, '../x.scss: write the name of a sheet in src'],
    [{ entries: ['main.scss:'] }, 'main.scss:: write main.scss, or the file for its CSS behind the colon'],
    [{ entries: ['main.scss:src/main.scss'] }, 'main.scss would be written over the sheet src/main.scss: write main.scss:OUT, or give --out DIR'],
    [{}, 'main.sass and main.scss would both be written to src/main.css: write main.scss:OUT for one of them'],
    [{ root: 'src/main.scss' }, 'src/main.scss: write sassw-build src main.scss'],
    [{ root: 'none' }, 'none: it has no sheet whose name doesn\'t begin with "_", so write which one to build'],
    [{ loadPaths: Array.from({ length: 9 }, () => 'src') }, '-I stands 9 times, and at most 8 load paths are taken'],
  ];
  for (const [options, message] of wrong) await assert.rejects(built({ root: 'src', .../** @type {any} */ (options) }), { name: 'WordsError', message });
  await assert.rejects(built({ root: 'nope' }), { name: 'SurroundingsError', message: 'there is no folder nope' });
});

test('how the command ends', async (t) => {
  const room = await roomWith(t, { 'src/main.scss': SCSS('a') });
  const run = async (...words) => {
    const { status, out, err } = await room.run(['node', COMMAND, ...words]);
    return [status, out, err];
  };
  assert.deepEqual(await run('--version'), [0, 'sassw-build 1.1.0\n', '']);
  const [status, help] = await run('--help');
  assert.equal(status, 0);
  for (const it of ['SRC', 'ENTRY[:OUT]', '--out', '-I', '--jobs', '--deps', '--format', '--program']) assert.ok(help.includes(it), it);
  assert.deepEqual(await run('src', '--oot', 'x'), [7, '', 'sassw-build: --oot: there is no such option; did you mean --out?\n']);
  assert.deepEqual(await run('src', '--jobs', 'x'), [7, '', 'sassw-build: --jobs x: write a number from 1 to 9999\n']);
  assert.deepEqual(await run(), [7, '', 'sassw-build: write which folder to build: sassw-build SRC\n']);
  assert.deepEqual(await run('nope'), [2, '', 'sassw-build: there is no folder nope\n']);
  const gone = room.at('gone');
  assert.deepEqual(await run('src', '--program', gone), [2, '', `sassw-build: the option for the program names ${gone}, which is no program that can be run\n`]);
});

test('counts of bytes are told by thousands', () => {
  const texts = [[0, '0 B'], [999, '999 B'], [1000, '1.0 kB'], [1540, '1.5 kB'], [9949, '9.9 kB'], [9950, '10 kB'], [622_400, '622 kB'], [999_499, '999 kB'], [999_500, '1.0 MB'], [16_777_216, '17 MB']];
  for (const [bytes, text] of texts) assert.equal(sizeOf(Number(bytes)), text);
});
