// Files as they are: load paths anywhere, links, names of any script, and what changes between compiles.
// @ts-check
import assert from 'node:assert/strict';
import { linkSync, mkdirSync, rmSync, symlinkSync } from 'node:fs';
import test from 'node:test';
import { Compiler } from '../src/index.js';
import { Mounts } from '../src/mounts.js';
import { Surroundings } from '../src/surroundings.js';
import { Room, program } from './room.js';

/** A room that is the current folder, with files, and a compiler of its `src`. */
async function compilerOf(t, files, loadPaths = []) {
  const room = await Room.of(t);
  await room.write(files);
  process.chdir(room.folder);
  const compiler = new Compiler({ root: 'src', loadPaths, program: program() });
  t.after(() => compiler.close());
  return { room, compiler };
}

const rule = (name, value) => `${name} {\n  b: ${value};\n}\n`;
const place = ({ line, column }) => `${line}:${column}`;

test('load paths are anywhere, and are tried in their order', async (t) => {
  const { compiler } = await compilerOf(
    t,
    {
      'site/src/main.scss': '@use "one";\n@use "@scope/two";\n@use "../beside";\na { b: one.$x two.$x beside.$x; }\n',
      'site/beside.scss': '$x: 3;',
      'lib/_one.scss': '$x: 1;',
      'site/node_modules/one.scss': '$x: 0;',
      'site/node_modules/@scope/two/_index.scss': '$x: 2;',
      'src/x.scss': '',
    },
    [],
  );
  const site = new Compiler({ root: 'site/src', loadPaths: ['lib', 'site/node_modules'], program: program() });
  t.after(() => site.close());
  const compiled = await site.compile('main.scss');
  assert.equal(compiled.explanation, '');
  assert.equal(compiled.css?.toString(), rule('a', '1 2 3'));
  const at = (it) => `${process.cwd()}/${it}`;
  const reached = ['site/src/main.scss', 'lib/_one.scss', 'site/node_modules/@scope/two/_index.scss', 'site/beside.scss'];
  assert.deepEqual(compiled.dependencies, reached.map(at));
  assert.equal(compiled.modules, 4);
  // Places that would be found before what was found, and none behind it.
  for (const it of ['site/src/one.scss', 'site/src/_one.sass', 'lib/one.scss', 'site/src/@scope/two.css', 'site/beside.sass']) assert.ok(compiled.absent.includes(at(it)), it);
  for (const it of ['site/node_modules/_one.scss', 'site/beside.css']) assert.ok(!compiled.absent.includes(at(it)), it);
  await assert.doesNotReject(compiler.compile('x.scss'));
});

test('names of any script are told by their own', async (t) => {
  const { compiler } = await compilerOf(t, {
    'src/meine seite/main.scss': '@use "größe";\n@use "grüße";\n@use "../мой файл" as file;\n@use "gr@@e" as plain;\na { b: größe.$x grüße.$x file.$x plain.$x; }\n',
    'src/meine seite/_größe.scss': '$x: 1;',
    'src/meine seite/grüße.sass': '$x: 2\n',
    'src/meine seite/_gr@@e.scss': '$x: 4;',
    'src/мой файл/_index.scss': '$x: 3;\n@debug "日本";\n',
  });
  const compiled = await compiler.compile('meine seite/main.scss');
  assert.equal(compiled.explanation, 'src/мой файл/_index.scss:2:1: debug: 日本\n');
  assert.equal(compiled.css?.toString(), rule('a', '1 2 3 4'));
  assert.deepEqual(
    compiled.ran.map((it) => it.path.slice(process.cwd().length)),
    ['/src/meine seite/_größe.scss', '/src/meine seite/grüße.sass', '/src/мой файл/_index.scss', '/src/meine seite/_gr@@e.scss', '/src/meine seite/main.scss'],
  );
});

test('places behind a name of any script are those of the file', async (t) => {
  const { room, compiler } = await compilerOf(t, { 'src/main.scss': '@use "größe"; a { b: größe.$nein; }\n', 'src/_größe.scss': '$x: 1;' });
  const unknown = await compiler.compile('main.scss');
  assert.equal(unknown.explanation.split('\n')[0], 'src/main.scss:1:22: unknown member `größe.$nein` (fault 13)');
  assert.equal(place(/** @type {any} */ (unknown.fault).span.to), '1:33');
  // The namespace stands twice: at the second URL.
  await room.write({ 'src/main.scss': '@use "größe"; @use "b/größe"; a { b: c; }\n', 'src/b/größe.scss': '' });
  const { fault } = await compiler.compile('main.scss');
  assert.deepEqual(fault && [fault.code, place(fault.span.from), place(fault.span.to)], [24, '1:20', '1:29']);
  // A name that is none of a namespace has to be given one.
  await room.write({ 'src/main.scss': '@use "mein teil";\n', 'src/mein teil.scss': '' });
  const without = await compiler.compile('main.scss');
  assert.equal(without.explanation.split('\n')[0], 'src/main.scss:1:6: "mein teil" gives no name for a namespace (fault 10)');
});

test('links are followed', async (t) => {
  const { room, compiler } = await compilerOf(t, { 'src/main.scss': '@use "a";\n@use "dir/b";\nc { b: a.$x b.$x; }\n', 'store/a-1.scss': '$x: 1;', 'store/dir/_b.scss': '@use "in";\n$x: in.$x;\n', 'store/dir/_in.scss': '$x: 2;' });
  symlinkSync('../store/a-1.scss', room.at('src/_a.scss'));
  symlinkSync('../store/dir', room.at('src/dir'));
  symlinkSync('.', room.at('src/circle'));
  const compiled = await compiler.compile('main.scss');
  assert.equal(compiled.css?.toString(), rule('c', '1 2'));
  const real = ['src/main.scss', 'store/a-1.scss', 'src/_a.scss', 'store/dir/_b.scss', 'store/dir/_in.scss'].map((it) => room.at(it));
  assert.deepEqual([...compiled.dependencies].sort(), real.sort());
  rmSync(room.at('src/_a.scss'));
  await room.write({ 'store/a-2.scss': '$x: 7;' });
  symlinkSync('../store/a-2.scss', room.at('src/_a.scss'));
  assert.equal((await compiler.compile('main.scss')).css?.toString(), rule('c', '7 2'));
});

test('only what loads reach is put', async (t) => {
  const { room, compiler } = await compilerOf(t, { 'src/zz.scss': '@use "zzz";\n', 'src/_zzz.scss': 'a { b: c; }\n' });
  // More files than the program holds, all before the entry in byte order.
  for (let at = 0; at < 4200; at += 1) linkSync(room.at('src/_zzz.scss'), room.at(`src/a${at}.scss`));
  const compiled = await compiler.compile('zz.scss');
  assert.equal(compiled.css?.toString(), rule('a', 'c'));
  assert.equal(compiled.modules, 2);
});

test('a compile sees the files as they are now', async (t) => {
  const { room, compiler } = await compilerOf(t, { 'src/main.scss': '@use "lib";\na { b: lib.$x; }\n', 'src/_lib.scss': '$x: 1;', 'src/other.scss': '@use "lib";\nd { b: lib.$x; }\n' });
  const css = async (entry = 'main.scss') => {
    const { css: bytes, fault } = await compiler.compile(entry);
    return bytes?.toString() ?? fault?.code;
  };
  assert.equal(await css(), rule('a', '1'));
  assert.ok(compiler.isCurrent('main.scss'));
  await room.replace('src/_lib.scss', '$x: 2;');
  assert.ok(!compiler.isCurrent('main.scss'));
  assert.equal(await css(), rule('a', '2'));
  assert.equal(await css('other.scss'), rule('d', '2'));
  await room.write({ 'src/lib.scss': '' });
  assert.equal(await css(), 20);
  rmSync(room.at('src/_lib.scss'));
  await room.write({ 'src/lib.scss': '$x: 3;' });
  assert.equal(await css(), rule('a', '3'));
  // The folder stands behind the file, and plain CSS has no members.
  rmSync(room.at('src/lib.scss'));
  assert.equal(await css('other.scss'), 19);
  mkdirSync(room.at('src/lib'));
  await room.write({ 'src/lib/_index.scss': '$x: 4;' });
  assert.equal(await css(), rule('a', '4'));
  await room.write({ 'src/lib.css': '' });
  assert.equal(await css('other.scss'), 13);
});

test('with changes that are told, nothing else is looked at', async (t) => {
  const { room, compiler: looking } = await compilerOf(t, { 'src/main.scss': '@use "lib";\na { b: lib.$x; }\n', 'src/_lib.scss': '$x: 1;' });
  const folders = new Set();
  const compiler = new Compiler({ root: 'src', program: program(), told: true, beforeFolder: (it) => folders.add(it) });
  t.after(() => compiler.close());
  assert.equal((await compiler.compile('main.scss')).css?.toString(), rule('a', '1'));
  assert.deepEqual([...folders], [room.at('src')]);
  await room.write({ 'src/_lib.scss': '$x: 2;' });
  assert.ok(compiler.isCurrent('main.scss'));
  compiler.changed([room.at('src/_lib.scss')]);
  assert.ok(!compiler.isCurrent('main.scss'));
  assert.equal((await compiler.compile('main.scss')).css?.toString(), rule('a', '2'));
  assert.equal((await looking.compile('main.scss')).css?.toString(), rule('a', '2'));
});

test('a load that a text hides is found', async (t) => {
  // In a sheet in lines a comment ends with its lines, so the load behind it is one.
  const { compiler } = await compilerOf(t, { 'src/main.sass': '/* note\n@use "lib"\na\n  b: lib.$x\n', 'src/_lib.sass': '$x: 1\n' });
  const compiled = await compiler.compile('main.sass');
  assert.equal(compiled.css?.toString(), `/* note */\n\n${rule('a', '1')}`);
  assert.equal(compiled.modules, 2);
});

test('loads in comments and strings are none', async (t) => {
  const text = '// @use "x";\n/* @use "y"; */\n@use /* so */ "l\\69 b" /* and */ as l;\na { b: l.$x; c: "@use \\"z\\""; d: url(http://x/@use"w"); }\n';
  const { room, compiler } = await compilerOf(t, { 'src/main.scss': text, 'src/_lib.scss': '$x: 1;', 'src/x.scss': '', 'src/y.scss': '', 'src/z.scss': '', 'src/w.scss': '' });
  assert.deepEqual((await compiler.compile('main.scss')).dependencies, [room.at('src/main.scss'), room.at('src/_lib.scss')]);
});

test('a file that cannot be loaded is told where another one is taken in its place', async (t) => {
  const { room, compiler } = await compilerOf(t, { 'src/main.scss': 'a { b: c; }\n', 'src/lib.css': 'd { b: e; }\n' });
  await room.write({ 'src/main.scss': '@use "lib";\n', 'src/_lib.scss': /** @type {any} */ (Buffer.from([0x2f, 0x2f, 0xff])) });
  const compiled = await compiler.compile('main.scss');
  assert.equal(compiled.css?.toString(), rule('d', 'e'));
  const says = "src/_lib.scss is there, but isn't UTF-8: its byte 3, in line 1, begins no character; save it as UTF-8; it is passed over";
  assert.equal(compiled.explanation, `src/main.scss:1:6: warning: ${says}\n`);
});

test('names that are too long even so are told', async (t) => {
  const long = `${'a'.repeat(130)}/${'b'.repeat(130)}`;
  const { compiler } = await compilerOf(t, { [`src/${long}/main.scss`]: '', 'src/main.scss': `@use "${long}/main";\n` });
  const reason = `src/${long}/main.scss is there, but its name has 271 bytes, and a path has at most 255`;
  assert.equal((await compiler.compile(`${long}/main.scss`)).explanation, `src/${long}/main.scss:1:1: ${reason} (fault 19)\n\n`);
  const { fault, explanation } = await compiler.compile('main.scss');
  assert.equal(fault?.code, 19);
  assert.equal(explanation.split('\n')[4], `  = ${reason}`);
});

test('files beyond those that the program holds are told', async (t) => {
  const names = Array.from({ length: 4096 }, (_, at) => `f${at}`);
  const { room } = await compilerOf(t, { 'src/main.scss': names.map((it) => `@use "${it}";\n`).join(''), 'src/f0.scss': '' });
  for (const it of names.slice(1)) linkSync(room.at('src/f0.scss'), room.at(`src/${it}.scss`));
  const mounts = new Mounts({ root: room.at('src'), loadPaths: [] });
  const graph = mounts.graph(room.at('src/main.scss'));
  const { taken, refused } = mounts.taken(graph);
  // The entry is one of the files, so the last one that it loads is left.
  assert.deepEqual([taken.length, [...refused]], [4096, [[room.at('src/f4095.scss'), 'many']]]);
  const files = new Surroundings({ mounts, options: { root: 'src' } }, graph, refused);
  assert.deepEqual(files.missing(room.at('src/main.scss'), 'f4095'), ['src/f4095.scss is there, but beyond the 4,096 files that one entry can reach']);
});
