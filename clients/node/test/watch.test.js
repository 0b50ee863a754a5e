// Watching: what is built again and what isn't, how editors and git change files, and what goes and comes back.
// @ts-check
import assert from 'node:assert/strict';
import { closeSync, mkdirSync, openSync, readFileSync, readdirSync, renameSync, rmSync, statSync, symlinkSync, unlinkSync, writeFileSync, writeSync } from 'node:fs';
import { join } from 'node:path';
import test from 'node:test';
import { watch } from '../src/index.js';
import { Room, missing, program, repository, until } from './room.js';

const COMMAND = join(repository, 'clients/node/bin/sassw-watch.js');
const rule = (name, value) => `${name} {\n  b: ${value};\n}\n`;

/** A watch in this process, over files of a room that is the current folder. */
class Watching {
  static async of(t, files, options = {}) {
    const room = await Room.of(t);
    await room.write(files);
    process.chdir(room.folder);
    return Watching.in(t, room, options);
  }

  static async in(t, room, options = {}) {
    const watching = new Watching(room);
    const ending = new AbortController();
    const say = (line) => watching.lines.push(line);
    const tell = (text) => watching.lines.push(`! ${text.trimEnd()}`);
    watching.ended = watch({ root: 'src', program: program(), say, tell, signal: ending.signal, ...options });
    // What breaks it is told by the wait for its first line.
    watching.ended.catch((error) => watching.lines.push(String(error.stack)));
    watching.end = () => ending.abort();
    t.after(async () => {
      ending.abort();
      await watching.ended.catch(() => {});
    });
    await watching.line(/^watching src$/);
    watching.lines.length = 0;
    return watching;
  }

  constructor(room) {
    this.room = room;
    this.lines = [];
  }

  /** Waits for a line, and takes it and all before it out: these lines, with `T` for times. */
  async line(pattern) {
    const at = () => this.lines.findIndex((it) => pattern.test(it));
    await until(String(pattern), () => at() >= 0, () => this.lines.join('\n'));
    return this.lines.splice(0, at() + 1).map((it) => it.replace(/\d+ ms|\d+\.\d s/, 'T'));
  }

  css(name = 'main') {
    return readFileSync(this.room.at(`src/${name}.css`), 'utf8');
  }
}

const LIB = { 'src/main.scss': '@use "lib";\na { b: lib.$x; }\n', 'src/_lib.scss': '$x: 1;\n' };

test('an edit gives a build, with a line that says of what', async (t) => {
  const watching = await Watching.of(t, { ...LIB, 'src/_other.scss': '' }, { why: true });
  assert.equal(watching.css(), rule('a', '1'));
  writeFileSync('src/_lib.scss', '$x: 2;\n');
  const said = [
    'src/main.css 14 B, 2 of 2 modules, T (_lib.scss)',
    '  _lib.scss: its text changed',
    "  main.scss: another module's variable has another value",
  ];
  assert.deepEqual(await watching.line(/main\.scss: /), said);
  assert.equal(watching.css(), rule('a', '2'));
});

test('CSS that did not change is not written, and what no sheet loads gives no build', async (t) => {
  const watching = await Watching.of(t, LIB);
  const before = statSync('src/main.css', { bigint: true });
  writeFileSync('src/_unused.scss', 'a { b: c; }\n');
  writeFileSync('src/notes.txt', 'note');
  writeFileSync('src/_lib.scss', '$x: 1; // one\n');
  assert.deepEqual(await watching.line(/^src\/main/), ['src/main.css unchanged, 1 of 2 modules, T (_lib.scss)']);
  const after = statSync('src/main.css', { bigint: true });
  assert.deepEqual([after.ino, after.mtimeNs], [before.ino, before.mtimeNs]);
  // The CSS stands in the folder that is watched; it gave no build either, for this is the next line.
  writeFileSync('src/_lib.scss', '$x: 3;\n');
  assert.deepEqual(await watching.line(/^src\/main/), ['src/main.css 14 B, 2 of 2 modules, T (_lib.scss)']);
  writeFileSync('src/_lib.scss', '$x: 4;\n');
  assert.deepEqual(await watching.line(/^src\/main/), ['src/main.css 14 B, 2 of 2 modules, T (_lib.scss)']);
  assert.deepEqual(readdirSync('src').sort(), ['_lib.scss', '_unused.scss', 'main.css', 'main.scss', 'notes.txt']);
});

test('a fault leaves the CSS, and its end is told', async (t) => {
  const watching = await Watching.of(t, LIB);
  writeFileSync('src/_lib.scss', '$y: 2;\n');
  const [fault, line] = await watching.line(/^src\/main/);
  assert.equal(fault.split('\n')[0], '! src/main.scss:2:8: unknown member `lib.$x` (fault 13)');
  assert.equal(line, 'src/main.css stays, since there is fault 13, 2 of 2 modules, T (_lib.scss)');
  assert.equal(watching.css(), rule('a', '1'));
  writeFileSync('src/_lib.scss', '$x: 1;\n');
  assert.match((await watching.line(/^src\/main/))[0], /^src\/main\.css fixed, unchanged, \d of 2 modules, T \(_lib\.scss\)$/);
  rmSync('src/_lib.scss');
  assert.match((await watching.line(/^src\/main/))[0], /^! src\/main\.scss:1:6: no file is meant by "lib" \(fault 19\)\n/);
  // Another file at one of the places where it is looked for.
  mkdirSync('src/lib');
  writeFileSync('src/lib/_index.scss', '$x: 5;\n');
  await watching.line(/^src\/main\.css fixed, 14 B/);
  assert.equal(watching.css(), rule('a', '5'));
});

test('the ways in which editors save', async (t) => {
  const watching = await Watching.of(t, LIB);
  const built = 'src/main.css 14 B, 2 of 2 modules, T (_lib.scss)';
  const ways = [
    // Truncated, then written in two pieces.
    () => {
      const file = openSync('src/_lib.scss', 'w');
      writeSync(file, '$x:');
      writeSync(file, ' 2;\n');
      closeSync(file);
    },
    // Written beside, and renamed over it.
    () => {
      writeFileSync('src/_lib.scss.tmp', '$x: 3;\n');
      renameSync('src/_lib.scss.tmp', 'src/_lib.scss');
    },
    // A swap file, the old file moved to a backup, a new one in its place, the backup removed.
    () => {
      writeFileSync('src/._lib.scss.swp', 'swap');
      writeFileSync('src/4913', '');
      unlinkSync('src/4913');
      renameSync('src/_lib.scss', 'src/_lib.scss~');
      writeFileSync('src/_lib.scss', '$x: 4;\n');
      unlinkSync('src/_lib.scss~');
      unlinkSync('src/._lib.scss.swp');
    },
  ];
  for (const [at, save] of ways.entries()) {
    save();
    assert.deepEqual(await watching.line(/^src\/main/), [built]);
    assert.equal(watching.css(), rule('a', String(at + 2)));
  }
});

test('a checkout of 300 files gives one build', { skip: missing('git') }, async (t) => {
  const room = await Room.of(t);
  const git = async (...words) => {
    const { status, err } = await room.run(['git', '-c', 'user.name=a', '-c', 'user.email=a@b', ...words]);
    assert.equal(status, 0, err);
  };
  const names = Array.from({ length: 300 }, (_, at) => `m${at}`);
  const sheets = (value) => Object.fromEntries(names.map((it) => [`src/_${it}.scss`, `.${it} { b: ${value}; }\n`]));
  const css = (value) => names.map((it) => rule(`.${it}`, value)).join('\n');
  await room.write({ ...sheets('old'), 'src/main.scss': names.map((it) => `@use "${it}";\n`).join(''), 'src/_x.scss': '' });
  await git('init', '-q', '-b', 'one');
  await git('add', '.');
  await git('commit', '-qm', 'one');
  await git('checkout', '-q', '-b', 'two');
  await room.write(sheets('new'));
  await git('commit', '-qam', 'two');
  process.chdir(room.folder);
  const watching = await Watching.in(t, room);
  assert.equal(watching.css(), css('new'));
  await git('checkout', '-q', 'one');
  const all = await watching.line(/^src\/main/);
  assert.match(all.join('\n'), /^src\/main\.css \d+\.\d kB, 300 of 301 modules, T \(_m\d+\.scss, _m\d+\.scss, _m\d+\.scss and 297 more\)$/);
  assert.equal(watching.css(), css('old'));
  // Nothing came behind it: the next build is that of the next edit.
  writeFileSync('src/_m7.scss', '.m7 { b: last; }\n');
  const next = await watching.line(/^src\/main/);
  assert.match(next.join('\n'), /^src\/main\.css \d+\.\d kB, 1 of 301 modules, T \(_m7\.scss\)$/);
});

test('a folder that went is waited for', async (t) => {
  const watching = await Watching.of(t, { ...LIB, 'src/parts/_a.scss': '$y: 1;' });
  renameSync('src', 'away');
  assert.deepEqual(await watching.line(/waiting/), ['! src is gone: waiting until it is back']);
  writeFileSync('away/_lib.scss', '$x: 9;\n');
  renameSync('away', 'src');
  const [back, line] = await watching.line(/^src\/main/);
  assert.equal(back, '! src is back');
  assert.equal(line, 'src/main.css 14 B, 2 of 2 modules, T (_lib.scss)');
  // It is watched again.
  writeFileSync('src/_lib.scss', '$x: 8;\n');
  assert.deepEqual(await watching.line(/^src\/main/), ['src/main.css 14 B, 2 of 2 modules, T (_lib.scss)']);
  assert.equal(watching.css(), rule('a', '8'));
});

test('a folder of modules that is renamed, and one that comes later', async (t) => {
  const watching = await Watching.of(t, { 'src/main.scss': '@use "parts/x";\na { b: x.$v; }\n', 'src/parts/_x.scss': '$v: 1;' }, { loadPaths: ['.'] });
  renameSync('src/parts', 'src/old');
  const [fault, line] = await watching.line(/^src\/main/);
  assert.match(fault, /^! src\/main\.scss:1:6: no file is meant by "parts\/x" \(fault 19\)\n/);
  assert.match(line, /^src\/main\.css stays, since there is fault 19, /);
  // At the load path, where no such folder was.
  await watching.room.write({ 'parts/_x.scss': '$v: 2;' });
  await watching.line(/^src\/main\.css fixed, 14 B/);
  assert.equal(watching.css(), rule('a', '2'));
  // The folder of the sheet comes before the load path.
  renameSync('src/old', 'src/parts');
  await watching.line(/^src\/main\.css 14 B/);
  assert.equal(watching.css(), rule('a', '1'));
});

test('a file behind a link', async (t) => {
  const room = await Room.of(t);
  await room.write({ 'store/a.scss': '$x: 1;\n', 'src/main.scss': '@use "lib";\na { b: lib.$x; }\n' });
  symlinkSync('../store/a.scss', room.at('src/_lib.scss'));
  process.chdir(room.folder);
  const watching = await Watching.in(t, room);
  writeFileSync('store/a.scss', '$x: 2;\n');
  assert.deepEqual(await watching.line(/^src\/main/), ['src/main.css 14 B, 2 of 2 modules, T (_lib.scss)']);
  writeFileSync('store/b.scss', '$x: 3;\n');
  symlinkSync('../store/b.scss', 'src/other');
  renameSync('src/other', 'src/_lib.scss');
  await watching.line(/^src\/main/);
  assert.equal(watching.css(), rule('a', '3'));
});

test('sheets that come and go', async (t) => {
  const watching = await Watching.of(t, LIB, { out: 'dist' });
  mkdirSync('src/pages');
  writeFileSync('src/pages/new.scss', 'c { b: d; }\n');
  assert.deepEqual(await watching.line(/^dist\/pages/), ['dist/pages/new.css 14 B, 1 of 1 module, T']);
  rmSync('src/pages/new.scss');
  assert.deepEqual(await watching.line(/gone/), ['pages/new.scss is gone: its CSS stays']);
  assert.equal(readFileSync('dist/pages/new.css', 'utf8'), rule('c', 'd'));
});

test('ten entries over 400 modules: those that load what changed', async (t) => {
  const names = Array.from({ length: 400 }, (_, at) => `m${at}`);
  const entries = Array.from({ length: 10 }, (_, at) => `e${at}`);
  const own = (at) => names.slice(40 * at, 40 * at + 40);
  const files = Object.fromEntries(names.map((it) => [`src/m/_${it}.scss`, `.${it} { b: c; }\n`]));
  for (const [at, it] of entries.entries()) files[`src/${it}.scss`] = own(at).map((name) => `@use "m/${name}";\n`).join('');
  files['src/e3.scss'] += '@use "m/m0";\n';
  const watching = await Watching.of(t, files, { jobs: 2 });
  assert.equal(readdirSync('src').filter((it) => it.endsWith('.css')).length, 10);
  writeFileSync('src/m/_m0.scss', '.m0 { b: d; }\n');
  const both = [...(await watching.line(/^src\/e/)), ...(await watching.line(/^src\/e/))].sort();
  assert.deepEqual(both.map((it) => it.replace(/ \d+ B/, '')), ['src/e0.css, 1 of 41 modules, T (m/_m0.scss)', 'src/e3.css, 1 of 42 modules, T (m/_m0.scss)']);
  writeFileSync('src/m/_m399.scss', '.m399 { b: d; }\n');
  const last = await watching.line(/^src\/e/);
  assert.deepEqual(last.map((it) => it.replace(/ \d+ B/, '')), ['src/e9.css, 1 of 41 modules, T (m/_m399.scss)']);
});

test('the program is killed in between', { skip: process.platform !== 'linux' && 'it looks for the process in /proc' }, async (t) => {
  const watching = await Watching.of(t, LIB);
  for (const value of ['2', '3']) {
    const [process_] = childrenOf(process.pid);
    process.kill(process_, 'SIGKILL');
    writeFileSync('src/_lib.scss', `$x: ${value};\n`);
    assert.deepEqual(await watching.line(/^src\/main/), ['src/main.css 14 B, 2 of 2 modules, T (_lib.scss)']);
    assert.equal(watching.css(), rule('a', value));
  }
});

test('the command watches until it is interrupted', async (t) => {
  const room = await Room.of(t);
  await room.write(LIB);
  const started = room.start(['node', COMMAND, 'src', '--out', 'dist', '--deps', 'css.d']);
  await started.writes('watching src\n');
  assert.equal(await room.read('dist/main.css'), rule('a', '1'));
  assert.match(await room.read('css.d'), /^dist\/main\.css: src\/main\.scss \\\n src\/_lib\.scss\n/);
  await room.replace('src/_lib.scss', '$x: 2;\n');
  await room.holds('dist/main.css', rule('a', '2'));
  process.kill(started.child.pid, 'SIGINT');
  assert.equal(await started.status, 0);
  const wrong = await room.run(['node', COMMAND, 'src/main.scss']);
  assert.deepEqual(wrong, { status: 7, out: '', err: 'sassw-watch: src/main.scss: write sassw-watch src main.scss\n' });
});

/** The processes that a process started and that are running. */
function childrenOf(pid) {
  const numbers = readdirSync('/proc').filter((it) => /^\d+$/.test(it));
  return numbers.filter((it) => stateOf(it)?.parent === pid && stateOf(it)?.state !== 'Z').map(Number);
}

/** The parent of a process and its state, or null where it has ended. */
function stateOf(number) {
  try {
    const [state, parent] = readFileSync(`/proc/${number}/stat`, 'utf8').replace(/^.*\) /s, '').split(' ');
    return { state, parent: Number(parent) };
  } catch {
    return null;
  }
}
