// Each recipe of `recipes/` as it stands there, over real folders.
// @ts-check
import assert from 'node:assert/strict';
import { renameSync } from 'node:fs';
import { chmod, copyFile, cp, mkdir, readFile, rename, rm, stat, symlink } from 'node:fs/promises';
import { dirname, join } from 'node:path';
import { test } from 'node:test';
import { Room, missing, program, repository } from './room.js';

const recipe = (name) => join(repository, 'recipes', name);
const rule = (name, value) => `${name} {\n  b: ${value};\n}\n`;
const site = {
  'src/main.scss': '@use "lib";\na { b: lib.$n; }\n',
  'src/_lib.scss': '$n: one;\n',
  'src/pages/home.scss': '@use "../lib";\n.home { b: lib.$n; }\n',
  'src/lines.sass': 'p\n  b: c\n',
};
const needs = (...programs) => ({ timeout: 120_000, skip: missing(...programs) });

test('the Makefile builds every entry, and again just where a sheet changed', needs('make'), async (context) => {
  const room = await Room.of(context);
  await room.write(site);
  const make = (...words) => room.run(['make', '-f', recipe('Makefile'), ...words]);
  assert.deepEqual(await make(), { status: 0, out: '', err: '' });
  assert.equal(await room.read('css/main.css'), rule('a', 'one'));
  assert.equal(await room.read('css/pages/home.css'), rule('.home', 'one'));
  assert.equal(await room.read('css/lines.css'), rule('p', 'c'));
  assert.equal(room.has('css/_lib.css'), false);
  const { mtimeMs } = await stat(room.at('css/main.css'));
  assert.equal((await make()).status, 0);
  assert.equal((await stat(room.at('css/main.css'))).mtimeMs, mtimeMs);
  await room.write({ 'src/_lib.scss': '$n: two;\n' });
  assert.equal((await make()).status, 0);
  assert.equal(await room.read('css/main.css'), rule('a', 'two'));
});

test('the Makefile shows a fault and keeps the last good CSS', needs('make'), async (context) => {
  const room = await Room.of(context);
  await room.write(site);
  const make = (...words) => room.run(['make', '-f', recipe('Makefile'), ...words]);
  await make();
  await room.write({ 'src/main.scss': 'a {\n  b: $x;\n}\n', 'src/_lib.scss': '$n: two;\n' });
  const { status, err } = await make('-k');
  assert.equal(status, 2);
  assert.match(err, /^src\/main\.scss:2:6: fault 11\n {2}b: \$x;\nmake: .*main\.css.* 1$/m);
  assert.equal(await room.read('css/main.css'), rule('a', 'one'));
  assert.equal(room.has('css/main.css.new'), false);
  assert.equal(await room.read('css/pages/home.css'), rule('.home', 'two'), 'the other entries are built');
  await rm(room.at('src/_lib.scss'));
  await room.write({ 'src/main.scss': site['src/main.scss'] });
  assert.match((await make()).err, /^src\/main\.scss:1:6: fault 19$/m, 'a sheet that went is seen');
});

test('the Makefile tells that the program or the folder is missing', needs('make'), async (context) => {
  const room = await Room.of(context);
  await room.write(site);
  const make = (...words) => room.run(['make', '-f', recipe('Makefile'), ...words]);
  assert.match((await make('SASSW=no-such-program')).err, /^sassw ended with status 127$/m);
  const { status, err } = await make('SRC=nowhere');
  assert.equal(status, 2);
  assert.match(err, /there is no folder nowhere/);
});

/** Puts the commands of the package on the room's PATH. */
async function withCommands(room) {
  for (const name of ['build', 'watch', 'explain', 'serve']) {
    await symlink(join(repository, `clients/node/bin/sassw-${name}.js`), room.at(`bin/sassw-${name}`));
  }
}

test('Makefile.deps builds just what loads a file that changed, also where one came or went', needs('make'), async (context) => {
  const room = await Room.of(context);
  await withCommands(room);
  await room.write({ ...site, 'src/alone.scss': 'p { b: c; }\n' });
  const make = (...words) => room.run(['make', '-j', '-f', recipe('Makefile.deps'), ...words]);
  const built = async (...words) => (await make(...words)).out.split('\n').map((line) => /^css\/(\S+) /.exec(line)?.[1]).filter(Boolean).sort();
  assert.deepEqual(await built(), ['alone.css', 'lines.css', 'main.css', 'pages/home.css']);
  assert.equal(await room.read('css/pages/home.css'), rule('.home', 'one'));
  assert.deepEqual(await built(), []);
  await room.replace('src/_lib.scss', '$n: two;\n');
  assert.deepEqual(await built(), ['main.css', 'pages/home.css']);
  assert.equal(await room.read('css/main.css'), rule('a', 'two'));
  await room.write({ 'src/pages/_lib.scss': '$n: near;\n' });
  assert.equal((await built()).length, 4, 'another sheet may be meant now');
  await rm(room.at('src/_lib.scss'));
  const gone = await make('-k');
  assert.equal(gone.status, 2);
  assert.match(gone.err, /^src\/main\.scss:1:6: .*\(fault 19\)$/m);
  assert.equal(await room.read('css/main.css'), rule('a', 'two'), 'the last good CSS stays');
  await room.write({ 'src/_lib.scss': '$n: $x;\n' });
  assert.match((await make('-k')).err, /^src\/_lib\.scss:1:5: unknown variable `\$x` \(fault 11\)$/m);
  await room.write({ 'src/_lib.scss': '$n: three;\n' });
  assert.equal((await make()).status, 0);
  assert.equal(await room.read('css/main.css'), rule('a', 'three'));
});

test('the parts of shard.sh are together the whole, each sheet in one of them', needs(), async (context) => {
  const room = await Room.of(context);
  await withCommands(room);
  await room.write({ ...site, 'src/with space.scss': 'p { b: c; }\n' });
  const part = (...words) => room.run([recipe('shard.sh'), ...words]);
  const names = [];
  for (const number of ['1', '2', '3']) {
    const { status, out, err } = await part(number, '3', 'src', `css${number}`);
    assert.equal(status, 0, err);
    names.push(out.split('\n').map((line) => /^css\d\/(.+?) [\d.]+ k?B,/.exec(line)?.[1]).filter(Boolean));
  }
  // In byte order: lines.sass, main.scss, pages/home.scss, with space.scss.
  assert.deepEqual(names, [['lines.css', 'with space.css'], ['main.css'], ['pages/home.css']]);
  assert.equal(await room.read('css3/pages/home.css'), rule('.home', 'one'));
  assert.match(await room.read('css2/part2.d'), /^css2\/main\.css: src\/main\.scss/);
  assert.equal((await part('9', '9', 'src', 'css9')).status, 0, 'a part without a sheet');
  await room.write({ 'src/_lib.scss': '$n: $x;\n' });
  assert.equal((await part('2', '3', 'src', 'css2')).status, 1);
  assert.equal((await part('2', '3')).status, 7);
});

test('of the files that the rules name alone, once gives the same CSS', needs(), async (context) => {
  const room = await Room.of(context);
  await withCommands(room);
  await room.write({ ...site, 'src/theme/_index.scss': '@forward "colors";\n', 'src/theme/_colors.scss': '$ink: navy;\n', 'src/_unused.scss': '$n: 0;\n' });
  await room.write({ 'src/main.scss': '@use "lib";\n@use "theme";\na { b: lib.$n; c: theme.$ink; }\n' });
  const { status, err } = await room.run(['sassw-build', 'src', 'main.scss', '--out', 'css', '--deps', 'css/main.d']);
  assert.equal(status, 0, err);
  const [, list] = /^css\/main\.css: ((?:.*\\\n)*.*)\n/.exec(await room.read('css/main.d')) ?? [];
  const files = list.split(/[\s\\]+/).sort();
  assert.deepEqual(files, ['src/_lib.scss', 'src/main.scss', 'src/theme/_colors.scss', 'src/theme/_index.scss']);
  for (const file of files) {
    await mkdir(dirname(room.at(`elsewhere/${file}`)), { recursive: true });
    await copyFile(room.at(file), room.at(`elsewhere/${file}`));
  }
  const once = await room.run(['sassw', 'once', 'elsewhere/src', 'main.scss'], { env: { PATH: room.at('bin') } });
  assert.deepEqual(once, { status: 0, out: 'a {\n  b: one;\n  c: navy;\n}\n', err: '' });
  assert.equal(await room.read('css/main.css'), once.out);
});

/** The steps of the workflow, as a shell runs them there. */
async function steps() {
  const lines = (await readFile(recipe('github.yml'), 'utf8')).split('\n');
  return lines.map((line) => /^ +run: (.+)$/.exec(line)?.[1]).filter((line) => line !== undefined);
}

test('the workflow passes, fails with a fault at its line, and with CSS that is old', needs('git', 'bash'), async (context) => {
  const room = await Room.of(context);
  await withCommands(room);
  await room.write({ ...site, '.gitignore': 'bin\n' });
  const run = await steps();
  assert.equal(run.length, 2);
  const git = (...words) => room.run(['git', '-c', 'user.name=a', '-c', 'user.email=a@b.test', ...words]);
  await git('init', '-q');
  assert.equal((await room.run(['bash', '-e', '-c', run[0]])).status, 0);
  await git('add', '.');
  await git('commit', '-q', '-m', 'all');
  assert.equal((await room.run(['bash', '-e', '-c', run[1]])).status, 0);
  await room.write({ 'src/main.scss': 'a {\n  b: $x;\n}\n', 'src/_lib.scss': '$n: two;\n' });
  const wrong = await room.run(['bash', '-e', '-c', run[0]]);
  assert.equal(wrong.status, 1);
  assert.match(wrong.err, /^::error file=src\/main\.scss,line=2,col=6,endLine=2,endColumn=8,title=sassw fault 11::unknown variable `\$x`/m);
  const old = await room.run(['bash', '-e', '-c', run[1]]);
  assert.equal(old.status, 1);
  assert.match(old.out, /css\/pages\/home\.css/);
  assert.doesNotMatch(old.out, /css\/main\.css/, 'that of the faulty sheet stays');
});

/** `watch.sh` over the site, once its first builds stand. */
async function watching(room, out, ...entries) {
  await room.write(site);
  const started = room.start([recipe('watch.sh'), 'src', out, ...entries]);
  for (const entry of entries) {
    await started.writes(`${out}/${entry.replace(/\.\w+$/, '.css')} `);
  }
  return started;
}

test('watch.sh builds several entries, shows a fault and says that it is fixed', needs('inotifywait'), async (context) => {
  const room = await Room.of(context);
  const watch = await watching(room, 'css', 'main.scss', 'pages/home.scss');
  assert.equal(await room.read('css/main.css'), rule('a', 'one'));
  assert.equal(await room.read('css/pages/home.css'), rule('.home', 'one'));
  await room.write({ 'src/main.scss': 'a { b: $x; }\n' });
  await watch.writes('src/main.scss:1:8: fault 11\na { b: $x; }\n');
  assert.equal(await room.read('css/main.css'), rule('a', 'one'));
  await room.replace('src/main.scss', site['src/main.scss']);
  await watch.writes('main.scss fixed\n');
  await room.write({ 'src/_lib.scss': '$n: two;\n' });
  await room.holds('css/main.css', rule('a', 'two'), () => watch.out + watch.err);
  await room.holds('css/pages/home.css', rule('.home', 'two'), () => watch.out + watch.err);
});

test('watch.sh makes few scans of many events, and none of its own output in SRC', needs('inotifywait'), async (context) => {
  const room = await Room.of(context);
  const watch = await watching(room, 'src', 'main.scss');
  const before = watch.out.length;
  for (let number = 1; number <= 300; number++) {
    await room.write({ [`away/m${number}.scss`]: `$n: ${number};\n`, [`away/lib${number}.scss`]: `$n: n${number};\n` });
  }
  for (let number = 1; number <= 300; number++) {
    renameSync(room.at(`away/m${number}.scss`), room.at(`src/m${number}.scss`));
    renameSync(room.at(`away/lib${number}.scss`), room.at('src/_lib.scss'));
  }
  await room.holds('src/main.css', rule('a', 'n300'), () => watch.out + watch.err);
  await room.write({ 'src/main.scss': 'a { b: $x; }\n' });
  await watch.writes('fault 11', before);
  // What stands between is one line a CSS that was put: 600 events came, and its own output may add nothing.
  const lines = watch.out.slice(before).split('\n').filter((line) => line.startsWith('src/main.css'));
  assert.ok(lines.length <= 30, watch.out);
  assert.equal(watch.err, '');
});

test('watch.sh tells that its folder went', needs('inotifywait'), async (context) => {
  const room = await Room.of(context);
  const watch = await watching(room, 'css', 'main.scss');
  await rename(room.at('src'), room.at('away'));
  assert.equal(await watch.status, 8);
  assert.match(watch.err, /^the poll of main\.scss ended with status 8: the folder src isn't there/m);
  assert.equal(await room.read('css/main.css'), rule('a', 'one'));
});

test('watch.sh tells that a poll was killed, without an event', needs('inotifywait'), async (context) => {
  const room = await Room.of(context);
  // In the place of the program stands a script that tells its number and becomes the program.
  await rm(room.at('bin/sassw'));
  await room.write({ 'bin/sassw': `#!/bin/sh\necho $$ > number\nexec '${program()}' "$@"\n` });
  await chmod(room.at('bin/sassw'), 0o755);
  const watch = await watching(room, 'css', 'main.scss');
  process.kill(Number(await room.read('number')), 'SIGKILL');
  assert.equal(await watch.status, 137);
  assert.match(watch.err, /the poll of main\.scss ended with status 137/);
});

test('watch.sh tells wrong words', needs(), async (context) => {
  const room = await Room.of(context);
  const { status, err } = await room.run([recipe('watch.sh'), 'src', 'css']);
  assert.equal(status, 7);
  assert.match(err, /^usage: /);
});

/** Builds both entries by Bazel in a folder of the room; all folders of it share one cache. How many actions ran there, and how many didn't. */
async function bazel(room, folder) {
  const own = ['--batch', `--output_user_root=${room.at('bazel')}`];
  const words = ['build', `--disk_cache=${room.at('cache')}`, '--noshow_progress', '--color=no', '//:all'];
  const { status, err } = await room.run(['bazel', ...own, ...words], { cwd: room.at(folder) });
  const counts = [...(/ process(?:es)?: (.*)\.$/m.exec(err)?.[1] ?? '').matchAll(/(\d+) ([a-z -]+)/g)];
  const sum = (wanted) => counts.reduce((all, [, count, what]) => all + (wanted(what) ? Number(count) : 0), 0);
  const isKept = (what) => what.endsWith('cache hit');
  return { status, err, kept: sum(isKept), ran: sum((what) => !isKept(what) && what !== 'internal') };
}

test('Bazel runs an entry again just where its files changed, and takes it from a cache', needs('bazel'), async (context) => {
  const room = await Room.of(context);
  for (const folder of ['here', 'there']) {
    await room.write(Object.fromEntries(Object.entries({ ...site, WORKSPACE: '' }).map(([path, text]) => [`${folder}/${path}`, text])));
    await cp(recipe('bazel'), room.at(folder), { recursive: true });
    await mkdir(room.at(`${folder}/bin`));
    await copyFile(program(), room.at(`${folder}/bin/sassw`));
  }
  const first = await bazel(room, 'here');
  assert.deepEqual([first.status, first.ran, first.kept], [0, 2, 0], first.err);
  assert.equal(await room.read('here/bazel-bin/main.css'), rule('a', 'one'));
  assert.equal(await room.read('here/bazel-bin/pages/home.css'), rule('.home', 'one'));
  const elsewhere = await bazel(room, 'there');
  assert.deepEqual([elsewhere.status, elsewhere.ran, elsewhere.kept], [0, 0, 2], elsewhere.err);
  assert.equal(await room.read('there/bazel-bin/main.css'), rule('a', 'one'));
  await room.write({ 'here/src/_other.scss': '$n: one;\n' });
  const beside = await bazel(room, 'here');
  assert.deepEqual([beside.status, beside.ran], [0, 1], 'just the entry that names the whole folder\n' + beside.err);
  await room.write({ 'here/src/main.scss': 'a {\n  b: $x;\n}\n' });
  const wrong = await bazel(room, 'here');
  assert.equal(wrong.status, 1);
  assert.match(wrong.err, /^src\/main\.scss:2:6: fault 11\n {2}b: \$x;$/m);
});
