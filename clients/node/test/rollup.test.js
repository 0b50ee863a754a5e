// The plugin in Debian's Rollup: builds, faults, and a watch.
// @ts-check
import assert from 'node:assert/strict';
import { copyFile, readdir, rm, symlink } from 'node:fs/promises';
import { join } from 'node:path';
import { test } from 'node:test';
import { pathToFileURL } from 'node:url';
import { Room, missing, repository } from './room.js';

const needs = { timeout: 120_000, skip: missing('rollup') };
const plugin = pathToFileURL(join(repository, 'clients/node/src/rollup.js')).href;
const rule = (name, value) => `${name} {\n  b: ${value};\n}\n`;

/** A configuration whose input is `src/main.js`; the assets have their own names. */
const configured = (options = '', others = '') => `import sassw from ${JSON.stringify(plugin)};
export default {
  input: 'src/main.js',
  output: { dir: 'out', assetFileNames: '[name][extname]' },
  plugins: [sassw({ ${options} }), ${others}],
};
`;
const site = {
  'rollup.config.mjs': configured(),
  'src/main.js': 'import css from "./main.scss";\nconsole.log(css);\n',
  'src/main.scss': '@use "lib";\na { b: lib.$n; }\n',
  'src/_lib.scss': '$n: one;\n',
};

test('a sheet that is imported gives its CSS as a text and as an asset', needs, async (context) => {
  const room = await Room.of(context);
  await room.write({ ...site, 'src/other.js': 'import "./lines.sass";\n', 'src/lines.sass': 'p\n  b: c\n' });
  await room.write({ 'src/main.js': `${site['src/main.js']}import "./other.js";\n` });
  const { status, err } = await room.run(['rollup', '-c']);
  assert.equal(status, 0, err);
  assert.deepEqual((await readdir(room.at('out'))).sort(), ['lines.css', 'main.css', 'main.js']);
  assert.equal(await room.read('out/main.css'), rule('a', 'one'));
  assert.equal(await room.read('out/lines.css'), rule('p', 'c'));
  assert.equal((await room.run(['node', '--input-type=module', '-e', 'import "./out/main.js"'])).out, `${rule('a', 'one')}\n`);
});

test('a sheet may be the input itself, and load what stands anywhere', needs, async (context) => {
  const room = await Room.of(context);
  const config = configured("loadPaths: ['elsewhere/lib'], asset: true").replace('src/main.js', 'src/main.scss');
  await room.write({ ...site, 'rollup.config.mjs': config, 'elsewhere/lib/_tokens.scss': '$n: far;\n', 'src/main.scss': '@use "tokens";\na { b: tokens.$n; }\n' });
  const { status, err } = await room.run(['rollup', '-c']);
  assert.equal(status, 0, err);
  assert.equal(await room.read('out/main.css'), rule('a', 'far'));
});

test('the recipe of a configuration builds, with a package of sheets', needs, async (context) => {
  const room = await Room.of(context);
  await room.write({ 'src/main.js': site['src/main.js'], 'src/main.scss': '@use "design/tokens";\na { b: tokens.$n; }\n' });
  await room.write({ 'node_modules/design/_tokens.scss': '$n: package;\n' });
  await symlink(join(repository, 'clients/node'), room.at('node_modules/sassw'));
  await copyFile(join(repository, 'recipes/rollup.config.mjs'), room.at('rollup.config.mjs'));
  const { status, err } = await room.run(['rollup', '-c']);
  assert.equal(status, 0, err);
  assert.equal(await room.read('public/css/main.css'), rule('a', 'package'));
});

test('a fault is an error with its place and its frame, and what a sheet says a warning', needs, async (context) => {
  const room = await Room.of(context);
  await room.write({ ...site, 'src/_lib.scss': '@warn "old";\n$n: one;\n.x { y: $m; }\n' });
  const { status, err } = await room.run(['rollup', '-c']);
  assert.equal(status, 1);
  assert.match(err, /old/);
  assert.match(err, /plugin sassw/);
  // Rollup's own columns count from 0: `$m` begins behind 8 characters.
  assert.match(err, /unknown variable `\$m` \(fault 11\)/);
  assert.match(err, /src\/_lib\.scss \(3:8\)/);
  assert.match(err, /3 \| \.x \{ y: \$m; \}\n +\| {9}\^\^\n/);
  assert.match(err, /loaded by src\/main\.scss:1:6 as "lib"/);
});

test('where CSS is given, other plugins take it as a file that ends in .css', needs, async (context) => {
  const room = await Room.of(context);
  const taker = `{ name: 'taker', transform(code, id) {
    if (id.endsWith('.css')) return { code: 'export default ' + JSON.stringify([id.slice(id.lastIndexOf('/') + 1), code]), map: null };
  } }`;
  await room.write({ ...site, 'rollup.config.mjs': configured("gives: 'css'", taker), 'src/box.module.scss': '.box { b: c; }\n' });
  await room.write({ 'src/main.js': 'import one from "./main.scss";\nimport box from "./box.module.scss";\nconsole.log(JSON.stringify([one, box]));\n' });
  const { status, err } = await room.run(['rollup', '-c']);
  assert.equal(status, 0, err);
  const { out } = await room.run(['node', '--input-type=module', '-e', 'import "./out/main.js"']);
  assert.deepEqual(JSON.parse(out), [['main.scss.css', rule('a', 'one')], ['box.module.scss.module.css', rule('.box', 'c')]]);
});

test('a watch builds again where a dependency changes, comes or goes, and behind a fault', needs, async (context) => {
  const room = await Room.of(context);
  await room.write({ ...site, 'src/theme/_index.scss': '$n: one;\n', 'src/_lib.scss': '@use "theme";\n$n: theme.$n;\n' });
  const watch = room.start(['rollup', '-c', '-w'], { stdio: ['pipe', 'pipe', 'pipe'] });
  const state = () => watch.out + watch.err;
  await room.holds('out/main.css', rule('a', 'one'), state);
  await settled(watch, 1);
  await room.write({ 'src/theme/_index.scss': '$n: two;\n' });
  await room.holds('out/main.css', rule('a', 'two'), state);
  await settled(watch, 2);
  await room.write({ 'src/_theme.scss': '$n: nearer;\n' });
  await room.holds('out/main.css', rule('a', 'nearer'), state);
  await settled(watch, 3);
  await rm(room.at('src/_theme.scss'));
  await room.holds('out/main.css', rule('a', 'two'), state);
  await settled(watch, 4);
  await room.replace('src/theme/_index.scss', '$n: $m;\n');
  await watch.says(/theme\/_index\.scss \(1:4\)/);
  await room.replace('src/theme/_index.scss', '$n: three;\n');
  await room.holds('out/main.css', rule('a', 'three'), state);
  watch.child.stdin.end();
  assert.equal(await watch.status, 0, state());
});

/** Waits until this many builds are done, so that the watch is set for what the last one loaded. */
async function settled(watch, builds) {
  for (let from = 0, done = 0; done < builds; done++) {
    from = await watch.says(/created /, from);
  }
}
