// Explanations: the table of faults, the forms for editors and logs, and the command that explains.
// @ts-check
import assert from 'node:assert/strict';
import { linkSync } from 'node:fs';
import { readFile, symlink } from 'node:fs/promises';
import { join } from 'node:path';
import test from 'node:test';
import { FAULTS, Session, explain, faultOf, problemsOf } from '../src/index.js';
import { Room, program, repository } from './room.js';

const COMMAND = join(repository, 'clients/node/bin/sassw-explain.js');

/** The page of the repository, as lines. */
async function page(name) {
  return (await readFile(join(repository, 'docs', name), 'utf8')).split('\n');
}

test('the table of faults is that of the protocol', async () => {
  const rows = (await page('PROTOCOL.md')).map((line) => /^\| (\d+) \| (.*) \| (.*) \| (.*) \|$/.exec(line)).filter((it) => it !== null);
  const faults = rows.map((it) => ({ code: Number(it[1]), means: it[2], at: it[3], example: it[4].trim() })).filter((it) => it.code >= 10 && it.code < 100);
  assert.ok(faults.length >= 32);
  assert.deepEqual(FAULTS.map(({ code, means, at, example }) => ({ code, means, at, example })), faults);
});

test('each fault of the language has a row', async () => {
  const text = (await page('LANGUAGE.md')).join('\n');
  const limits = Array.from(text.matchAll(/^\| [^|]+ \| [\d,]+(?: bytes)? \| (\d+)[^|]*\|$/gm), (it) => Number(it[1]));
  const named = Array.from(text.matchAll(/\bfault (\d+)/g), (it) => Number(it[1]));
  const bracketed = Array.from(text.matchAll(/\((\d\d)(?: at [^)]*)?\)/g), (it) => Number(it[1]));
  assert.deepEqual([...new Set(limits)].sort(), [32, 33, 34]);
  const all = [...limits, ...named, ...bracketed].filter((it) => it >= 10 && it <= 50);
  assert.ok(all.length >= 15);
  for (const code of all) assert.notEqual(faultOf(code), null, `fault ${code}`);
});

/** The sheets that stand beside those of the examples, by the code. */
const BESIDE = {
  13: { 'lib.scss': '$a: 1;' },
  20: { 'lib.scss': '', '_lib.scss': '' },
  22: { 'lib.scss': '$a: 1 !default;' },
  23: { 'lib.scss': '$a: 1;' },
  24: { 'lib.scss': '', 'x/lib.scss': '' },
  37: { 'lib.scss': '$-p: 1;' },
  38: { 'lib.scss': '' },
};

test('each example of a fault comes to it, and its explanation has no gap', async (t) => {
  const session = new Session({ program: program() });
  t.after(() => session.close());
  for (const { code, example } of FAULTS) {
    const found = /^`(?!a\.scss`)([^`]+)`.*→ `error (.*)`$/.exec(example);
    if (!found || code === 33 || code === 42) continue;
    const beside = Object.entries({ 'a.scss': found[1], ...BESIDE[code] });
    await Promise.all(beside.map(([path, text]) => session.put(path, text)));
    const reply = await session.compile('a.scss');
    const { fault } = reply;
    const place = ({ line, column }) => `${line}:${column}`;
    assert.equal(fault && `${fault.code} ${fault.path} ${place(fault.span.from)} ${place(fault.span.to)}`, found[2], example);
    const text = explain(reply, new Map(beside));
    const [head, bar, line, under] = text.split('\n');
    assert.match(head, new RegExp(`^a\\.scss:${place(/** @type {any} */ (fault).span.from)}: .+ \\(fault ${code}\\)$`));
    assert.ok(!/undefined|null|\{it\}|NaN/.test(head), head);
    const { from, to } = /** @type {any} */ (fault).span;
    assert.deepEqual([bar, line], ['  |', `1 | ${found[1]}`]);
    assert.equal(under, `  | ${' '.repeat(from.column - 1)}${'^'.repeat(to.column - from.column)}`);
    await Promise.all(beside.map(([path]) => session.remove(path)));
  }
});

const at = (line, column) => ({ line, column });
const REPLY = {
  messages: [{ kind: /** @type {const} */ ('warn'), path: 'a.scss', span: { from: at(1, 1), to: at(1, 9) }, text: '50%,\nmore' }],
  ran: [],
  css: null,
  fault: { code: 11, path: 'a.scss', span: { from: at(2, 9), to: at(2, 11) } },
  memory: false,
};
// Each of the two signs in line 2 is one character and two UTF-16 units.
const FILES = new Map([['a.scss', '@warn $m;\na{b:"😀😀" $x}\n']]);

test('the form for terminals', () => {
  const frame = '  |\n2 | a{b:"😀😀" $x}\n';
  const sign = { ...REPLY, fault: { ...REPLY.fault, span: { from: at(2, 10), to: at(2, 12) } } };
  assert.equal(
    explain(sign, FILES),
    `a.scss:1:1: warning: 50%,\nmore\na.scss:2:10: unknown variable \`$x\` (fault 11)\n${frame}  |            ^^\n  = ${faultOf(11)?.help}\n\n`,
  );
  const coloured = explain(sign, FILES, { colour: true });
  assert.match(coloured, /^\u001b\[1ma\.scss:1:1\u001b\[0m: \u001b\[1;33mwarning/);
  // eslint-disable-next-line no-control-regex
  assert.equal(coloured.replace(/\u001b\[[0-9;]*m/g, ''), explain(sign, FILES));
});

test('the form for editors has columns in UTF-16 units', () => {
  const sign = { ...REPLY, fault: { ...REPLY.fault, span: { from: at(2, 10), to: at(2, 12) } } };
  const [warning, fault] = explain(sign, FILES, { format: 'json' }).trimEnd().split('\n').map((it) => JSON.parse(it));
  assert.deepEqual(warning, { kind: 'warning', code: null, path: 'a.scss', from: at(1, 1), to: at(1, 9), message: '50%,\nmore', notes: [] });
  const notes = [{ text: faultOf(11)?.help }];
  assert.deepEqual(fault, { kind: 'fault', code: 11, path: 'a.scss', from: at(2, 12), to: at(2, 14), message: 'unknown variable `$x`', notes });
});

test('the form for the logs of GitHub is quoted', () => {
  const sign = { ...REPLY, fault: { ...REPLY.fault, span: { from: at(2, 10), to: at(2, 12) } } };
  const [warning, fault] = explain(sign, FILES, { format: 'github' }).trimEnd().split('\n');
  assert.equal(warning, '::warning file=a.scss,line=1,col=1,endLine=1,endColumn=9,title=sassw::50%25,%0Amore');
  assert.equal(fault, `::error file=a.scss,line=2,col=12,endLine=2,endColumn=14,title=sassw fault 11::unknown variable \`$x\`%0A${faultOf(11)?.help}`);
});

test('want of memory is told', () => {
  const reply = { messages: [], ran: [], css: null, fault: null, memory: true };
  assert.equal(explain(reply, new Map()), 'there was not enough memory to compile\n\n');
  assert.deepEqual(problemsOf({ ...reply, memory: false, css: Buffer.alloc(0) }, new Map()), []);
});

test('sassw-explain says what a code means', async (t) => {
  const room = await Room.of(t);
  const { status, out, err } = await room.run(['node', COMMAND, '12', '20']);
  assert.deepEqual([status, err], [0, '']);
  const [first, second] = out.split('\n\n');
  assert.equal(
    first,
    'fault 12: an unknown namespace\n  stands at: it\n  example:   `a { b: m.$x; }` → `error 12 a.scss 1:8 1:9`\n  what to do: load the module with `@use` at the top of the sheet; its namespace is the last part of its URL, or what `as` says',
  );
  assert.match(second, /^fault 20: a URL that means several files\n/);
  const none = await room.run(['node', COMMAND, '9']);
  assert.deepEqual(none, { status: 7, out: '', err: 'sassw-explain: 9: write a code from 10 to 42\n' });
});

test('sassw-explain explains what once and poll wrote', async (t) => {
  const room = await Room.of(t);
  await room.write({ 'src/main.scss': '@use "b";\n', 'src/_b.scss': '@warn "x";\na { b: $c; }\n' });
  const explained = 'src/_b.scss:1:1: warning: x\nsrc/_b.scss:2:8: unknown variable `$c` (fault 11)\n';
  const chain = '  = loaded by src/main.scss:1:6 as "b"\n';
  for (const words of ['once src main.scss 2>&1', 'once src main.scss 2>said; cat said', 'poll src main.scss 2>&1']) {
    const input = words.startsWith('poll') ? 'printf "scan\\nend\\n" |' : '';
    const { status, out } = await room.run(['sh', '-c', `{ ${input} sassw ${words}; } | node "${COMMAND}" src main.scss`]);
    assert.equal(status, 1, out);
    assert.ok(out.startsWith(explained) || words.startsWith('poll'), out);
    assert.ok(out.includes(explained.split('\n')[1]) && out.includes(chain), out);
  }
  await room.write({ 'src/_b.scss': 'a { b: c; }\n' });
  const well = await room.run(['sh', '-c', `sassw once src main.scss | node "${COMMAND}" src main.scss`]);
  assert.deepEqual([well.status, well.out, well.err], [0, '', '']);
});

test('files that the program itself does not take are told with the reason', async (t) => {
  const room = await Room.of(t);
  await room.write({ 'out.scss': '', 'src/main.scss': '', 'src/mein teil.scss': '', 'real/_l.scss': '' });
  await symlink(room.at('real/_l.scss'), room.at('src/_l.scss'));
  const causes = [
    ['@use "../out";', /out\.scss is there, but the program reads src alone; sassw-build takes it/],
    ['@use "mein teil" as a;', /src\/mein teil\.scss is there, but its name has the character " ", .*; sassw-build takes it/],
    ['@use "l";', /src\/_l\.scss is there, but it is a link, and the program follows none; sassw-build takes it/],
  ];
  for (const [text, says] of causes) {
    await room.write({ 'src/main.scss': String(text) });
    const { status, out } = await room.run(['sh', '-c', `sassw once src main.scss | node "${COMMAND}" src main.scss`]);
    assert.equal(status, 1);
    assert.match(out, /** @type {RegExp} */ (says));
  }
});

test('a file beyond the first 4,096 is told', async (t) => {
  const room = await Room.of(t);
  await room.write({ 'src/a.scss': '@use "z";', 'src/z.scss': '' });
  const names = Array.from({ length: 4096 }, (_, at) => `src/b${at}.scss`);
  for (const it of names) linkSync(room.at('src/z.scss'), room.at(it));
  // What `once` writes of this folder, by docs/PROTOCOL.md: z.scss counts as not there. (It isn't run: that takes long.)
  const { status, out } = await room.run(['sh', '-c', `echo error 19 a.scss 1:6 1:9 | node "${COMMAND}" src a.scss`]);
  assert.equal(status, 1);
  assert.match(out, /src\/z\.scss is there, but 4,097 files come before it in byte order, and the program reads the first 4,096/);
});
