// A session: requests in order, names that are checked, and a process that is started anew.
// @ts-check
import assert from 'node:assert/strict';
import { chmod } from 'node:fs/promises';
import test from 'node:test';
import { EditRefused, ProgramError, RequestError, Session, SessionEnded, readReply } from '../src/index.js';
import { Room, program, until } from './room.js';

/** Runs the program with a line that is broken on its way, so that it ends with status 2. */
const BREAKS = `exec "${program()}" "$@" < <(exec sed -u 's/^compile a.*/compile/')\n`;

/** The session of docs/PROTOCOL.md, whose replies are told there. */
test('the example of the protocol', async (t) => {
  const session = sessionOf(t);
  await session.put('lib.scss', '$n: red;');
  await session.put('main.scss', '@use "lib"; a { b: lib.$n; }');
  const first = await session.compile('main.scss');
  assert.equal(first.css?.toString(), 'a {\n  b: red;\n}\n');
  assert.deepEqual(first.ran, [{ path: 'lib.scss', cause: 'first' }, { path: 'main.scss', cause: 'first' }]);
  assert.deepEqual([first.fault, first.memory, first.messages], [null, false, []]);
  await session.put('lib.scss', '$n: blue;');
  const second = await session.compile('main.scss');
  assert.equal(second.css?.toString(), 'a {\n  b: blue;\n}\n');
  assert.deepEqual(second.ran, [{ path: 'lib.scss', cause: 'text' }, { path: 'main.scss', cause: 'variable' }]);
  await session.put('lib.scss', '$n: blue; $m: two;');
  const third = await session.compile('main.scss');
  assert.deepEqual(third.ran, [{ path: 'lib.scss', cause: 'text' }]);
});

test('requests that nobody waits for are answered in their order', async (t) => {
  const session = sessionOf(t);
  const all = [
    session.put('a.scss', 'a { b: c; }'),
    session.compile('a.scss'),
    session.remove('a.scss'),
    session.compile('a.scss'),
    session.put('x/a.scss', '@use "b";'),
    session.put('lib/_b.scss', 'd { e: f; }'),
    session.compile('x/a.scss', ['.', 'lib']),
  ];
  const [, compiled, , missing, , , loaded] = /** @type {any[]} */ (await Promise.all(all));
  assert.equal(compiled.css.toString(), 'a {\n  b: c;\n}\n');
  const start = { line: 1, column: 1 };
  assert.deepEqual(missing.fault, { code: 19, path: 'a.scss', span: { from: start, to: start } });
  assert.equal(loaded.css.toString(), 'd {\n  e: f;\n}\n');
});

test('messages come with their places and their text', async (t) => {
  const session = sessionOf(t);
  await session.put('a.scss', '@warn "é";\n@debug 1px;\n@error "no\\a more";');
  const { messages, fault } = await session.compile('a.scss');
  const at = (line, column) => ({ line, column });
  assert.deepEqual(messages, [
    { kind: 'warn', path: 'a.scss', span: { from: at(1, 1), to: at(1, 10) }, text: 'é' },
    { kind: 'debug', path: 'a.scss', span: { from: at(2, 1), to: at(2, 11) }, text: '1px' },
    { kind: 'fatal', path: 'a.scss', span: { from: at(3, 1), to: at(3, 19) }, text: 'no\nmore' },
  ]);
  assert.deepEqual(fault, { code: 25, path: 'a.scss', span: { from: at(3, 1), to: at(3, 19) } });
});

test('a name outside the grammar is not sent', async (t) => {
  const session = sessionOf(t);
  const wrong = [
    [() => session.put('a b.scss', ''), /"a b\.scss" has the character " "/],
    [() => session.put('größe.scss', ''), /has the character "ö"/],
    [() => session.put('../a.scss', ''), /a part that is empty, "\." or "\.\."/],
    [() => session.put('', ''), /is empty/],
    [() => session.remove('a//b.scss'), /a part that is empty/],
    [() => session.compile('/a.scss'), /a part that is empty/],
    [() => session.compile(`${'a'.repeat(256)}`), /has 256 bytes/],
    [() => session.compile('a.scss', ['lib\n']), /has the character "\\n"/],
    [() => session.compile('a.scss', Array.from({ length: 9 }, () => '.')), /9 load paths, and at most 8/],
    [() => session.compile('a.scss', Array.from({ length: 8 }, () => 'a'.repeat(200))), /a request has at most 1024/],
    [() => session.put('a.scss', Buffer.alloc(1_048_577)), /has 1048577 bytes/],
  ];
  for (const [ask, says] of wrong) {
    await assert.rejects(/** @type {() => Promise<any>} */ (ask), (/** @type {Error} */ error) => error instanceof RequestError && /** @type {RegExp} */ (says).test(error.message));
  }
  assert.equal(session.starts, 0);
});

test('edits that the program refuses', async (t) => {
  const session = sessionOf(t);
  const code = (wanted) => (error) => error instanceof EditRefused && error.code === wanted;
  await assert.rejects(session.remove('a.scss'), code(205));
  await assert.rejects(session.put('a.scss', Buffer.from([0x61, 0xff])), code(204));
});

test('a session holds 4,096 files', async (t) => {
  const session = sessionOf(t);
  if (await isSlow(session, 4096)) return t.skip('this program takes too long to put 4,096 files');
  const code = (wanted) => (error) => error instanceof EditRefused && error.code === wanted;
  const edits = Array.from({ length: 4096 }, (_, at) => session.put(`f${at}.scss`, ''));
  await Promise.all(edits);
  await assert.rejects(session.put('one-more.scss', ''), code(203));
  await session.put('f7.scss', 'a { b: c; }');
  assert.equal((await session.compile('f7.scss')).css?.toString(), 'a {\n  b: c;\n}\n');
});

test('a process that is killed is started anew, with the files that were held', async (t) => {
  const session = sessionOf(t);
  await session.put('lib.scss', '$n: red;');
  await session.put('gone.scss', '');
  await session.put('main.scss', '@use "lib"; a { b: lib.$n; }');
  await session.remove('gone.scss');
  await session.compile('main.scss');
  const before = session.processId;
  process.kill(/** @type {number} */ (before), 'SIGKILL');
  const reply = await session.compile('main.scss');
  assert.equal(reply.css?.toString(), 'a {\n  b: red;\n}\n');
  assert.equal(session.starts, 2);
  assert.notEqual(session.processId, before);
  assert.deepEqual(session.held.sort(), ['lib.scss', 'main.scss']);
  await assert.rejects(session.remove('gone.scss'), { code: 205 });
});

test('what was not answered when the process was killed is asked again', async (t) => {
  const session = sessionOf(t);
  await session.put('a.scss', 'a { b: c; }');
  const pid = /** @type {number} */ (session.processId);
  const asked = [session.put('b.scss', '@use "a"; d { e: f; }'), session.compile('b.scss'), session.compile('a.scss')];
  process.kill(pid, 'SIGKILL');
  const [, b, a] = /** @type {any[]} */ (await Promise.all(asked));
  assert.equal(b.css.toString(), 'a {\n  b: c;\n}\n\nd {\n  e: f;\n}\n');
  assert.equal(a.css.toString(), 'a {\n  b: c;\n}\n');
});

test('a process that ends by itself with status 2 is started anew', async (t) => {
  const room = await Room.of(t);
  // The first process gets one line that is broken on its way; what runs is the program both times.
  await room.write({
    'broken': `#!/bin/bash\nif [ -e "${room.at('once')}" ]; then exec "${program()}" "$@"; fi\n: > "${room.at('once')}"\n${BREAKS}`,
  });
  await chmod(room.at('broken'), 0o755);
  const session = sessionOf(t, room.at('broken'));
  await session.put('a.scss', 'a { b: c; }');
  assert.equal((await session.compile('a.scss')).css?.toString(), 'a {\n  b: c;\n}\n');
  assert.equal(session.starts, 2);
});

test('a process that ends at every start is given up, with how it ended', async (t) => {
  const room = await Room.of(t);
  await room.write({ 'broken': `#!/bin/bash\n${BREAKS}` });
  await chmod(room.at('broken'), 0o755);
  const session = sessionOf(t, room.at('broken'));
  await session.put('a.scss', 'a { b: c; }');
  const ended = (error) => error instanceof SessionEnded && error.status === 2 && /could not read a request/.test(error.message);
  await assert.rejects(session.compile('a.scss'), ended);
  assert.equal(session.starts, 3);
  // The others go on.
  await session.put('b.scss', 'd { e: f; }');
  assert.equal((await session.compile('b.scss')).css?.toString(), 'd {\n  e: f;\n}\n');
});

test('after a million requests the session goes on', async (t) => {
  const session = sessionOf(t);
  await session.put('a.scss', 'a { b: c; }');
  if (await isSlow(session, 1_000_000)) return t.skip('this program takes too long for a million requests');
  for (let asked = 1 + SAMPLE; asked < 1_000_000; asked += 9_999) await removals(session, Math.min(9_999, 1_000_000 - asked));
  assert.equal((await session.compile('a.scss')).css?.toString(), 'a {\n  b: c;\n}\n');
  assert.equal(session.starts, 2);
});

test('a program that is not there is told', async (t) => {
  const room = await Room.of(t);
  const session = sessionOf(t, room.at('no-such'));
  const told = (error) => error instanceof ProgramError && error.message.includes('no-such, which is no program that can be run');
  await assert.rejects(session.put('a.scss', ''), told);
  await assert.rejects(session.compile('a.scss'), told);
});

test('a program that is another one is told', async (t) => {
  const session = sessionOf(t, '/bin/echo');
  await assert.rejects(session.put('a.scss', ''), (/** @type {Error} */ error) => error instanceof ProgramError && /gave no reply of a session/.test(error.message));
});

test('close ends the process once all is answered', async () => {
  const session = new Session({ program: program() });
  const asked = session.put('a.scss', 'a { b: c; }').then(() => session.compile('a.scss'));
  await asked;
  const pid = /** @type {number} */ (session.processId);
  await session.close();
  await until('the end of the process', () => !isRunning(pid));
  await assert.rejects(session.put('b.scss', ''), RequestError);
});

test('a reply is read from as many bytes as have come', () => {
  const whole = Buffer.from('warn a.scss 1:1 1:9 3\nx\ny\nran a.scss first\ncss 4\na{}\n\nok\n');
  for (let size = 0; size < whole.length - 3; size += 1) assert.equal(readReply('compile', whole.subarray(0, size)).reply, null, String(size));
  const { reply, taken } = readReply('compile', whole);
  assert.equal(taken, whole.length - 3);
  assert.deepEqual(/** @type {any} */ (reply).messages[0].text, 'x\ny');
  assert.deepEqual(readReply('edit', whole.subarray(taken)).reply, { refused: 0 });
  assert.throws(() => readReply('compile', Buffer.from('css x\n')));
  assert.throws(() => readReply('edit', Buffer.from('well\n')));
});

/** A session that ends with the test. */
function sessionOf(t, wanted = program()) {
  const session = new Session({ program: wanted });
  t.after(() => session.close());
  return session;
}

/** How many requests tell how fast a program answers, and what all of a test may take, in milliseconds. */
const SAMPLE = 200;
const MOST_MILLISECONDS = 20_000;

/** Whether so many requests would take too long, as they do with a build that checks each use of memory. */
async function isSlow(session, count) {
  const start = performance.now();
  await removals(session, SAMPLE);
  return ((performance.now() - start) / SAMPLE) * count > MOST_MILLISECONDS;
}

/** So many requests, each of which is refused. */
function removals(session, count) {
  return Promise.all(Array.from({ length: count }, () => session.remove('x.scss').catch(() => {})));
}

/** Whether a process is there and not just waiting to be asked how it ended. */
function isRunning(pid) {
  try {
    process.kill(pid, 0);
    return true;
  } catch {
    return false;
  }
}
