// `sassw-serve`: what it answers over HTTP, and what becomes of a page in a real Chromium.
// @ts-check
import assert from 'node:assert/strict';
import { mkdir, rename } from 'node:fs/promises';
import http from 'node:http';
import { join } from 'node:path';
import { test } from 'node:test';
import { Browser } from './browser.js';
import { Room, missing, repository } from './room.js';

const needs = (...programs) => ({ timeout: 150_000, skip: missing(...programs) });
const command = ['node', join(repository, 'clients/node/bin/sassw-serve.js')];
const site = {
  'src/main.scss': '@use "lib";\nh1 { color: lib.$ink; }\n',
  'src/_lib.scss': '$ink: #010203;\n',
  'src/pages/my home.scss': '.home { b: c; }\n',
  'pages/index.html': `<!doctype html><meta charset="utf-8"><title>A page</title>
<link rel="stylesheet" href="/main.css"><script src="/sassw.js"></script><h1>A page</h1><p>It has text.</p>\n`,
  'pages/.hidden.txt': 'hidden',
  'secret.txt': 'secret',
};

/** Starts the command; gives it with its port once it serves. */
async function serving(room, ...words) {
  const started = room.start([...command, 'src', ...words]);
  await started.writes('/sassw.js"></script>');
  return { started, port: Number(/ at http:\/\/127\.0\.0\.1:(\d+);/.exec(started.out)?.[1]) };
}

/** An answer: its status, its head and its text. */
function get(port, path, headers = {}, method = 'GET') {
  return new Promise((done, fail) => {
    const request = http.request({ host: '127.0.0.1', port, path, headers, method, agent: false }, (response) => {
      let text = '';
      response.setEncoding('utf8').on('data', (part) => (text += part));
      response.on('end', () => done({ status: response.statusCode, headers: response.headers, text }));
    });
    request.on('error', fail).end();
  });
}

test('CSS is served on the loopback address, and asked for again costs no bytes', needs(), async (context) => {
  const room = await Room.of(context);
  await room.write(site);
  const { started, port } = await serving(room, '--port', '0');
  const css = await get(port, '/main.css');
  assert.deepEqual([css.status, css.text, css.headers['content-type']], [200, 'h1 {\n  color: #010203;\n}\n', 'text/css; charset=utf-8']);
  const again = await get(port, '/main.css?v=2', { 'If-None-Match': css.headers.etag });
  assert.deepEqual([again.status, again.text], [304, '']);
  assert.equal((await get(port, '/pages/my%20home.css')).text, '.home {\n  b: c;\n}\n');
  const head = await get(port, '/main.css', {}, 'HEAD');
  assert.deepEqual([head.status, head.text, head.headers['content-length']], [200, '', String(css.text.length)]);
  assert.equal((await get(port, '/main.css', {}, 'POST')).status, 405);
  const none = await get(port, '/nowhere.css');
  assert.equal(none.status, 404);
  assert.match(none.text, /there are \/main\.css, \/pages\/my home\.css, \/sassw\.js/);
  assert.match((await get(port, '/')).text, /<a href="\/pages\/my%20home\.css">/);
  started.child.kill('SIGTERM');
  assert.equal(await started.status, 0);
});

test('only pages of this machine may read it, and those that are allowed', needs(), async (context) => {
  const room = await Room.of(context);
  await room.write(site);
  const { port } = await serving(room, 'main.scss', '--port', '0', '--allow', 'https://design.test');
  const letTo = async (origin) => (await get(port, '/main.css', { Origin: origin })).headers['access-control-allow-origin'];
  assert.equal(await letTo('http://localhost:3000'), 'http://localhost:3000');
  assert.equal(await letTo('https://design.test'), 'https://design.test');
  assert.equal(await letTo('https://elsewhere.test'), undefined);
  assert.equal(await letTo('null'), undefined);
  // A name of somebody else's that leads to this machine is of no use to them.
  assert.equal((await get(port, '/main.css', { Host: `elsewhere.test:${port}` })).status, 403);
  assert.equal((await get(port, '/main.css', { Host: `localhost:${port}` })).status, 200);
  assert.equal((await get(port, '/pages/my%20home.css')).status, 404, 'just the sheets that are named');
});

test('a folder of pages is served beside the CSS, and nothing above it', needs(), async (context) => {
  const room = await Room.of(context);
  await room.write(site);
  const { port } = await serving(room, '--port', '0', '--files', 'pages');
  const page = await get(port, '/');
  assert.deepEqual([page.status, page.text, page.headers['content-type']], [200, site['pages/index.html'], 'text/html; charset=utf-8']);
  for (const path of ['/../secret.txt', '/%2e%2e/secret.txt', '/..%2fsecret.txt', '/.hidden.txt', '/%zz', '/a%00b']) {
    assert.equal((await get(port, path)).status, 404, path);
  }
});

test('without a first CSS the fault is what is answered', needs(), async (context) => {
  const room = await Room.of(context);
  await room.write({ ...site, 'src/main.scss': 'h1 { color: $x; }\n' });
  const { port } = await serving(room, 'main.scss', '--port', '0');
  const { status, text } = await get(port, '/main.css');
  assert.equal(status, 503);
  assert.match(text, /^src\/main\.scss:1:13: unknown variable `\$x` \(fault 11\)\n/);
});

test('wrong words and what is broken around it are told', needs(), async (context) => {
  const room = await Room.of(context);
  await room.write(site);
  const run = (...words) => room.run([...command, ...words]);
  for (const words of [[], ['src', '--port', '70000'], ['src', '--prot', '1'], ['src', 'main.scss:x.css'], ['src', './main.scss']]) {
    assert.equal((await run(...words)).status, 7, words.join(' '));
  }
  assert.match((await run('src', './main.scss')).err, /\.\/main\.scss: write main\.scss/);
  assert.equal((await run('nowhere')).status, 2);
  const { port } = await serving(room, '--port', '0');
  const taken = await run('src', '--port', String(port));
  assert.equal(taken.status, 2);
  assert.equal(taken.err, `sassw-serve: port ${port} is taken: give another one by --port N\n`);
  const help = await run('--help');
  assert.deepEqual([help.status, help.err], [0, '']);
  assert.match(help.out, /--port N/);
});

const INK = 'getComputedStyle(document.querySelector("h1")).color';
const FAULT = 'document.querySelector("sassw-fault")?.shadowRoot.querySelector("section").innerText';

test('a page gets new CSS without a reload, and shows a fault until it is mended', needs('chromium'), async (context) => {
  const room = await Room.of(context);
  await room.write(site);
  const { started, port } = await serving(room, 'main.scss', '--port', '0', '--files', 'pages');
  const page = await (await Browser.of(room)).page(`http://127.0.0.1:${port}/`);
  assert.equal(await page.value(INK), 'rgb(1, 2, 3)');
  await page.value('window.stays = "here"');
  await room.write({ 'src/_lib.scss': '$ink: #040506;\n' });
  await page.until(`${INK} === "rgb(4, 5, 6)"`);
  await page.until('document.querySelectorAll("link").length === 1');

  await room.write({ 'src/_lib.scss': '$ink: #070809;\n// <img src=x onerror=stays=1>\n$other: $nik; /* <b>bold</b> */\n' });
  const shown = await page.until(FAULT);
  assert.match(shown, /src\/_lib\.scss:3:9: unknown variable `\$nik` \(fault 11\)/);
  assert.match(shown, /3 \| \$other: \$nik; \/\* <b>bold<\/b> \*\/\n +\| {9}\^{4}/);
  assert.match(shown, /loaded by src\/main\.scss:1:6/);
  assert.equal(await page.value(INK), 'rgb(4, 5, 6)', 'the last good CSS stays');
  assert.equal((await get(port, '/main.css')).text, 'h1 {\n  color: #040506;\n}\n');
  if (process.env.SCREENSHOTS) {
    await mkdir(process.env.SCREENSHOTS, { recursive: true });
    await page.screenshot(join(process.env.SCREENSHOTS, 'fault.png'));
  }
  const panel = JSON.parse(await page.value('JSON.stringify(document.querySelector("sassw-fault").getBoundingClientRect())'));
  assert.ok(panel.height > 60 && panel.width > 400, `the fault is to be seen: ${JSON.stringify(panel)}`);

  await room.replace('src/_lib.scss', '$ink: #070809;\n');
  await page.until(`${INK} === "rgb(7, 8, 9)"`);
  await page.until('!document.querySelector("sassw-fault")');
  await started.writes(/^\/main\.css fixed, /m);
  assert.equal(await page.value('window.stays'), 'here', 'it is the page that was loaded first');
});

test('a page on another port is kept up to date, and finds a server that was started again', needs('chromium'), async (context) => {
  const room = await Room.of(context);
  await room.write(site);
  const { started, port } = await serving(room, 'main.scss', '--port', '0');
  const html = `<!doctype html><link rel="stylesheet" href="http://127.0.0.1:${port}/main.css"><script src="http://127.0.0.1:${port}/sassw.js"></script><h1>A page</h1>`;
  const other = http.createServer((_, response) => response.writeHead(200, { 'Content-Type': 'text/html' }).end(html));
  context.after(() => other.close());
  await new Promise((done) => other.listen(0, '127.0.0.1', () => done(undefined)));
  const page = await (await Browser.of(room)).page(`http://localhost:${/** @type {any} */ (other.address()).port}/`);
  await page.value('window.stays = "here"');
  await room.write({ 'src/_lib.scss': '$ink: #040506;\n' });
  await page.until(`${INK} === "rgb(4, 5, 6)"`);
  started.child.kill('SIGTERM');
  assert.equal(await started.status, 0);
  await room.write({ 'src/_lib.scss': '$ink: #070809;\n' });
  await serving(room, 'main.scss', '--port', String(port));
  await page.until(`${INK} === "rgb(7, 8, 9)"`);
  assert.equal(await page.value('window.stays'), 'here');
});

test('a sheet that comes and a folder that goes are seen', needs(), async (context) => {
  const room = await Room.of(context);
  await room.write(site);
  const { started, port } = await serving(room, '--port', '0');
  await room.write({ 'src/new.scss': 'p { b: c; }\n' });
  await started.writes('/new.css ');
  assert.equal((await get(port, '/new.css')).text, 'p {\n  b: c;\n}\n');
  await rename(room.at('src'), room.at('away'));
  await started.says('src is gone');
  assert.equal((await get(port, '/new.css')).status, 200);
  await room.write({ 'away/new.scss': 'p { b: d; }\n' });
  const before = started.out.length;
  await rename(room.at('away'), room.at('src'));
  await started.says('src is back');
  await started.writes('/new.css ', before);
  assert.equal((await get(port, '/new.css')).text, 'p {\n  b: d;\n}\n');
});
