// A folder of one test, with the program on the PATH, and what tests do in it. It is removed when the test ends, and what still runs then
// is stopped.
// @ts-check
import { spawn } from 'node:child_process';
import { once } from 'node:events';
import { existsSync } from 'node:fs';
import { mkdir, mkdtemp, readFile, realpath, rename, rm, symlink, writeFile } from 'node:fs/promises';
import { tmpdir } from 'node:os';
import { delimiter, dirname, join, resolve } from 'node:path';
import { fileURLToPath } from 'node:url';

/** The folder of the repository. */
export const repository = resolve(dirname(fileURLToPath(import.meta.url)), '../../..');

/** What a loaded machine may take for one step, in milliseconds. */
const PATIENCE = 60_000;

/** The program: what SASSW names, else `sassw` of the PATH, else what a passed gate leaves. Throws where there is none. */
export function program() {
  const places = (process.env.PATH ?? '').split(delimiter).map((folder) => join(folder, 'sassw'));
  const all = [...(process.env.SASSW ? [process.env.SASSW] : places), join(repository, 'crates/sassw/out/sassw')];
  const found = all.find((place) => existsSync(place));
  if (!found) {
    throw new Error(`no sassw: neither SASSW nor the PATH nor ${all.at(-1)} has it`);
  }
  return resolve(found);
}

/** Why a test that needs these programs is left out, or false where all of them are on the PATH. */
export function missing(...programs) {
  const folders = (process.env.PATH ?? '').split(delimiter);
  const absent = programs.filter((name) => !folders.some((folder) => existsSync(join(folder, name))));
  return absent.length > 0 && `not installed: ${absent.join(', ')}`;
}

/** Waits until `holds` gives what counts as true, and gives that; throws with `what` and `state()` where it doesn't come in time. */
export async function until(what, holds, state = () => '', patience = PATIENCE) {
  const latest = Date.now() + patience;
  for (;;) {
    const value = await holds();
    if (value) {
      return value;
    }
    if (Date.now() > latest) {
      throw new Error(`it never came: ${what}\n${state()}`);
    }
    await new Promise((done) => setTimeout(done, 20));
  }
}

/** A program that was started: what it wrote so far, and how it ends. */
class Started {
  constructor(child) {
    this.child = child;
    this.out = '';
    this.err = '';
    child.stdout.setEncoding('utf8').on('data', (text) => (this.out += text));
    child.stderr.setEncoding('utf8').on('data', (text) => (this.err += text));
    this.status = once(child, 'close').then(([status, signal]) => status ?? signal);
  }

  /** Waits until its standard output has this text; gives the place behind it. */
  writes(text, from = 0) {
    return this.#has(() => this.out, text, from);
  }

  /** The same of its standard error. */
  says(text, from = 0) {
    return this.#has(() => this.err, text, from);
  }

  /** @param {() => string} all @param {string | RegExp} text @param {number} from */
  async #has(all, text, from) {
    const found = () => {
      const rest = all().slice(from);
      const at = typeof text === 'string' ? rest.indexOf(text) : rest.search(text);
      return at < 0 ? null : { place: from + at + 1 };
    };
    return (await until(`${this.child.spawnfile} tells ${text}`, found, () => this.out + this.err)).place;
  }
}

export class Room {
  /** Makes the folder; `test` is the context that Node's runner gives. */
  static async of(test) {
    const room = new Room(await realpath(await mkdtemp(join(tmpdir(), 'sassw-test-'))));
    test.after(() => room.close());
    await mkdir(room.at('bin'));
    await symlink(program(), room.at('bin/sassw'));
    return room;
  }

  constructor(folder) {
    this.folder = folder;
    this.running = [];
    this.environment = { ...process.env, PATH: `${join(folder, 'bin')}${delimiter}${process.env.PATH}`, SASSW: join(folder, 'bin/sassw') };
  }

  at(path) {
    return join(this.folder, path);
  }

  async write(files) {
    for (const [path, text] of Object.entries(files)) {
      await mkdir(dirname(this.at(path)), { recursive: true });
      await writeFile(this.at(path), text);
    }
  }

  /** Puts a file in place at once, as editors do that write beside and rename. */
  async replace(path, text) {
    await writeFile(this.at(`${path}.beside`), text);
    await rename(this.at(`${path}.beside`), this.at(path));
  }

  read(path) {
    return readFile(this.at(path), 'utf8');
  }

  has(path) {
    return existsSync(this.at(path));
  }

  /** Waits until a file has just this text. */
  holds(path, text, state) {
    return until(`${path} with ${JSON.stringify(text)}`, async () => this.has(path) && (await this.read(path)) === text, state);
  }

  start(words, options = {}) {
    const [name, ...rest] = words;
    const own = { cwd: this.folder, env: this.environment, stdio: ['ignore', 'pipe', 'pipe'], detached: true };
    const started = new Started(spawn(name, rest, /** @type {any} */ ({ ...own, ...options })));
    this.running.push(started.child);
    return started;
  }

  /** Runs a program to its end: its status and what it wrote. */
  async run(words, options = {}) {
    const started = this.start(words, options);
    const status = await started.status;
    return { status, out: started.out, err: started.err };
  }

  /** Stops what still runs, with all that it started, and removes the folder. */
  async close() {
    for (const child of this.running) {
      try {
        process.kill(-child.pid, 'SIGKILL');
      } catch {
        // It has ended.
      }
    }
    await rm(this.folder, { recursive: true, force: true, maxRetries: 10 });
  }
}
