// What an explanation asks about files: those of a compile, as they are on the disk.

import path from 'node:path';
import { whyNoSheet } from './disk.js';
import { MOST_FILES, extensionOf, whyNoPath } from './names.js';
import { isIn } from './mounts.js';
import { either, nearest } from './nearby.js';
import { isOfFiles, walked } from './resolve.js';
import { lineStarts, placeAt } from './text.js';

/**
 * @typedef {import('./mounts.js').Graph} Graph
 * @typedef {import('./explain.js').Step} Step
 *
 * Where the files are.
 * @typedef {object} Home
 * @property {import('./mounts.js').Mounts} mounts
 * @property {{ root: string, loadPaths?: string[] }} options as a person typed them
 */

/** Answers what an explanation asks, by the paths of the disk. */
export class Surroundings {
  /**
   * @param {Home} home
   * @param {Graph} graph what the entry reaches
   * @param {Map<string, 'name' | 'many'>} refused files of it that the program didn't get
   */
  constructor(home, graph, refused) {
    this.mounts = home.mounts;
    this.graph = graph;
    this.refused = refused;
    const { root, loadPaths = [] } = home.options;
    this.typed = [root, ...loadPaths].map((it) => ({ typed: it, folder: path.resolve(it) }));
  }

  /**
   * @param {string} file
   * @returns {string | null}
   */
  text(file) {
    const sheet = this.graph.sheets.get(file) ?? this.mounts.disk.sheet(file);
    return sheet && !sheet.problem ? sheet.text : null;
  }

  /**
   * A path as a person reads it: behind the folder that was typed, else from the current folder.
   * @param {string} file
   * @returns {string}
   */
  shown(file) {
    const at = this.typed.find(({ folder }) => isIn(file, folder));
    if (!at) return path.relative('', file);
    return path.join(at.typed, path.relative(at.folder, file));
  }

  /**
   * The files that a URL means in a sheet.
   * @param {string} file
   * @param {string} url
   * @returns {string[]}
   */
  meant(file, url) {
    return this.mounts.resolve(url, this.#bases(file)).targets;
  }

  /**
   * @param {string} file
   * @returns {string[]}
   */
  #bases(file) {
    return [path.dirname(file), ...this.mounts.loadPaths];
  }

  /**
   * The loads that led from the entry to a file, by the shortest way.
   * @param {string} file
   * @returns {Step[]}
   */
  chain(file) {
    /** @type {Map<string, { from: string, edge: import('./mounts.js').Edge } | null>} */
    const ways = new Map([[this.graph.entry, null]]);
    for (const [at] of ways) {
      if (at === file) break;
      for (const edge of this.graph.edges.get(at) ?? []) {
        for (const it of edge.found.targets) if (!ways.has(it)) ways.set(it, { from: at, edge });
      }
    }
    /** @type {Step[]} */
    const steps = [];
    for (let way = ways.get(file); way; way = ways.get(way.from)) steps.unshift(this.#step(way.from, way.edge.load));
    return steps;
  }

  /**
   * @param {string} file
   * @param {import('./loads.js').Load} load
   * @returns {Step}
   */
  #step(file, load) {
    const text = this.text(file) ?? '';
    const starts = lineStarts(text);
    return { path: file, url: load.url, span: { from: placeAt(text, starts, load.from), to: placeAt(text, starts, load.to) } };
  }

  /**
   * Why a URL in a sheet means no file, or why an entry is none.
   * @param {string} file
   * @param {string | null} url null for the entry
   * @returns {string[]} sentences
   */
  missing(file, url) {
    if (url === null) return this.#entryMissing(file);
    if (!isOfFiles(url) || url.startsWith('~')) return [this.#strange(url)];
    const found = this.mounts.resolve(url, this.#bases(file));
    const broken = found.passed.map((it) => this.#problem(it)).filter((it) => it !== null);
    const refused = found.targets.filter((it) => this.refused.has(it)).map((it) => this.#refusal(it));
    const said = [...broken, ...refused];
    return said.length > 0 ? said : this.#notThere(file, url);
  }

  /**
   * Warnings of files that are there and can't be loaded, where a load means another file in their place.
   * @returns {import('./reply.js').Message[]}
   */
  passedOver() {
    /** @type {import('./reply.js').Message[]} */
    const messages = [];
    for (const [file, edges] of this.graph.edges) {
      for (const { load, found } of edges.filter((it) => it.found.targets.length > 0 && it.found.passed.length > 0)) {
        const { path: at, span } = this.#step(file, load);
        const problems = found.passed.map((it) => this.#problem(it)).filter((it) => it !== null);
        for (const it of problems) messages.push({ kind: 'warn', path: at, span, text: `${it}; it is passed over` });
      }
    }
    return messages;
  }

  /**
   * @param {string} url
   * @returns {string}
   */
  #strange(url) {
    if (url.startsWith('~')) return `\`~\` is of other tools: give the folder as a load path, as in -I node_modules, and write "${url.replace(/^~\/?/, '')}"`;
    if (/^[a-z][a-z0-9+.-]*:/i.test(url) || url.startsWith('//')) return 'addresses of the web mean no file: for an import of CSS write `@import url(..)`, else get the file';
    if (url.startsWith('/')) return 'a URL is looked for from the folder of its sheet and from the load paths, so it begins with no `/`';
    return 'a URL has one `/` between its parts';
  }

  /**
   * @param {string} file
   * @returns {string | null}
   */
  #problem(file) {
    const problem = this.mounts.disk.sheet(file)?.problem;
    return problem ? `${this.shown(file)} is there, but ${whyNoSheet(problem)}` : null;
  }

  /**
   * @param {string} file
   * @returns {string}
   */
  #refusal(file) {
    const name = this.shown(file);
    if (this.refused.get(file) === 'many') return `${name} is there, but beyond the ${MOST_FILES.toLocaleString('en')} files that one entry can reach`;
    return `${name} is there, but its name ${whyNoPath(this.mounts.name(file)) ?? 'is none of a sheet'}`;
  }

  /**
   * @param {string} file
   * @returns {string[]}
   */
  #entryMissing(file) {
    const problem = this.#problem(file);
    if (problem) return [problem];
    const name = this.shown(file);
    if (this.refused.has(file)) return [this.#refusal(file)];
    const kind = this.mounts.disk.kind(file);
    if (kind === 'folder') return [`${name} is a folder, and no sheet`];
    if (!extensionOf(file)) return [`${name} is no sheet: its name ends in none of .scss, .sass and .css`];
    if (kind === 'file') return [`${name} is there, but can't be loaded`];
    const folder = this.mounts.disk.list(path.dirname(file));
    if (!folder.there) return [`there is no folder ${this.shown(path.dirname(file))}`];
    const near = nearest(path.basename(file), [...folder.names.keys()].filter(extensionOf));
    const shown = near.map((it) => this.shown(path.join(path.dirname(file), it)));
    return [`there is no file ${name}`, ...(near.length > 0 ? [`did you mean ${either(shown)}?`] : [])];
  }

  /**
   * @param {string} file
   * @param {string} url
   * @returns {string[]}
   */
  #notThere(file, url) {
    const near = this.#near(file, url);
    const twice = this.#writtenTwice(file, url);
    if (twice) return [twice];
    const places = this.#bases(file).map((it) => this.shown(path.dirname(walked(it, url).place)) || '.');
    const looked = `there is no such file in ${either([...new Set(places)])}`;
    return [looked, ...(near.length > 0 ? [`did you mean ${either(near.map((it) => `"${it}"`))}?`] : [])];
  }

  /**
   * URLs that are nearly this one and mean a file.
   * @param {string} file
   * @param {string} url
   * @returns {string[]}
   */
  #near(file, url) {
    const parts = url.split('/');
    const last = parts.at(-1) ?? '';
    const found = new Set();
    for (const base of this.#bases(file)) {
      const { names } = this.mounts.disk.list(path.dirname(walked(base, url).place));
      const stems = [...names].filter(([name, kind]) => kind !== 'file' || extensionOf(name)).map(([name]) => stemOf(name));
      for (const it of nearest(stemOf(last), stems)) found.add([...parts.slice(0, -1), it].join('/'));
    }
    const all = [...found].filter((it) => this.meant(file, it).length > 0);
    return all.length > 0 ? all.slice(0, 3) : this.#nearFolders(file, parts);
  }

  /**
   * @param {string} file
   * @param {string[]} parts
   * @returns {string[]}
   */
  #nearFolders(file, parts) {
    if (parts.length < 2) return [];
    const found = new Set();
    for (const base of this.#bases(file)) {
      const folders = [...this.mounts.disk.list(base).names].filter(([, kind]) => kind !== 'file').map(([name]) => name);
      for (const it of nearest(parts[0], folders)) found.add([it, ...parts.slice(1)].join('/'));
    }
    return [...found].filter((it) => this.meant(file, it).length > 0).slice(0, 3);
  }

  /**
   * A URL that is written from another folder than its sheet's.
   * @param {string} file
   * @param {string} url
   * @returns {string | null}
   */
  #writtenTwice(file, url) {
    const folders = [this.mounts.root, path.dirname(this.mounts.root), path.resolve('')];
    for (const folder of folders) {
      const [target] = this.mounts.resolve(url, [folder]).targets;
      if (!target) continue;
      const better = urlTo(path.dirname(file), target, url);
      const from = this.shown(folder) || '.';
      if (folder !== this.mounts.root && isIn(target, this.mounts.root)) return `"${url}" is written from ${folder === path.resolve('') ? 'the current folder' : from}, but a URL is looked for from the folder of its sheet: write "${better}"`;
      return `there is ${this.shown(target)}, but a URL is looked for from the folder of its sheet: write "${better}", or give -I ${from}`;
    }
    return null;
  }
}

/**
 * The name of a sheet or folder as a URL has it.
 * @param {string} name
 * @returns {string}
 */
function stemOf(name) {
  const extension = extensionOf(name);
  return name.slice(0, name.length - extension.length).replace(/^_/, '');
}

/**
 * A URL for a file from a folder, spelt as another URL for it: with an extension or without.
 * @param {string} folder
 * @param {string} file
 * @param {string} like
 * @returns {string}
 */
function urlTo(folder, file, like) {
  const whole = path.relative(folder, file).split(path.sep).join('/');
  if (extensionOf(like)) return whole;
  const parts = whole.split('/');
  const last = stemOf(parts.pop() ?? '');
  return (last === 'index' && stemOf(like.split('/').at(-1) ?? '') !== 'index' ? parts : [...parts, last]).join('/');
}

