// Which file a URL means, by the rules of docs/LANGUAGE.md.

import path from 'node:path';
import { extensionOf } from './names.js';

/**
 * What a URL means.
 * @typedef {object} Resolution
 * @property {string[]} targets the files that it means: none, one, or several where it is ambiguous
 * @property {string[]} absent where a file would change that
 * @property {string[]} passed files that are there and can't be loaded
 * @property {string[]} lowest of each target's way, the folder that is nearest to the root of all
 *
 * @typedef {object} Look
 * @property {(file: string) => 'file' | 'folder' | null} kind
 * @property {(file: string) => boolean} loads whether a file that is there can be loaded
 */

/**
 * Whether a URL is looked for among files at all: `sass:` names built-in modules, and no part of a path is empty.
 * @param {string} url
 * @returns {boolean}
 */
export function isOfFiles(url) {
  return !url.startsWith('sass:') && !url.includes('\0') && url.split('/').every((it) => it !== '');
}

/**
 * The groups of files that a place without an extension or with one may mean: the first group with a file decides.
 * @param {string} place absolute
 * @returns {string[][]}
 */
export function groupsAt(place) {
  if (extensionOf(place)) return [both(place, '')];
  return [...sheetGroups(place), ...sheetGroups(path.join(place, 'index'))];
}

/**
 * @param {string} place
 * @returns {string[][]}
 */
function sheetGroups(place) {
  return [[...both(place, '.sass'), ...both(place, '.scss')], both(place, '.css')];
}

/**
 * @param {string} place
 * @param {string} extension
 * @returns {string[]}
 */
function both(place, extension) {
  const [folder, name] = [path.dirname(place), path.basename(place)];
  return [path.join(folder, name + extension), path.join(folder, `_${name}${extension}`)];
}

/**
 * The place that a URL leads to from a folder, and the folder nearest to the root on the way.
 * @param {string} base absolute
 * @param {string} url
 * @returns {{ place: string, lowest: string }}
 */
export function walked(base, url) {
  let [place, lowest] = [base, base];
  for (const it of url.split('/')) {
    if (it === '..') place = path.dirname(place);
    else if (it !== '.') place = path.join(place, it);
    if (place.length < lowest.length) lowest = place;
  }
  return { place, lowest };
}

/**
 * What a URL means: it is joined to each base in turn, and the first that gives a file decides.
 * @param {string} url
 * @param {string[]} bases absolute folders: that of the sheet, then the load paths
 * @param {Look} look
 * @returns {Resolution}
 */
export function resolve(url, bases, look) {
  /** @type {Resolution} */
  const found = { targets: [], absent: [], passed: [], lowest: [] };
  if (!isOfFiles(url)) return found;
  for (const base of bases) {
    const { place, lowest } = walked(base, url);
    found.targets = chosen(place, look, found);
    if (found.targets.length > 0) {
      found.lowest = [lowest];
      return found;
    }
  }
  return found;
}

/**
 * @param {string} place
 * @param {Look} look
 * @param {Resolution} found gets what is absent and what is passed over
 * @returns {string[]}
 */
function chosen(place, look, found) {
  const groups = groupsAt(place);
  const hasIndex = groups.length > 1;
  for (const [at, group] of groups.entries()) {
    if (hasIndex && at === 2 && look.kind(place) !== 'folder') {
      found.absent.push(place, ...groups[2], ...groups[3]);
      return [];
    }
    const there = group.filter((it) => look.kind(it) === 'file');
    const loadable = there.filter(look.loads);
    found.absent.push(...group.filter((it) => !there.includes(it)));
    found.passed.push(...there.filter((it) => !loadable.includes(it)));
    if (loadable.length > 0) return loadable;
  }
  return [];
}
