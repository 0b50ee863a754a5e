// How sheets are shared out over processes.

/**
 * @typedef {import('./disk.js').Sheet} Sheet
 * @template T
 * @typedef {{ tasks: T[], files: Set<string>, weight: number }} Lot
 */

// What it costs a process to get, read and run a file once, beside asking it again for each sheet that loads it.
const READ = 1;

/**
 * Shares tasks out so that those which load the same files come together, and no lot is much heavier than another. The
 * weight of a task is the bytes of all that it loads, whose kept runs each entry asks again; a file that is new to a lot
 * is read and run there once more.
 * @template T
 * @param {T[]} tasks
 * @param {number} count how many lots there may be
 * @param {(task: T) => Map<string, Sheet>} reach the files that a task loads
 * @returns {T[][]} lots that aren't empty, each in the order of the tasks
 */
export function shareOut(tasks, count, reach) {
  const weighed = tasks.map((task) => {
    const files = reach(task);
    return { task, files, weight: [...files.values()].reduce((sum, it) => sum + it.bytes.length, 0) };
  });
  /** @type {Lot<T>[]} */
  const lots = Array.from({ length: Math.min(count, tasks.length) }, () => ({ tasks: [], files: new Set(), weight: 0 }));
  for (const { task, files, weight } of [...weighed].sort((a, b) => b.weight - a.weight)) {
    const costs = lots.map((lot) => lot.weight + weight + READ * newBytes(files, lot.files));
    const best = costs.indexOf(Math.min(...costs));
    lots[best].tasks.push(task);
    lots[best].weight = costs[best];
    for (const it of files.keys()) lots[best].files.add(it);
  }
  const order = new Map(tasks.map((it, at) => [it, at]));
  const place = (/** @type {T} */ it) => order.get(it) ?? 0;
  return lots.filter((it) => it.tasks.length > 0).map((lot) => lot.tasks.sort((a, b) => place(a) - place(b)));
}

/**
 * @param {Map<string, Sheet>} files
 * @param {Set<string>} known
 * @returns {number}
 */
function newBytes(files, known) {
  let sum = 0;
  for (const [file, sheet] of files) if (!known.has(file)) sum += sheet.bytes.length;
  return sum;
}
