// Names that are nearly another one.

/**
 * How many letters have to be changed, added, left out or swapped with the next to make one word another.
 * @param {string} one
 * @param {string} other
 * @returns {number}
 */
export function distance(one, other) {
  /** @type {number[]} */
  let before = [];
  let last = Array.from({ length: other.length + 1 }, (_, at) => at);
  for (let row = 1; row <= one.length; row += 1) {
    const now = [row];
    for (let at = 1; at <= other.length; at += 1) {
      const same = one[row - 1] === other[at - 1] ? 0 : 1;
      now[at] = Math.min(last[at] + 1, now[at - 1] + 1, last[at - 1] + same);
      const swapped = row > 1 && at > 1 && one[row - 1] === other[at - 2] && one[row - 2] === other[at - 1];
      if (swapped) now[at] = Math.min(now[at], before[at - 2] + 1);
    }
    [before, last] = [last, now];
  }
  return last[other.length];
}

/**
 * The words that are near to one, the nearest first, without itself; the case of letters counts for nothing.
 * @param {string} word
 * @param {Iterable<string>} words
 * @returns {string[]} at most three
 */
export function nearest(word, words) {
  const low = word.toLowerCase();
  const most = Math.max(1, Math.floor(word.length / 3));
  const all = [...new Set(words)].filter((it) => it !== word && Math.abs(it.length - word.length) <= most);
  const near = all.map((it) => ({ it, far: distance(low, it.toLowerCase()) })).filter(({ far }) => far <= most);
  return near.sort((a, b) => a.far - b.far || (a.it < b.it ? -1 : 1)).slice(0, 3).map(({ it }) => it);
}

/**
 * Words as a person lists them: `a, b or c`.
 * @param {string[]} words
 * @returns {string}
 */
export function either(words) {
  return words.length < 2 ? words.join('') : `${words.slice(0, -1).join(', ')} or ${words.at(-1)}`;
}
