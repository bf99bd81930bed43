// @ts-check
/* Which lines of two sources are the same ones: by the lines that both have, in one order (a diff). Where as many lines were taken out as were put in, they are each
 * other's, too. */

import { INSTRUCTION, sizeOf } from "./statements.js";

// The most pairs of lines of two parts of texts that are compared one by one.
const MOST_PAIRS = 250000;
const BLANKS = /\s+/g;

/** Lines of two texts: from a line on and before another of the first, and of the second.
 * @typedef {[number, number, number, number]} Range */

/** Returns the lines of another text by those of one text that they are, both counted from 0.
 * @param {string[]} one
 * @param {string[]} other
 * @returns {Map<number, number>} */
export function matchedLines(one, other) {
  /** @type {Map<number, number>} */
  const matched = new Map();
  const pair = (/** @type {number} */ at, /** @type {number} */ to) => void matched.set(at, to);
  /** @type {Range[]} */
  const ranges = [[0, one.length, 0, other.length]];
  for (let range; (range = ranges.pop()); ) {
    let [from, end, start, stop] = range;
    while (from < end && start < stop && one[from] === other[start]) pair(from++, start++);
    while (from < end && start < stop && one[end - 1] === other[stop - 1]) pair(--end, --stop);
    const found = from < end && start < stop ? inBoth(one, other, [from, end, start, stop]) : [];
    if (!found.length && end - from === stop - start) for (let at = 0; from + at < end; at++) pair(from + at, start + at);
    if (!found.length) continue;
    let [before, after] = [from, start];
    for (const [at, to] of [...found, [end, stop]]) {
      ranges.push([before, at, after, to]);
      if (at < end) pair(at, to);
      [before, after] = [at + 1, to + 1];
    }
  }
  return matched;
}

/** Returns lines that two parts have in common, in one order: those that each has once, or else as many as there are.
 * @param {string[]} one
 * @param {string[]} other
 * @param {Range} range
 * @returns {[number, number][]} */
function inBoth(one, other, [from, end, start, stop]) {
  const once = placesOnce(one, from, end), others = placesOnce(other, start, stop);
  const unique = rising([...once].flatMap(([text, at]) => (at >= 0 && (others.get(text) ?? -1) >= 0 ? [/** @type {[number, number]} */ ([at, Number(others.get(text))])] : [])));
  return unique.length || (end - from) * (stop - start) > MOST_PAIRS ? unique : longestCommon(one, other, [from, end, start, stop]);
}

/** Returns the place of each text that is there once; of others -1.
 * @param {string[]} lines
 * @param {number} from
 * @param {number} end */
function placesOnce(lines, from, end) {
  /** @type {Map<string, number>} */
  const places = new Map();
  for (let at = from; at < end; at++) places.set(lines[at], places.has(lines[at]) ? -1 : at);
  return places;
}

/** Returns as many pairs as have rising second numbers; the first ones rise.
 * @param {[number, number][]} pairs
 * @returns {[number, number][]} */
function rising(pairs) {
  // The last pair of each chain that is the best one of its length, and for each pair the one before it.
  /** @type {number[]} */
  const ends = [], before = pairs.map(() => -1);
  pairs.forEach(([, to], number) => {
    let [low, high] = [0, ends.length];
    while (low < high) {
      const middle = (low + high) >> 1;
      if (pairs[ends[middle]][1] < to) low = middle + 1;
      else high = middle;
    }
    before[number] = low ? ends[low - 1] : -1;
    ends[low] = number;
  });
  const found = [];
  for (let number = ends.length ? ends[ends.length - 1] : -1; number >= 0; number = before[number]) found.push(pairs[number]);
  return found.reverse();
}

/** Returns the longest list of lines that two parts have in common.
 * @param {string[]} one
 * @param {string[]} other
 * @param {Range} range
 * @returns {[number, number][]} */
function longestCommon(one, other, [from, end, start, stop]) {
  const wide = stop - start + 1, lengths = new Uint16Array((end - from + 1) * wide);
  for (let at = end - from - 1; at >= 0; at--) {
    for (let to = wide - 2; to >= 0; to--) {
      const place = at * wide + to, isAlike = one[from + at] === other[start + to];
      lengths[place] = isAlike ? lengths[place + wide + 1] + 1 : Math.max(lengths[place + wide], lengths[place + 1]);
    }
  }
  /** @type {[number, number][]} */
  const found = [];
  for (let [at, to] = [0, 0]; at < end - from && to < wide - 1; ) {
    const place = at * wide + to;
    if (one[from + at] === other[start + to]) found.push([from + at++, start + to++]);
    else if (lengths[place + wide] >= lengths[place + 1]) at++;
    else to++;
  }
  return found;
}

/** Statements of two programs that are each other's: the byte address and the size in bytes in the one, the address in the other, and their lines, counted from 1
 * over all sources.
 * @typedef {{ here: number, size: number, to: number, line: number, other: number, isCode: boolean }} Matched */

/** Returns the statements of a program that fill memory, by rising addresses, with those of another that they are.
 * @param {import("./assembly.js").Assembly} one
 * @param {import("./assembly.js").Assembly} other
 * @returns {Matched[]} */
export function matchedStatements(one, other) {
  const texts = [one, other].map(({ places }) => places.map(({ text }) => text.trim().replace(BLANKS, " "))), matched = matchedLines(texts[0], texts[1]);
  const others = new Map(other.statements.map((statement) => [statement.line, statement]));
  const found = one.statements.flatMap((statement) => {
    const { line, here, does } = statement, twin = others.get((matched.get(line - 1) ?? -1) + 1), isCode = does === INSTRUCTION;
    const size = twin && isCode === (twin.does === INSTRUCTION) ? Math.min(sizeOf(statement), sizeOf(twin)) : 0;
    return twin && size ? [{ here, size, to: twin.here, line, other: twin.line, isCode }] : [];
  });
  return found.sort((before, after) => before.here - after.here);
}
