// @ts-check
/* Finds the first count at which two runs with the same inputs differ, by the proved search. Two programs differ in some words. Until one of these
 * words is executed, read or written, the runs are the same but for them; so the search is for that. At each such instruction both runs do
 * one step, and are compared. */
import { COUNTER, LOAD, STORE } from "../formats/conditions.js";
import { copied, Emulator, Pace } from "./emulator.js";
import { INPUT_BYTES } from "../formats/layout.js";
import { equal, wordsOf } from "../formats/states.js";

// A search has 32 conditions at most, three for each range of words. A call takes about CALL_MS.
const MOST_RANGES = 10, CALL_MS = 10, FIRST_CALL = 200000;
/** A run that is compared: its state and its words.
 * @typedef {Memory} At */

/** Returns the words in which two memories differ, as ranges of word numbers, with what is near together in one range.
 * @param {Uint32Array} one
 * @param {Uint32Array} other
 * @returns {[number, number][]} */
function differingRanges(one, other) {
  /** @type {[number, number][]} */
  let ranges = [];
  for (let at = 0; at < one.length; at++) {
    if (one[at] === other[at]) continue;
    const last = ranges[ranges.length - 1];
    if (last && last[1] === at) last[1]++;
    else ranges.push([at, at + 1]);
  }
  const gaps = ranges.slice(1).map(([from], at) => from - ranges[at][1]).sort((a, b) => b - a), least = gaps[MOST_RANGES - 2] ?? 0;
  for (let gap = least; ranges.length > MOST_RANGES; gap++) ranges = joinedRanges(ranges, gap);
  return ranges;
}

/** @param {[number, number][]} ranges @param {number} gap */
function joinedRanges(ranges, gap) {
  /** @type {[number, number][]} */
  const found = [];
  for (const [from, end] of ranges) {
    const last = found[found.length - 1];
    if (last && from - last[1] <= gap) last[1] = end;
    else found.push([from, end]);
  }
  return found;
}

/** Returns the first count, up to one, at which two sessions differ in their states, in what they sent, or in memory beyond the words in which
 * their programs differ; or null, and up to which count they are the same, with both machines there.
 * @param {[Emulator, Emulator]} machines
 * @param {Session} one
 * @param {Session} other
 * @param {number} to
 * @param {() => Promise<void>} turn
 * @returns {Promise<{ at: number | null, upTo: number, both: [At, At] }>} */
export async function partingOf([machine, second], one, other, to, turn) {
  if (!equal(one.state, other.state)) return { at: 0, upTo: 0, both: [one, other] };
  const { inputs } = one, pace = new Pace(CALL_MS, FIRST_CALL);
  /** @type {[At, At]} */
  let both = [one, other];
  for (let count = 0; count < to; ) {
    const differing = differingRanges(wordsOf(both[0].words), wordsOf(both[1].words));
    if (!differing.length) return { at: null, upTo: to, both };
    const hit = await nextUse(machine, both[0], inputs, to, differing, pace, turn);
    if (hit === null) return { at: null, upTo: to, both };
    const before = copied(machine.at(machine.address)), patched = { state: before.state, words: before.words.slice() };
    for (const [from, end] of differing) patched.words.set(both[1].words.subarray(4 * from, 4 * end), 4 * from);
    const sent = [machine, second].map((emulator, at) => {
      emulator.put(emulator.address, at ? patched : before);
      return emulator.run(inputs, inputs.from(hit), hit + 1);
    });
    both = [copied(machine.at(machine.address)), copied(second.at(second.address))];
    if (!equal(both[0].state, both[1].state) || !equal(sent[0], sent[1]) || !isWithin(both, differing)) return { at: hit + 1, upTo: hit, both: [before, patched] };
    count = hit + 1;
  }
  return { at: null, upTo: to, both };
}

/** Whether two memories differ in some ranges of words alone.
 * @param {At[]} both
 * @param {[number, number][]} ranges */
function isWithin([one, other], ranges) {
  const now = differingRanges(wordsOf(one.words), wordsOf(other.words));
  return now.every(([from, end]) => ranges.some(([start, stop]) => start <= from && end <= stop));
}

/** Runs the machine from a state up to the next instruction that executes, reads or writes one of some words. Returns its count; or null, if there is
 * none up to a count.
 * @param {import("./emulator.js").Emulator} machine
 * @param {At} from
 * @param {Inputs} inputs
 * @param {number} to
 * @param {[number, number][]} ranges
 * @param {Pace} pace
 * @param {() => Promise<void>} turn */
async function nextUse(machine, from, inputs, to, ranges, pace, turn) {
  const conditions = ranges.flatMap(([first, end]) => [
    { kind: COUNTER, from: first, end }, { kind: LOAD, from: 4 * first, end: 4 * end }, { kind: STORE, from: 4 * first, end: 4 * end },
  ]);
  machine.put(machine.address, from);
  while (machine.count < to) {
    const { count } = machine, begun = performance.now(), end = Math.min(to, count + pace.steps), taken = inputs.from(count);
    const given = inputs.bytes.subarray(INPUT_BYTES * taken, INPUT_BYTES * inputs.from(end, taken)), hit = machine.library.find(machine.address, given, end, conditions, false);
    for (const goal = hit?.at ?? end; machine.count < goal; ) machine.run(inputs, inputs.from(machine.count), goal);
    pace.took(machine.count - count, performance.now() - begun);
    if (hit) return hit.at;
    await turn();
  }
  return null;
}
