// @ts-check
/* Answers where a value comes from, link by link: each is the last write before a count, by searches of the library. The last instructions are searched first,
 * by this worker, since who wrote something last is mostly near; and then all, by the search pool. */
import { CHANGE, IS, STORE, WRITES } from "../formats/conditions.js";
import { INPUT_BYTES } from "../formats/layout.js";
import { Refused } from "../formats/refused.js";
import { AT, field, KEY, KINDS, MEMORY_BYTES, MOST_KEYS, REGISTERS_ASKED } from "../formats/states.js";
import { ALL_BYTES, ALL_FLAGS, bitsOf, isSum, LEDS_AT, origins, valueIn } from "./origins.js";
import { isWhole } from "./tasks.js";

const MOST_LINKS = 200;
// How many of the last instructions are searched first, and then next; and how many are recorded to find a sum: in all, by the first call, and by each later one.
const NEAR_STEPS = 1024, FAR_STEPS = 65536, SUM_STEPS = 131072, SUMS_FIRST = 256, SUMS_AT_ONCE = 4096;
const FLAGS_NUMBER = REGISTERS_ASKED.indexOf("flags");
/** The kinds of inputs that set the devices from which one loads.
 * @type {{ [device: string]: string }} */
const KINDS_OF = { switches: "switches", mouse: "mouse", serial: "serial", timer: "timer", keys: "key", disk: "disk" };

/** @typedef {import("./origins.js").Step} Step */
/** @typedef {import("./searchtask.js").SearchTask} SearchTask */

export class Writers {
  /** @param {import("../workers/past.js").History} history */
  constructor(history) {
    this.history = history;
  }

  /** Returns where a value before a count comes from, by at most `links` links. The news have what was found after each link. It is one of the searches: another
   * one ends it.
   * @param {Requests["why"][0]} given
   * @returns {Promise<Requests["why"][1]>} */
  why({ generation, request, before, links, ...about }) {
    if (!isWhole(before)) throw new Refused(`${before} is not a count`);
    if (!(isWhole(links) && links >= 1 && links <= MOST_LINKS)) throw new Refused(`want 1 to ${MOST_LINKS} links`);
    const part = partAsked(about), { finder } = this.history;
    return finder.begin({ generation, request, to: before }, async (search, end) => {
      const writes = new LastWrites(this.history, search), value = await writes.valueOf(part, end);
      return { values: await origins(writes, part, value, end, links, (values) => search.report("why", { values })) };
    });
  }
}

/** Returns the part that is asked about.
 * @param {About} about
 * @returns {ValuePart} */
function partAsked({ register, device, address = MEMORY_BYTES, bit, mask }) {
  if (register !== undefined && register in REGISTERS_ASKED) return register === FLAGS_NUMBER ? { flags: ALL_FLAGS } : { register: REGISTERS_ASKED[register] };
  if (device === "LEDs") return { address: LEDS_AT, mask: ALL_BYTES };
  if (register !== undefined || device !== undefined || !(isWhole(address) && address < MEMORY_BYTES)) throw new Refused("want a register, the LEDs, bytes of a word, or a dot");
  const word = address & ~3, byte = address & 3;
  if (bit !== undefined) return { address: word, bit: bit + 8 * byte };
  return { address: word, mask: mask === undefined ? 1 << byte : [0, 1, 2, 3].reduce((sum, at) => sum | (mask >>> 8 * at & 255 ? 1 << at : 0), 0) };
}

/** The last writes before a count, for one question. */
class LastWrites {
  /**
   * @param {import("../workers/past.js").History} history
   * @param {SearchTask} search
   */
  constructor(history, search) {
    this.history = history;
    this.search = search;
  }

  /** Brings the searcher to a count, and returns it.
   * @param {number} count */
  async machineAt(count) {
    const { history, search } = this, { searcher } = history;
    await history.reach(searcher, count, search.turn);
    return searcher;
  }

  /** Returns the value of a part before a count.
   * @param {ValuePart} part
   * @param {number} before */
  async valueOf(part, before) {
    const machine = await this.machineAt(before), { address, bit } = part;
    if (address === undefined) return valueIn(machine.state, part);
    if (address === LEDS_AT) return machine.part("LEDs");
    return bit === undefined ? bitsOf(machine.word(address / 4), part) : machine.word(address / 4) >>> bit & 1;
  }

  /** Returns the last instruction before a count that wrote a part; of a dot, that changed it.
   * @param {ValuePart} part
   * @param {number} before */
  async lastWrite(part, before) {
    return part.flags && !part.flags.includes("N") ? this.lastSum(part, before) : this.last(conditionsOf(part), before);
  }

  /** Returns the last instruction before a count at which one of some conditions holds.
   * @param {Condition[]} conditions
   * @param {number} before */
  async last(conditions, before) {
    const { history, search } = this, { inputs, library, finder } = history;
    let to = before;
    for (const steps of [NEAR_STEPS, FAR_STEPS]) {
      const first = Math.max(0, before - steps);
      if (first >= to) break;
      const { address } = await this.machineAt(first), given = inputs.bytes.subarray(INPUT_BYTES * inputs.from(first), INPUT_BYTES * inputs.from(to));
      const hit = library.find(address, given, to, conditions, true);
      if (hit) return this.stepAt(hit.at);
      to = first;
    }
    const hit = to ? await finder.findLast(0, to, conditions, search) : null;
    return hit && this.stepAt(hit.at);
  }

  /** Returns the instruction at a count.
   * @param {number} count
   * @returns {Promise<Step>} */
  async stepAt(count) {
    const records = (await this.machineAt(count)).record(this.history.inputs, 1), before = records.state(0);
    return { count, pc: field(before, AT.PC), word: records.word(0) ?? 0, before, after: records.state(1), inputs: records.taken(0) };
  }

  /** Returns the last addition or subtraction before a count, which no condition of the library says: it is sought among the last instructions. If there is none,
   * the last instruction that changed the flags C and V.
   * @param {ValuePart} part
   * @param {number} before */
  async lastSum(part, before) {
    const least = Math.max(0, before - SUM_STEPS);
    for (let to = before, steps = SUMS_FIRST; to > least; steps = SUMS_AT_ONCE) {
      const from = Math.max(least, to - steps), records = (await this.machineAt(from)).record(this.history.inputs, to - from);
      for (let at = records.length - 1; at >= 0; at--) if (isSum(records.word(at)) && !field(records.state(at + 1), AT.stop)) return this.stepAt(from + at);
      to = from;
    }
    const now = valueIn((await this.machineAt(before)).state, part), others = Array.from({ length: 16 }, (_, flags) => flags).filter((flags) => bitsOf(flags, part) !== now);
    return this.last(others.map((flags) => ({ kind: IS, from: FLAGS_NUMBER, least: flags, most: flags })), before);
  }

  /** Returns the input that set a device last, up to an instruction, or of keys the one whose key comes first; null if it is as at the beginning, or counts
   * instructions.
   * @param {string} device
   * @param {Step} step
   * @returns {Promise<Input | null>} */
  async inputOf(device, step) {
    const { inputs } = this.history, kind = KINDS_OF[device], taken = step.inputs.filter(([, name]) => name === kind);
    if (device === "keys") return this.keyOf(step, taken);
    if (device === "timer" && field(step.before, AT.rate)) return null;
    if (taken.length) return taken[taken.length - 1];
    let at = inputs.from(step.count) - 1;
    while (at >= 0 && KINDS[inputs.kind(at)] !== kind) at--;
    return at < 0 ? null : inputs.item(at);
  }

  /** Returns the input of the key that is first before an instruction: of as many keys as wait, the first of the last inputs that were not dropped.
   * @param {Step} step
   * @param {Input[]} taken */
  async keyOf(step, taken) {
    const { inputs } = this.history;
    let waiting = field(step.before, AT.keys);
    if (!waiting) return taken[0] ?? null;
    for (let at = inputs.from(step.count) - 1; at >= 0; at--) {
      if (inputs.kind(at) !== KEY) continue;
      const count = inputs.count(at), machine = await this.machineAt(count);
      let there = machine.part("keys");
      for (let other = at - 1; other >= 0 && inputs.count(other) === count; other--) there += inputs.kind(other) === KEY ? 1 : 0;
      if (there < MOST_KEYS && !--waiting) return inputs.item(at);
    }
    return null;
  }
}

/** Returns the conditions of which one holds where an instruction writes a part.
 * @param {ValuePart} part
 * @returns {Condition[]} */
function conditionsOf({ register, flags, address = 0, mask = 0, bit }) {
  if (register !== undefined || flags !== undefined) return [{ kind: WRITES, from: REGISTERS_ASKED.indexOf(register ?? "flags") }];
  if (bit !== undefined) return [{ kind: CHANGE, from: address, end: address + 4, value: (1 << bit) >>> 0 }];
  if (mask === ALL_BYTES) return [{ kind: STORE, from: address, end: address + 4 }];
  return [0, 1, 2, 3].filter((at) => mask >>> at & 1).map((at) => ({ kind: STORE, from: address + at, end: address + at + 1 }));
}
