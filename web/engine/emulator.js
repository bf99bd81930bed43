// @ts-check
/* A machine that the library advances: its state and its 262,144 words in the module's memory. The live machine (machine.js) is one, and
 * those that look into the past (past.js) are others. */
import { INPUT_BYTES } from "../formats/layout.js";
import { isEnd } from "../formats/instructions.js";
import { ADVANCE_REFUSALS, DONE, NO_ROOM } from "./library.js";
import { Refused } from "../formats/refused.js";
import { AT, countOf, DISPLAY_AT, DISPLAY_BYTES, field, MEMORY_BYTES, STATE_BYTES, WORDS } from "../formats/states.js";

const INPUTS_AT_ONCE = 4096, SENT_ROOM = 1 << 20;
// The factor below which two durations of calls are about the same.
const ALIKE = 1.5;

export class Emulator {
  /** @param {Library} library */
  constructor(library) {
    this.library = library;
    // The words are next to the state.
    this.address = library.take(STATE_BYTES + MEMORY_BYTES);
    this.list = library.take(INPUT_BYTES * INPUTS_AT_ONCE);
    this.sentAddress = library.take(SENT_ROOM);
    this.sentCount = library.take(8);
  }

  get state() {
    return this.library.bytes(this.address, STATE_BYTES);
  }

  get words() {
    return this.library.bytes(this.address + STATE_BYTES, MEMORY_BYTES);
  }

  get dots() {
    return this.words.subarray(DISPLAY_AT, DISPLAY_AT + DISPLAY_BYTES);
  }

  get count() {
    return countOf(this.state);
  }

  /** @param {keyof typeof AT} name */
  part(name) {
    return field(this.state, AT[name]);
  }

  /** Whether the machine is where its program ends. */
  get isAtEnd() {
    const pc = this.part("PC");
    return pc < WORDS && isEnd(this.word(pc), pc, this.part("flags"));
  }

  /** Returns the state and the words at an address.
   * @param {number} address
   * @returns {Memory} */
  at(address) {
    return { state: this.library.bytes(address, STATE_BYTES), words: this.library.bytes(address + STATE_BYTES, MEMORY_BYTES) };
  }

  /** Puts a state and its words at an address.
   * @param {number} address
   * @param {Memory} memory */
  put(address, { state, words }) {
    this.library.bytes(address, STATE_BYTES).set(state);
    this.library.bytes(address + STATE_BYTES, MEMORY_BYTES).set(words);
  }

  /** Runs up to a count, or to an earlier one if the machine sends more than there is room for. Of the inputs those before a number
   * are taken already. Returns the bytes that the machine sent.
   * @param {Inputs} inputs
   * @param {number} taken
   * @param {number} to
   * @param {number} room
   * @returns {Bytes} */
  run(inputs, taken, to, room = SENT_ROOM) {
    const code = this.call(inputs.bytes.subarray(INPUT_BYTES * taken, INPUT_BYTES * inputs.from(to, taken)), to, room);
    if (code === NO_ROOM && to - this.count > 1) return this.run(inputs, taken, this.count + Math.floor((to - this.count) / 2), room);
    if (code !== DONE) throw new Refused(ADVANCE_REFUSALS[code]);
    return this.library.bytes(this.sentAddress, Number(this.library.view.getBigUint64(this.sentCount, true))).slice();
  }

  /**
   * @param {Bytes} inputs
   * @param {number} to
   * @param {number} room
   */
  call(inputs, to, room) {
    const many = inputs.length / INPUT_BYTES, list = many > INPUTS_AT_ONCE ? this.library.hold(inputs) : this.list;
    this.library.bytes(list, inputs.length).set(inputs);
    const given = [this.address, this.address + STATE_BYTES, WORDS, list, many, to, this.sentAddress, room, this.sentCount];
    const code = this.library.exports.galluspa_advance(...given.map(BigInt)) & 255;
    if (list !== this.list) this.library.leave(list);
    return code;
  }

  /** Returns the words around PC, each with its address.
   * @param {number} before
   * @param {number} after
   * @returns {[number, number][]} */
  listing(before, after) {
    const pc = this.part("PC"), from = Math.max(0, pc - before), to = Math.min(WORDS, pc + after);
    return Array.from({ length: Math.max(0, to - from) }, (_, at) => [from + at, this.word(from + at)]);
  }

  /** Returns a word of memory, by its number.
   * @param {number} number */
  word(number) {
    return this.library.view.getUint32(this.address + STATE_BYTES + 4 * number, true);
  }
}

/**
 * @param {Memory} memory
 * @returns {Memory}
 */
export function copied({ state, words }) {
  return { state: state.slice(), words: words.slice() };
}

/** How many steps a call does in some ms, by what the calls before it took. A call also takes time that does not come of its steps: on a machine that has much else
 * to do that alone may be more than the call has, and then fewer steps would make nothing shorter. */
export class Pace {
  // The steps of a call with which others are compared that do twice as many or half of them, and its ms, or half of those of the call compared before if that is
  // more, since single calls are preempted. And whether the time did not follow the steps.
  compared = { steps: 0, ms: 0 };
  isFixed = false;

  /**
   * @param {number} ms
   * @param {number} steps
   */
  constructor(ms, steps) {
    this.ms = ms;
    this.steps = steps;
  }

  /** Says how many steps a call did, and how long it took. A call that was shorter than it could be says nothing, unless it took too
   * long.
   * @param {number} steps
   * @param {number} ms */
  took(steps, ms) {
    const isFull = steps >= this.steps;
    if (!isFull && ms <= this.ms) return;
    if (isFull) this.compare(steps, ms);
    const wanted = isFull && this.isFixed && ms > this.ms ? Infinity : steps * this.ms / Math.max(ms, 0.1);
    this.steps = Math.ceil(Math.min(4 * this.steps, Math.max(this.steps / 4, wanted)));
  }

  /** Finds whether the time follows the steps.
   * @param {number} steps
   * @param {number} ms */
  compare(steps, ms) {
    const { compared } = this, isMore = steps >= 2 * compared.steps;
    if (!isMore && 2 * steps > compared.steps) return;
    this.isFixed = compared.steps > 0 && (isMore ? ms < ALIKE * compared.ms : ALIKE * ms > compared.ms);
    this.compared = { steps, ms: Math.max(ms, compared.ms / 2) };
  }
}
