// @ts-check
/* What instructions did, as the library records it: for each the state before it, its word, what it accessed, and the inputs that came before it. */
import { DOES, RECORD_BYTES } from "./library.js";
import { AT, field, hex, partsOf, STATE_BYTES } from "../formats/states.js";

// What changes with each instruction, or with time.
const NOT_LISTED = ["PC", "timer", "phase"];
const BRANCH = 3;

export class Records {
  /** `after` is the state after the last of the instructions, and `base` the number of the first input that was passed on.
   * @param {Uint32Array} words
   * @param {Bytes} after
   * @param {Inputs} inputs
   * @param {number} base */
  constructor(words, after, inputs, base) {
    this.bytes = new Uint8Array(words.buffer);
    this.view = new DataView(words.buffer);
    this.after = after;
    this.inputs = inputs;
    this.base = base;
  }

  get length() {
    return this.bytes.length / RECORD_BYTES;
  }

  /** How many bytes were sent. */
  get sent() {
    return Array.from({ length: this.length }, (_, at) => this.bytes[RECORD_BYTES * at + DOES.flags + 3]).reduce((sum, one) => sum + one, 0);
  }

  /** Returns the state before an instruction, by its number.
   * @param {number} at */
  state(at) {
    return at < this.length ? this.bytes.subarray(RECORD_BYTES * at, RECORD_BYTES * at + STATE_BYTES) : this.after;
  }

  /** Returns the word of an instruction, by its number; null if there was none, since PC was outside memory or the machine had stopped.
   * @param {number} at */
  word(at) {
    return this.bytes[RECORD_BYTES * at + DOES.flags] ? this.view.getUint32(RECORD_BYTES * at + DOES.word, true) : null;
  }

  /** Returns the inputs that the machine took before an instruction.
   * @param {number} at
   * @returns {Input[]} */
  taken(at) {
    const [from, many] = [DOES.inputs, DOES.inputs + 8].map((offset) => this.view.getUint32(RECORD_BYTES * at + offset, true));
    return Array.from({ length: many }, (_, number) => this.inputs.item(this.base + from + number));
  }

  /** Returns what each word did last that was executed, by its number.
   * @returns {[number, string][]} */
  effects() {
    /** @type {Map<number, string>} */
    const did = new Map(), { view } = this;
    for (let at = this.length - 1; at >= 0; at--) {
      const pc = view.getUint32(RECORD_BYTES * at + AT.PC, true);
      if (!did.has(pc) && !view.getUint32(RECORD_BYTES * at + AT.stop, true)) did.set(pc, this.did(at));
    }
    return [...did];
  }

  /** Says what an instruction did, though it may have changed nothing: the register or the word that it wrote, or where it went.
   * @param {number} at */
  did(at) {
    const before = this.state(at), after = this.state(at + 1), word = this.word(at), [, bytes, isStore] = this.bytes.subarray(RECORD_BYTES * at + DOES.flags, RECORD_BYTES * (at + 1));
    if (field(after, AT.stop)) return "stops";
    if (isStore) return `Mem[${hex(addressIn(word ?? 0, before), 6)}] = ${hex(this.view.getUint32(RECORD_BYTES * at + DOES.new, true), 2 * bytes)}`;
    return didText(word, before, after);
  }

  /** Returns what an instruction did: its count, its word, the inputs before it, and what it changed: names, and texts of values before and after. The word is
   * null if PC is outside memory.
   * @param {number} at
   * @returns {Done} */
  done(at) {
    const { view } = this, before = this.state(at), after = this.state(at + 1);
    /** @param {number} offset */
    const has = (offset) => view.getUint32(RECORD_BYTES * at + offset, true);
    const [, bytes, isStore] = this.bytes.subarray(RECORD_BYTES * at + DOES.flags), word = this.word(at);
    /** @type {[string, number][]} */
    const taken = this.taken(at).map(([, kind, value]) => [kind, value]);
    const changes = changesBetween(before, after), address = has(DOES.address), [old, now] = [DOES.old, DOES.new].map((offset) => hex(has(offset), 2 * bytes)), name = `Mem[${hex(address, 6)}]`;
    if (isStore && old !== now && address < DEVICES) changes.push([name, old, now]);
    return { count: Number(view.getBigUint64(RECORD_BYTES * at, true)), pc: field(before, AT.PC), word, inputs: taken, changes, did: this.did(at), loads: bytes && !isStore ? address : null };
  }
}

// Device words are there.
const DEVICES = 0xffffc0;

/** Returns the address that a load or a store has, of which a word is at the multiple of 4 below it.
 * @param {number} word
 * @param {Bytes} state */
export const addressIn = (word, state) => (field(state, AT.R + 4 * (word >>> 20 & 15)) + (word << 12 >> 12)) & 0xffffff;

/** Says what an instruction did that stores nothing: the register that it wrote, or where it went.
 * @param {number | null} word
 * @param {Bytes} before
 * @param {Bytes} after */
function didText(word, before, after) {
  if (word === null || word >>> 30 === BRANCH) return word !== null && field(after, AT.PC) !== field(before, AT.PC) + 1 ? `to ${field(after, AT.PC)}` : "";
  const a = word >>> 24 & 15;
  return `R${a} = ${hex(field(after, AT.R + 4 * a), 8)}`;
}

/** Returns the parts in which two states differ: the name, and the two texts.
 * @param {Bytes} before
 * @param {Bytes} after
 * @returns {[string, string, string][]} */
function changesBetween(before, after) {
  const old = partsOf(before);
  return partsOf(after).map(([name, text], at) => /** @type {[string, string, string]} */ ([name, old[at][1], text])).filter(([name, was, is]) => was !== is && !NOT_LISTED.includes(name));
}
