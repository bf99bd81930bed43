// @ts-check
/* Inputs of a machine, encoded as the events of a recording (docs/formats.md). */
import { INPUT, INPUT_BYTES } from "./layout.js";
import { KINDS, wordsOf } from "./states.js";

/** @type {{ [kind: string]: number }} */
const MOST_VALUE = { timer: 0xffffffff, switches: 0xfff, mouse: 0x073ff3ff, key: 0xff, serial: 0xff, disk: 0xffffffff };

/** Inputs in the order of their counts, 16 bytes each, encoded as the events of a recording. */
export class Inputs {
  /** @param {Bytes} bytes */
  constructor(bytes = new Uint8Array(0)) {
    this.length = bytes.length / INPUT_BYTES;
    this.room = bytes.slice();
  }

  get bytes() {
    return this.room.subarray(0, this.length * INPUT_BYTES);
  }

  get view() {
    return new DataView(this.room.buffer);
  }

  /** Makes room for a number of bytes.
   * @param {number} length */
  reserve(length) {
    if (length <= this.room.length) return;
    const room = new Uint8Array(Math.max(1024, 2 * this.room.length, length));
    room.set(this.room);
    this.room = room;
  }

  /** Puts the bytes of others in place of the inputs from a position on.
   * @param {number} from
   * @param {Bytes} bytes */
  replace(from, bytes) {
    this.reserve(INPUT_BYTES * from + bytes.length);
    this.room.set(bytes, INPUT_BYTES * from);
    this.length = from + bytes.length / INPUT_BYTES;
  }

  /**
   * @param {number} count
   * @param {number} kind
   * @param {number} value
   */
  push(count, kind, value) {
    this.reserve(INPUT_BYTES * (this.length + 1));
    const at = INPUT_BYTES * this.length++, { view } = this;
    view.setBigUint64(at + INPUT.count, BigInt(count), true);
    view.setUint32(at + INPUT.kind, kind, true);
    view.setUint32(at + INPUT.value, value, true);
  }

  /** @param {number} at */
  count(at) {
    return Number(this.view.getBigUint64(INPUT_BYTES * at + INPUT.count, true));
  }

  /** @param {number} at */
  kind(at) {
    return this.view.getUint32(INPUT_BYTES * at + INPUT.kind, true);
  }

  /** Whether one of them is of a kind.
   * @param {number} kind */
  has(kind) {
    const words = wordsOf(this.bytes);
    for (let at = INPUT.kind / 4; at < words.length; at += INPUT_BYTES / 4) if (words[at] === kind) return true;
    return false;
  }

  /** Returns the input at a position, as a session writes it.
   * @param {number} at
   * @returns {Input} */
  item(at) {
    return [this.count(at), KINDS[this.kind(at)], this.view.getUint32(INPUT_BYTES * at + INPUT.value, true)];
  }

  /** Returns the first position, from `at` on, whose input does not come before a count.
   * @param {number} count
   * @param {number} at */
  from(count, at = 0) {
    for (let end = this.length; at < end;) {
      const middle = (at + end) >> 1;
      if (this.count(middle) < count) at = middle + 1;
      else end = middle;
    }
    return at;
  }

  /** Returns the bytes of the inputs from one count on and before another, with their counts relative to the first.
   * @param {number} begin
   * @param {number} end */
  between(begin, end) {
    const [first, last] = [this.from(begin), this.from(end)], bytes = this.bytes.slice(INPUT_BYTES * first, INPUT_BYTES * last);
    const view = new DataView(bytes.buffer);
    for (let at = first; at < last; at++) view.setBigUint64(INPUT_BYTES * (at - first) + INPUT.count, BigInt(this.count(at) - begin), true);
    return bytes;
  }
}

/** Whether a value is one that an input of a kind has. What a mouse word does not use is 0.
 * @param {number} kind
 * @param {bigint} value
 */
export function isInput(kind, value) {
  const most = BigInt(MOST_VALUE[KINDS[kind]]);
  return value <= most && (KINDS[kind] !== "mouse" || (value & ~most) === 0n);
}
