// @ts-check
/* What arrives for the live machine and waits for its count: changes of the mouse and of the switches, each with the time at which
 * it was made, and typed keys and serial bytes, each until the machine has room for it.
 *
 * The keys that are typed for a run are one sequence, and so are its serial bytes. Each key, and each byte, gets its number here as it arrives: 0, 1, and
 * so on, also after a reload. The machine takes them in this order. Those below `taken` it has taken, or the user has cancelled; the others wait. The page
 * holds what it posted by these numbers (host/typed.js), and what is kept says them. */
import { joined, MOUSE, PER_SECOND } from "../formats/states.js";

// Two changes of the mouse's keys are at least 1 ms of the machine apart, so that a program sees both; moves with a key down as
// well. Moves without one are 8 ms apart. Those between two such moves are left out.
const BUTTONS = 7 << 24, APART = PER_SECOND / 1000, IDLE_APART = 8 * APART;

/** @typedef {{ kind: number, value: number, ms: number }} Arrival */

/** The bytes of a sequence that wait, from number `taken` on. There may be millions of them. */
export class Queue {
  at = 0;

  /**
   * @param {ArrayLike<number>} bytes
   * @param {number} taken
   */
  constructor(bytes, taken) {
    this.bytes = Uint8Array.from(bytes);
    this.taken = taken;
  }

  get length() {
    return this.bytes.length - this.at;
  }

  /** Returns a copy of those that wait. */
  get rest() {
    return this.bytes.slice(this.at);
  }

  /** Returns the number of the first byte that is added.
   * @param {ArrayLike<number>} more */
  push(more) {
    const first = this.taken + this.length;
    this.bytes = joined([this.bytes.subarray(this.at), Uint8Array.from(more)]);
    this.at = 0;
    return first;
  }

  take() {
    this.taken++;
    return this.bytes[this.at++];
  }

  /** Takes a number of bytes.
   * @param {number} many */
  skip(many) {
    this.taken += many;
    this.at += many;
  }

  /** Takes back the last bytes that were taken.
   * @param {number[]} bytes */
  untake(bytes) {
    if (!bytes.length) return;
    this.taken -= bytes.length;
    this.bytes = joined([Uint8Array.from(bytes), this.rest]);
    this.at = 0;
  }

  /** Cancels all that wait. */
  cancel() {
    this.taken += this.length;
    this.at = this.bytes.length;
  }
}

export class Arrivals {
  /** @type {Arrival[]} */
  changes = [];
  delay = 0;
  mouse = { word: 0, count: -Infinity, pressed: -Infinity };

  /** @param {Waiting} waiting */
  constructor({ keys, serial, taken } = { keys: [], serial: [], taken: { keys: 0, serial: 0 } }) {
    this.keys = new Queue(keys, taken.keys);
    this.serial = new Queue(serial, taken.serial);
  }

  /** Takes keys and serial bytes, which wait. Returns the number of the first of each.
   * @param {Partial<Waiting>} typed
   * @returns {Numbers} */
  type({ keys = [], serial = [] }) {
    return { keys: this.keys.push(keys), serial: this.serial.push(serial) };
  }

  /** The numbers up to which keys and serial bytes were taken.
   * @returns {Numbers} */
  get taken() {
    return { keys: this.keys.taken, serial: this.serial.taken };
  }

  /** Returns a copy of the keys and serial bytes that wait.
   * @returns {Waiting} */
  get waiting() {
    return { keys: this.keys.rest, serial: this.serial.rest, taken: this.taken };
  }

  /** Says that the machine has this mouse word, with no change of it shortly before.
   * @param {number} word */
  forgetMouse(word) {
    this.mouse = { word, count: -Infinity, pressed: -Infinity };
  }

  /** The number of keys and serial bytes that wait. */
  get typed() {
    return this.keys.length + this.serial.length;
  }

  /** Returns the least count that a change may have.
   * @param {{ kind: number, value: number }} change */
  earliest({ kind, value }) {
    if (kind !== MOUSE) return 0;
    const { word, count, pressed } = this.mouse;
    if ((value ^ word) & BUTTONS) return Math.max(count, pressed + APART);
    return count + (value & BUTTONS ? APART : IDLE_APART);
  }

  /** Whether a move is left out, since another one comes before the next that the machine gets.
   * @param {Arrival[]} changes
   * @param {(change: Arrival) => number} stampOf */
  isPassed([first, second], stampOf) {
    /** @param {Arrival} change */
    const isMove = ({ kind, value }) => kind === MOUSE && !((value ^ this.mouse.word) & BUTTONS);
    return Boolean(second) && isMove(first) && isMove(second) && stampOf(second) <= this.earliest(first);
  }

  /** Calls `give` with each change whose count is before an end, and with that count, in the order in which they were made.
   * `countAt` returns a machine's count at a time. A change arrives after the machine has passed that count, `now`. So all of
   * them are delayed alike, by as much as one of them is late, until none waits: the time between two of them stays.
   * @param {(ms: number) => number} countAt
   * @param {number} now
   * @param {number} end
   * @param {(change: Arrival, count: number) => void} give */
  stamp(countAt, now, end, give) {
    const { changes } = this;
    if (changes.length) this.delay = Math.max(this.delay, now - countAt(changes[0].ms));
    /** @param {Arrival} change */
    const stampOf = ({ ms }) => Math.floor(countAt(ms) + this.delay);
    while (changes.length) {
      if (this.isPassed(changes, stampOf)) {
        changes.shift();
        continue;
      }
      const count = Math.max(now, stampOf(changes[0]), this.earliest(changes[0]));
      if (count >= end) return;
      const [change] = changes.splice(0, 1);
      if (change.kind === MOUSE) this.follow(change.value, count);
      give(change, count);
    }
    this.delay = 0;
  }

  /** Says that the machine gets a mouse word at a count.
   * @param {number} word
   * @param {number} count */
  follow(word, count) {
    const isPressed = ((word ^ this.mouse.word) & BUTTONS) !== 0;
    this.mouse = { word, count, pressed: isPressed ? count : this.mouse.pressed };
  }
}
