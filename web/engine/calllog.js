// @ts-check
/* The open calls of a machine, in the module's memory: the library follows them while it runs the machine (galluspa_calls), and lists the counts at which
 * they change, its turns. A full log ends a run early, and the next run continues there; so does each run after a number of turns. */
import { CALL_BYTES } from "../formats/calls.js";
import { INPUT_BYTES } from "../formats/layout.js";
import { ADVANCE_REFUSALS, DONE } from "./library.js";
import { Refused } from "../formats/refused.js";
import { STATE_BYTES, WORDS } from "../formats/states.js";

// Each rise of R14 ends the calls below it: there is no higher stack.
const LIMIT = 0xffffffff;
// How many turns a run lists at most, how many calls have room at first, and how many are followed at most.
const TURNS = 16384, FIRST_ROOM = 1024, MOST_OPEN = 1 << 18;
const TURN_BYTES = 32, TURN_WORDS = TURN_BYTES / 4, NO_CALL = 0xffffffff;

export class CallLog {
  // How many calls are open, and how many turns the last run listed.
  open = 0;
  turned = 0;
  room = FIRST_ROOM;

  /** @param {Library} library */
  constructor(library) {
    this.library = library;
    this.calls = library.take(CALL_BYTES * FIRST_ROOM);
    this.turns = library.take(TURN_BYTES * TURNS);
    this.numbers = library.take(16);
  }

  /** The open calls, oldest first. */
  get bytes() {
    return this.library.bytes(this.calls, CALL_BYTES * this.open).slice();
  }

  /** Takes other open calls in their place.
   * @param {Bytes} bytes */
  put(bytes) {
    this.open = bytes.length / CALL_BYTES;
    while (this.open >= this.room) this.grow();
    this.library.bytes(this.calls, bytes.length).set(bytes);
  }

  /** Makes room for twice as many calls. */
  grow() {
    const { library, calls, room } = this;
    if (room >= MOST_OPEN) throw new Refused(`more than ${MOST_OPEN.toLocaleString("en")} calls are open: they are not followed`);
    this.calls = library.take(2 * CALL_BYTES * room);
    library.bytes(this.calls, CALL_BYTES * room).set(library.bytes(calls, CALL_BYTES * room));
    library.leave(calls);
    this.room = 2 * room;
  }

  /** Runs the machine at an address up to a count at most, with these inputs, and follows its calls from those that are open.
   * @param {number} address
   * @param {Bytes} inputs
   * @param {number} to */
  follow(address, inputs, to) {
    if (this.open >= this.room - 1) this.grow();
    const { library, calls, room, turns, numbers } = this, list = library.hold(inputs);
    try {
      library.view.setBigUint64(numbers, BigInt(this.open), true);
      const machine = [address, address + STATE_BYTES, WORDS, list, inputs.length / INPUT_BYTES, to].map(BigInt);
      const code = library.exports.galluspa_calls(...machine, LIMIT, ...[calls, room, numbers, turns, TURNS, numbers + 8].map(BigInt)) & 255;
      if (code !== DONE) throw new Refused(ADVANCE_REFUSALS[code]);
      this.open = Number(library.view.getBigUint64(numbers, true));
      this.turned = Number(library.view.getBigUint64(numbers + 8, true));
    } finally {
      library.leave(list);
    }
  }

  /** The turns of the last run: the count, how many of the open calls stay, and the word that is called, or -1.
   * @returns {Generator<{ count: number, stay: number, to: number }, void>} */
  *listed() {
    const words = new Uint32Array(this.library.bytes(this.turns, TURN_BYTES * this.turned).slice().buffer);
    for (let at = 0; at < words.length; at += TURN_WORDS)
      yield { count: words[at] + 2 ** 32 * words[at + 1], stay: words[at + 2], to: words[at + 4] === NO_CALL ? -1 : words[at + 5] };
  }

  /** The word that the last of the open calls goes to, or -1. */
  get top() {
    return this.open ? this.library.view.getUint32(this.calls + CALL_BYTES * (this.open - 1) + 12, true) : -1;
  }
}
