// @ts-check
/* A machine that runs a part of the past again, from a keyframe or from what a checkpoint claims, in calls of a few milliseconds. */
import { Emulator, Pace } from "./emulator.js";
import { INPUT_BYTES } from "../formats/layout.js";
import { Records } from "./records.js";
import { wordsOf } from "../formats/states.js";

// How long a call takes at most, as far as can be foreseen: between two calls others get their turn.
export const CALL_MS = 10, FIRST_RUN = 200000;

export class Replayer extends Emulator {
  /** @param {Library} library */
  constructor(library) {
    super(library);
    this.running = new Pace(CALL_MS, FIRST_RUN);
    // Whether it is somewhere, whether that is what a file claims, and how many bytes were sent before.
    this.isSet = false;
    this.isClaimed = false;
    this.sent = 0;
  }

  /** Forgets where it is: what it was at is void. */
  forget() {
    Object.assign(this, { isSet: false, isClaimed: false, sent: 0 });
  }

  /** Goes to a keyframe.
   * @param {import("./keyframes.js").Keyframes} keyframes
   * @param {import("./keyframes.js").Keyframe} keyframe */
  load(keyframes, keyframe) {
    keyframes.load(keyframe, wordsOf(this.words));
    this.state.set(keyframe.state);
    Object.assign(this, { isSet: true, isClaimed: keyframe.isClaimed, sent: keyframe.sent });
  }

  /** Goes to what a checkpoint claims.
   * @param {import("./claims.js").Claims} claims
   * @param {number} number */
  loadClaim(claims, number) {
    claims.load(number, this.address);
    Object.assign(this, { isSet: true, isClaimed: number > 0, sent: claims.sent[number] });
  }

  /** Runs up to a count, or as far as one call goes. Returns what the machine sent.
   * @param {Inputs} inputs
   * @param {number} to */
  advance(inputs, to) {
    const { count } = this, begun = performance.now(), sent = this.run(inputs, inputs.from(count), Math.min(to, count + this.running.steps));
    this.sent += sent.length;
    this.running.took(this.count - count, performance.now() - begun);
    return sent;
  }

  /** Returns about how many ms it takes to a count.
   * @param {number} count */
  msTo(count) {
    return (count - this.count) / this.running.steps * this.running.ms;
  }

  /** Does a number of instructions, and returns what each did.
   * @param {Inputs} inputs
   * @param {number} many */
  record(inputs, many) {
    const { count } = this, base = inputs.from(count), given = inputs.bytes.subarray(INPUT_BYTES * base, INPUT_BYTES * inputs.from(count + many, base));
    const words = this.library.records(this.address, given, many), records = new Records(words, this.state.slice(), inputs, base);
    this.sent += records.sent;
    return records;
  }

  /** Does one instruction, and returns what it did.
   * @param {Inputs} inputs */
  step(inputs) {
    return this.record(inputs, 1).done(0);
  }
}
