// @ts-check
/* What the live machine posts to the worker that looks into its past: the initial state, keyframes and inputs. The memory is compared
 * with what was posted last, and only pages that changed are posted. */
import { INPUT_BYTES } from "../formats/layout.js";
import { differingPages, MEMORY_BYTES, PAGE_BYTES } from "../formats/states.js";

// A keyframe comes after KEYFRAME_STEPS, once they took KEYFRAME_MS; or after many more, which a machine that waits does in a moment. No machine
// that works does WAITING_STEPS in a millisecond.
export const KEYFRAME_STEPS = 2500000, KEYFRAME_MS = 12, MOST_KEYFRAME_STEPS = 10 * KEYFRAME_STEPS, WAITING_STEPS = 200000;
// A fast run spends at most this part of its time on keyframes.
const KEYFRAME_SHARE = 0.02;
// Checkpoints have keyframes, but not all of those that are nearer to one another.
const CHECKPOINT_STEPS = 100000;
// A turn after this much work since the last keyframe begins with a copy of the state: if the run ends with it, what was done last is near that.
const TURN_MS = 8;
// How long the other side may take to hear of a cut.
const CUT_MS = 1000;

/** A state that is posted, with its words and how many bytes were sent before it.
 * @typedef {Memory & { count: number, sent: number }} Posted */

export class Feed {
  generation = 0;
  // How many inputs were posted, the count of the last keyframe, the last count that was followed, and how long the turns since took.
  posted = 0;
  last = 0;
  seen = 0;
  took = 0;
  due = 0;
  memory = new Uint8Array(MEMORY_BYTES);
  // The state at the beginning of the turn, if it was copied, and room for its words.
  /** @type {Posted | null} */
  turn = null;
  words = new Uint8Array(MEMORY_BYTES);
  /** @type {(value?: unknown) => void} */
  cutHeard = () => {};

  /** Posts to a port. The other side says there that it has heard of a cut, or wants to know how far the machine is.
   * @param {import("./machine.js").Machine} machine
   * @param {MessagePort} port */
  constructor(machine, port) {
    this.machine = machine;
    this.port = port;
    port.onmessage = ({ data }) => (data.isCut ? this.cutHeard() : this.post({ isAnswer: true }));
  }

  /** Begins with a machine of a new number.
   * @param {number} generation */
  begin(generation) {
    const { machine } = this, first = machine.firstOf(machine.recorder.bytes), { bytes } = machine.recording ?? machine.recorder;
    Object.assign(this, { generation, posted: 0, last: 0, took: 0, due: 0, turn: null });
    this.memory.set(first.words);
    this.post({ begin: { ...first, bytes } });
    if (machine.count) this.keyframe(false);
  }

  /** Posts how far the machine is, the inputs that are new since then, and something else.
   * @param {Partial<import("../workers/past.js").Fed>} more */
  post(more = {}) {
    const { machine, posted, generation } = this, { count, end, isReplay } = machine;
    const inputs = { from: posted, bytes: machine.inputs.bytes.slice(INPUT_BYTES * posted) };
    this.posted = machine.inputs.length;
    this.port.postMessage({ generation, count, end: isReplay ? Math.max(count, end) : count, inputs, ...more });
  }

  /** Copies the state before a turn. */
  begun() {
    const { state, words, count, sentTotal: sent } = this.machine;
    this.turn = this.took < TURN_MS ? null : { state: state.slice(), words: this.words, count, sent };
    if (this.turn) this.words.set(words);
  }

  /** Posts that the run has ended, with the state before its last turn if that was copied. */
  ended() {
    if (this.turn) this.keyframe(false, this.turn);
    else this.post();
    this.turn = null;
  }

  /** Posts a keyframe after a turn that took some ms, if one is due.
   * @param {boolean} isFast
   * @param {number} ms */
  follow(isFast, ms) {
    const { count } = this.machine, steps = count - this.last;
    if (count - this.seen < WAITING_STEPS * ms) this.took += ms;
    this.seen = count;
    const isLong = this.took >= KEYFRAME_MS || steps >= MOST_KEYFRAME_STEPS;
    if (steps >= KEYFRAME_STEPS && isLong && !(isFast && performance.now() < this.due)) this.keyframe(false);
  }

  /** Posts the state at a checkpoint of a file, or, if there is a keyframe shortly before, only how far the machine is. */
  checkpoint() {
    if (this.machine.count - this.last >= CHECKPOINT_STEPS) this.keyframe(true);
    else this.post();
  }

  /** Returns the state now.
   * @returns {Posted} */
  now() {
    const { state, words, count, sentTotal: sent } = this.machine;
    return { state: state.slice(), words, count, sent };
  }

  /** Posts a state, with the pages that changed since the last time.
   * @param {boolean} isCheckpoint */
  keyframe(isCheckpoint, { state, words, count, sent } = this.now()) {
    const begun = performance.now(), numbers = differingPages(words, this.memory);
    const bytes = new Uint8Array(PAGE_BYTES * numbers.length);
    numbers.forEach((page, at) => bytes.set(words.subarray(PAGE_BYTES * page, PAGE_BYTES * (page + 1)), PAGE_BYTES * at));
    numbers.forEach((page, at) => this.memory.set(bytes.subarray(PAGE_BYTES * at, PAGE_BYTES * (at + 1)), PAGE_BYTES * page));
    this.post({ keyframe: { count, state, sent, isCheckpoint, numbers, bytes } });
    const now = performance.now();
    Object.assign(this, { last: Math.max(this.last, count), took: 0, due: now + (now - begun) / KEYFRAME_SHARE });
  }

  /** Posts that what came after the machine's count is void, also the inputs that it has not taken. Returns once the other side has received
   * it, so that no caller who knows of it gets an older answer; or after a time limit, if the other side is broken. */
  cut() {
    Object.assign(this, { posted: this.machine.next, last: 0, turn: null });
    this.post({ isCut: true });
    this.keyframe(false);
    return new Promise((resolve) => {
      this.cutHeard = resolve;
      setTimeout(resolve, CUT_MS);
    });
  }
}
