// @ts-check
/* The calls that are open at the counts of the past. The library follows them from the first state on, where none is open. What it found at some counts is
 * kept: at keyframes, and near before requested counts. So they are followed from the nearest of these. */
import { CallLog } from "./calllog.js";
import { copied, Pace } from "./emulator.js";
import { INPUT_BYTES } from "../formats/layout.js";
import { CALL_MS, FIRST_RUN } from "./replayer.js";
import { firstDifference } from "../formats/states.js";
import { Errand } from "./tasks.js";

// How many bytes all stacks take, and what one takes beside its calls; how far before a count some are kept; and how often it is said how far this is.
const STACKS_BUDGET = 16e6, STACK_BYTES = 100, NEAR = [262144, 4096, 64, 4], PROGRESS_MS = 100;

/** The calls that are open at a count. `since` is the count from which on they were followed: it is not 0 where the machine began at a checkpoint that
 * claims another state than the run before it has.
 * @typedef {{ count: number, calls: Bytes, since: number }} Stack */

/** The stacks that are known, by rising counts. That at count 0 is always there. */
export class Stacks {
  /** @type {Stack[]} */
  items = [{ count: 0, calls: new Uint8Array(), since: 0 }];
  bytes = 0;

  /** Returns the last stack at or below a count.
   * @param {number} count
   * @returns {Stack} */
  nearest(count) {
    return this.items[this.position(count)];
  }

  /** @param {number} count */
  position(count) {
    return this.items.findLastIndex((item) => item.count <= count);
  }

  /** Adds a stack, unless there is one at its count. If they take too much, the one goes whose neighbours are nearest to each other.
   * @param {Stack} stack */
  add(stack) {
    const { items } = this, at = this.position(stack.count);
    if (items[at].count === stack.count) return;
    items.splice(at + 1, 0, stack);
    this.bytes += STACK_BYTES + stack.calls.length;
    while (this.bytes > STACKS_BUDGET && items.length > 2) {
      const gaps = items.slice(1, -1).map((_, place) => items[place + 2].count - items[place].count);
      this.drop(1 + gaps.indexOf(Math.min(...gaps)), 1);
    }
  }

  /**
   * @param {number} at
   * @param {number} [many]
   */
  drop(at, many) {
    for (const { calls } of this.items.splice(at, many ?? this.items.length)) this.bytes -= STACK_BYTES + calls.length;
  }

  /** Forgets what came after a count.
   * @param {number} count */
  forgetAfter(count) {
    this.drop(Math.max(0, this.position(count)) + 1);
  }
}

/** A machine whose calls are followed through the past, for one kind of question: a newer one ends the one that is under way. */
export class Follower {
  /** @type {CallLog | null} */
  own = null;
  pace = new Pace(CALL_MS, FIRST_RUN);
  // The count at which the log has the open calls of the machine, or -1; and from which count on they were followed.
  at = -1;
  since = 0;
  due = 0;

  /** @param {import("../workers/past.js").History} history */
  constructor(history) {
    this.history = history;
    this.errand = new Errand(history);
  }

  get log() {
    return (this.own ??= new CallLog(this.history.library));
  }

  get replayer() {
    return this.errand.replayer;
  }

  get stack() {
    return { count: this.at, calls: this.log.bytes, since: this.since };
  }

  /** Forgets where the machine is. */
  forget() {
    this.errand.forget();
    this.at = -1;
  }

  /** Brings the machine to a count, with the calls that are open there, and reports each piece on the way. It gives up when it is `late`, as performance.now() says
   * it, and goes on from there the next time. Returns whether it has come to the count.
   * @param {number} to
   * @param {() => Promise<void>} turn
   * @param {(count: number) => void} heard
   * @param {number} late */
  async reach(to, turn, heard = () => {}, late = Infinity) {
    const { history: { stacks }, replayer } = this, known = stacks.nearest(to);
    if (!(this.isAt(this.at) && this.at <= to && this.at >= known.count)) await this.begin(known, turn);
    while (replayer.count < to) {
      await this.next(to, turn);
      heard(replayer.count);
      await turn();
      if (performance.now() >= late && replayer.count < to) return false;
    }
    stacks.add(this.stack);
    return true;
  }

  /** Goes on by a piece, up to a count at most, and keeps the stack there if it has come to where one is kept. Returns whether the calls before are not known to
   * be open there.
   * @param {number} to
   * @param {() => Promise<void>} turn */
  async next(to, turn) {
    const stop = this.nextStop(to), { since } = this;
    this.piece(stop);
    if (this.at === stop) await this.rest(stop, turn);
    return this.since !== since;
  }

  /** Whether the machine is at a count, with the calls that are open there.
   * @param {number} count */
  isAt(count) {
    return count >= 0 && this.at === count && this.replayer.isSet && this.replayer.count === count;
  }

  /** Begins where the open calls are known.
   * @param {Stack} known
   * @param {() => Promise<void>} turn */
  async begin({ count, calls, since }, turn) {
    await this.stand(count, turn);
    this.log.put(calls);
    Object.assign(this, { at: count, since });
  }

  /** Brings the machine to a count from a keyframe: what it sent while its calls were followed is not known.
   * @param {number} count
   * @param {() => Promise<void>} turn */
  async stand(count, turn) {
    this.forget();
    await this.history.reach(this.replayer, count, turn);
  }

  /** Returns up to where a piece goes at most: to the next count at which the stack is kept.
   * @param {number} to */
  nextStop(to) {
    const { history: { keyframes, begun }, replayer: { count } } = this, next = keyframes.items[keyframes.position(count) + 1]?.count;
    return Math.min(...[to, next ?? to, begun, ...NEAR.map((far) => to - far)].filter((stop) => stop > count));
  }

  /** Follows a piece of the run, up to a count at most.
   * @param {number} stop */
  piece(stop) {
    const { history: { inputs }, replayer, log, pace } = this, { count } = replayer, begun = performance.now(), to = Math.min(stop, count + pace.steps);
    log.follow(replayer.address, inputs.bytes.subarray(INPUT_BYTES * inputs.from(count), INPUT_BYTES * inputs.from(to)), to);
    this.at = replayer.count;
    pace.took(replayer.count - count, performance.now() - begun);
  }

  /** Keeps the stack at a count. Where the machine that is open began at a checkpoint, it goes on from what that claims: if the run up to there has
   * another state, no call is known to be open.
   * @param {number} count
   * @param {() => Promise<void>} turn */
  async rest(count, turn) {
    const { history, replayer, log } = this;
    if (count === history.begun) {
      const own = copied(replayer.at(replayer.address)), { calls } = this.stack, sent = new Uint8Array();
      await this.stand(count, turn);
      const isOther = firstDifference({ ...own, sent }, { ...copied(replayer.at(replayer.address)), sent }) !== null;
      log.put(isOther ? new Uint8Array() : calls);
      Object.assign(this, { at: count, since: isOther ? count : this.since });
    }
    history.stacks.add(this.stack);
  }

  /** Returns a function that posts periodically how far the calls are followed.
   * @param {{ generation?: number, request?: number }} given
   * @param {number} to
   * @returns {(count: number) => void} */
  progress({ generation, request }, to) {
    let due = performance.now() + PROGRESS_MS;
    return (done) => {
      const now = performance.now();
      if (now < due) return;
      due = now + PROGRESS_MS;
      this.history.report({ followed: { generation: Number(generation), request, done, of: to } });
    };
  }
}
