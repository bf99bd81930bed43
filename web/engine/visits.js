// @ts-check
/* How often the machine executed each word of its memory up to a count, or between two: by the library's exact counts, in pieces, so that looks
 * come first. Sums at some counts are kept, so that a cursor that moves a little is followed at once. */
import { Pace } from "./emulator.js";
import { INPUT_BYTES } from "../formats/layout.js";
import { WORDS } from "../formats/states.js";
import { Errand } from "./tasks.js";

// The time of a piece, and its fewest instructions, since each costs some milliseconds beside them; how many sums are kept, two of them this
// far before the last count.
const PIECE_MS = 25, LEAST_PIECE = 1000000, MOST_SUMS = 12, BEFORE = [262144, 4096];

/** How often each word was executed before a count.
 * @typedef {{ count: number, times: Float64Array }} Sum */

export class Visits {
  /** The sums from count 0 on, by rising counts.
   * @type {Sum[]} */
  sums = [];
  // Where the library writes its counts, once it does.
  address = 0;

  /** @param {import("../workers/past.js").History} history */
  constructor(history) {
    this.history = history;
    this.errand = new Errand(history);
    this.pace = new Pace(PIECE_MS, LEAST_PIECE);
  }

  /** Forgets what came after a count.
   * @param {number} count */
  forgetAfter(count) {
    this.sums = this.sums.filter((sum) => sum.count <= count);
    this.errand.forget();
  }

  /** Returns how often the machine executed each word in [from, to). A newer request ends this one.
   * @param {Requests["visits"][0]} given
   * @returns {Promise<Visited | null>} */
  visits(given) {
    return this.errand.run(given, (turn) => this.counted(given, turn));
  }

  /**
   * @param {Requests["visits"][0]} given
   * @param {() => Promise<void>} turn
   * @returns {Promise<Visited>}
   */
  async counted(given, turn) {
    const { from, to } = given, { epoch } = this.history, known = from ? undefined : this.sums.findLast(({ count }) => count <= to);
    const times = known ? known.times.slice() : new Float64Array(WORDS), begun = known?.count ?? from;
    await this.history.reach(this.errand.replayer, begun, turn);
    try {
      // Two stops on the way leave sums that a cursor which goes back begins with.
      for (const stop of [...BEFORE.map((far) => to - far).filter((count) => !from && count > begun), to]) {
        await this.countTo(stop, times, given, turn);
        if (!from) this.keep({ count: stop, times: times.slice() });
      }
    } finally {
      // What is counted goes on from here if it was ended for a newer one.
      if (!from && this.history.epoch === epoch && this.errand.replayer.count > begun) this.keep({ count: this.errand.replayer.count, times: times.slice() });
    }
    const words = Uint32Array.from({ length: WORDS }, (_, at) => at).filter((at) => times[at]);
    return { from, to, words, times: Float64Array.from(words, (at) => times[at]) };
  }

  /** Counts up to a count, and says how far it has come.
   * @param {number} stop
   * @param {Float64Array} times
   * @param {Requests["visits"][0]} given
   * @param {() => Promise<void>} turn */
  async countTo(stop, times, { generation, from, to }, turn) {
    while (this.errand.replayer.count < stop) {
      this.piece(times, stop);
      this.history.report({ counted: { generation: Number(generation), to, done: this.errand.replayer.count - from, of: to - from } });
      await turn();
    }
  }

  /** Counts a piece of the run, up to a count at most, and advances to its end.
   * @param {Float64Array} times
   * @param {number} stop */
  piece(times, stop) {
    const { history, errand: { replayer }, pace } = this, { library, inputs } = history, { count } = replayer, begun = performance.now();
    const to = Math.min(stop, count + Math.max(LEAST_PIECE, pace.steps));
    this.address ||= library.take(16 * WORDS);
    library.profile(replayer.address, inputs.bytes.subarray(INPUT_BYTES * inputs.from(count), INPUT_BYTES * inputs.from(to)), to, this.address, this.address + 8 * WORDS);
    const written = new Uint32Array(library.bytes(this.address, 8 * WORDS).slice().buffer);
    for (let at = 0; at < WORDS; at++) times[at] += written[2 * at] + 2 ** 32 * written[2 * at + 1];
    while (replayer.count < to) replayer.advance(inputs, to);
    pace.took(to - count, performance.now() - begun);
  }

  /** Keeps a sum. If there are too many, the one goes whose neighbours are nearest to each other.
   * @param {Sum} sum */
  keep(sum) {
    this.sums = [...this.sums.filter(({ count }) => count !== sum.count), sum].sort((one, other) => one.count - other.count);
    if (this.sums.length <= MOST_SUMS) return;
    const gaps = this.sums.map((_, at) => (this.sums[at + 1]?.count ?? Infinity) - (this.sums[at - 1]?.count ?? 0));
    this.sums.splice(gaps.indexOf(Math.min(...gaps)), 1);
  }
}
