// @ts-check
/* The calls of a span as a flame graph: at each depth from when to when each call was open, and which procedure the last open call went to. All of it is
 * exact. A call that is shorter than two columns of the timeline is in a sum of its column: which procedure had the most counts there, and how many there were. A
 * long span is followed in slices, and each answer has what is known by then. */
import { callAt, callsIn } from "../formats/calls.js";
import { Refused } from "../formats/refused.js";
import { Follower } from "./stacks.js";
import { isWhole } from "./tasks.js";

// How long a slice takes, in ms. How many depths are kept, half of them above the calls that are open where the span begins; and how many rows are answered.
const FRAMES_MS = 100, MOST_DEPTHS = 64, MOST_ROWS = 32;
// The fewest columns that a call takes that is listed by itself; shorter ones are in sums.
const LEAST_COLUMNS = 2;
/** What runs under no call. */
const NO_CALL = -1;

/** An open call: the word that it goes to, and the first count at which it is open.
 * @typedef {{ entry: number, begin: number }} Open */

export class Frames {
  /** @type {Flame | null} */
  flame = null;

  /** @param {import("../workers/past.js").History} history */
  constructor(history) {
    this.history = history;
    this.follower = new Follower(history);
  }

  /** Forgets what was followed: another machine is open, or it has gone back. */
  forget() {
    this.flame = null;
    this.follower.forget();
  }

  /** Returns the calls of [from, to), as far as they are known after a slice; the next question about the same span resumes from there. A column has `width`
   * counts. A newer question ends this one.
   * @param {Requests["frames"][0]} given
   * @returns {Promise<Framed | null>} */
  frames({ generation, from, to, width, rows }) {
    if (!(isWhole(from) && isWhole(to) && from <= to && width > 0 && rows > 0 && rows <= MOST_ROWS)) throw new Refused("a span goes from a count up to a count");
    const { follower } = this, { replayer, log } = follower;
    return follower.errand.run({ generation, to }, async (turn) => {
      const end = performance.now() + FRAMES_MS, { first } = this.history;
      if (!this.flame?.isOf(from, to, width) || !follower.isAt(this.flame.upTo)) {
        this.flame = null;
        if (!(await follower.reach(from, turn, undefined, end))) return { from, to, width, first, upTo: from, followed: replayer.count, base: 0, depth: 0, top: NO_ROW, rows: [] };
        this.flame = new Flame(from, width, log.bytes);
      }
      const { flame } = this;
      while (flame.upTo < to) {
        const isCut = await follower.next(to, turn);
        flame.take(log, replayer.count);
        if (isCut) flame.cut();
        await turn();
        if (performance.now() >= end) break;
      }
      return { ...flame.found(rows), from, to, first, followed: replayer.count };
    });
  }
}

/** The calls of a span that begins at a count. */
class Flame {
  /** The calls of each depth.
   * @type {Map<number, Row>} */
  rows = new Map();

  /** `calls` are open where the span begins.
   * @param {number} from
   * @param {number} width
   * @param {Bytes} calls */
  constructor(from, width, calls) {
    /** @type {Open[]} */
    const open = Array.from({ length: callsIn(calls) }, (_, number) => callAt(calls, number)).map(({ count, to }) => ({ entry: to, begin: count + 1 }));
    this.stack = [{ entry: NO_CALL, begin: 0 }, ...open];
    this.from = this.upTo = from;
    this.width = width;
    this.top = new Row(from, width);
    this.inner = { entry: this.stack[open.length].entry, begin: from };
    this.lowest = Math.max(0, this.stack.length - MOST_DEPTHS / 2);
    // How many of the calls were open all the time, and how many at most.
    this.common = this.deepest = this.stack.length;
  }

  /** Whether this is of a span, which may have grown.
   * @param {number} from
   * @param {number} to
   * @param {number} width */
  isOf(from, to, width) {
    return this.from === from && this.width === width && this.upTo <= to;
  }

  /** Takes the turns of a log's last run, which came to a count.
   * @param {import("./calllog.js").CallLog} log
   * @param {number} upTo */
  take(log, upTo) {
    for (const { count, stay, to } of log.listed()) {
      this.end(stay + 1, count + 1);
      if (to >= 0) this.stack.push({ entry: to, begin: count + 1 });
      this.enter(count + 1);
    }
    this.upTo = upTo;
  }

  /** Ends the open calls from a depth on.
   * @param {number} depth
   * @param {number} at */
  end(depth, at) {
    const { stack } = this;
    if (stack.length > depth) this.deepest = Math.max(this.deepest, stack.length);
    while (stack.length > depth) {
      const { entry, begin } = /** @type {Open} */ (stack.pop());
      this.row(stack.length)?.add(begin, at, entry);
    }
    this.common = Math.min(this.common, depth);
  }

  /** Notes which call is the last open one from a count on.
   * @param {number} at */
  enter(at) {
    const { entry } = this.stack[this.stack.length - 1];
    if (entry === this.inner.entry) return;
    this.top.add(this.inner.begin, at, this.inner.entry);
    this.inner = { entry, begin: at };
  }

  /** Forgets the open calls: they are not known where the machine is. */
  cut() {
    this.end(1, this.upTo);
    this.enter(this.upTo);
  }

  /** Returns the row of a depth, if it is kept.
   * @param {number} depth */
  row(depth) {
    if (depth < this.lowest || depth >= this.lowest + MOST_DEPTHS) return undefined;
    const row = this.rows.get(depth) ?? new Row(this.from, this.width);
    this.rows.set(depth, row);
    return row;
  }

  /** Returns at most `most` rows, from that of the deepest call on that is open all the time.
   * @param {number} most */
  found(most) {
    const { upTo, width, inner } = this, open = this.stack.filter(({ begin }) => begin < upTo), base = Math.max(this.lowest, this.common - 1), depth = Math.max(this.deepest, open.length) - base;
    const rows = Array.from({ length: Math.min(most, depth) }, (_, at) => (this.row(base + at) ?? new Row(this.from, width)).found(open[base + at]));
    return { upTo, width, base, depth, top: this.top.found(inner.begin < upTo ? inner : undefined), rows };
  }
}

/** The calls of one depth. */
class Row {
  // Of each call that is long enough its beginning, its end and its word.
  /** @type {number[]} */
  long = [];
  /** The sums of the others, by their columns.
   * @type {Map<number, { calls: number, counts: Map<number, number> }>} */
  sums = new Map();

  /**
   * @param {number} from
   * @param {number} width */
  constructor(from, width) {
    this.from = from;
    this.width = width;
  }

  /** Adds a call that was open in [from, to).
   * @param {number} begin
   * @param {number} end
   * @param {number} entry */
  add(begin, end, entry) {
    const { from, width } = this, inside = Math.max(begin, from);
    if (end <= inside) return;
    if (end - begin >= LEAST_COLUMNS * width) return void this.long.push(begin, end, entry);
    for (let column = Math.floor((inside - from) / width); from + column * width < end; column++) {
      const counts = Math.min(end, from + (column + 1) * width) - Math.max(inside, from + column * width), sum = this.sums.get(column) ?? { calls: 0, counts: new Map() };
      this.sums.set(column, sum);
      sum.calls++;
      sum.counts.set(entry, (sum.counts.get(entry) ?? 0) + counts);
    }
  }

  /** Returns the calls, with one that is still open, and the sums by rising columns.
   * @param {Open | undefined} open
   * @returns {FrameRow} */
  found(open) {
    const long = open ? [...this.long, open.begin, Infinity, open.entry] : this.long, many = Array.from({ length: long.length / 3 }, (_, at) => 3 * at);
    const sums = [...this.sums].sort(([one], [other]) => one - other), most = sums.map(([, { counts }]) => [...counts].reduce((one, other) => (other[1] > one[1] ? other : one)));
    return {
      begins: Float64Array.from(many, (at) => long[at]), ends: Float64Array.from(many, (at) => long[at + 1]), entries: Int32Array.from(many, (at) => long[at + 2]),
      sums: { columns: Int32Array.from(sums, ([column]) => column), calls: Float64Array.from(sums, ([, { calls }]) => calls), entries: Int32Array.from(most, ([entry]) => entry) },
    };
  }
}

/** @type {FrameRow} */
const NO_ROW = new Row(0, 1).found(undefined);
