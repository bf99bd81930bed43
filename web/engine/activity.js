// @ts-check
/* What the lanes of the timeline show of what the machine did: how many screen lines changed from the beginning of a cell to its end,
 * how many bytes were sent in it, and which keys the full queue dropped. So they depend on the recording alone, and not on how it was watched: a cell is known once the machine was
 * run to both of its ends. Looks come first. */
import { Replayer } from "./replayer.js";
import { DISPLAY_BYTES, KEY, MOST_KEYS } from "../formats/states.js";
import { Ended, nextTask, unlessEnded } from "./tasks.js";

// Time of one request, if its cells are not long; how many lengths of cells are remembered.
const SLICE_MS = 60, MOST_SIZES = 12, LINE_WORDS = 32;

/** Where a cell ends, and what came about in it.
 * @typedef {Omit<Cell, "from">} CellEnd */

export class Activity {
  /** The cells of each length, by their numbers.
   * @type {Map<number, Map<number, CellEnd>>} */
  sizes = new Map();
  // The dots at a count, and how many bytes were sent before it.
  dots = new Uint32Array(DISPLAY_BYTES / 4);
  at = -1;
  sent = 0;
  // The number of the newest request, and the one that is under way: one at a time uses the machine.
  asked = 0;
  /** @type {Promise<unknown>} */
  underWay = Promise.resolve();

  /** @param {import("../workers/past.js").History} history */
  constructor(history) {
    this.history = history;
    this.replayer = new Replayer(history.library);
  }

  /** Forgets what came after a count.
   * @param {number} count */
  forgetAfter(count) {
    for (const cells of this.sizes.values()) for (const [number, { end }] of cells) if (end > count) cells.delete(number);
    this.replayer.forget();
    this.at = -1;
  }

  /** Returns the cells of a length, which stay the newest ones.
   * @param {number} size
   * @returns {Map<number, CellEnd>} */
  of(size) {
    const cells = this.sizes.get(size) ?? new Map();
    this.sizes.delete(size);
    this.sizes.set(size, cells);
    for (const oldest of this.sizes.keys()) if (this.sizes.size > MOST_SIZES) this.sizes.delete(oldest);
    return cells;
  }

  /** Returns the cells of a span that are known, and whether all of them are, up to now; some are made known first. Those that take long are
   * not, while the machine runs. A newer request ends this one.
   * @param {Requests["changes"][0]} given
   * @returns {Promise<Changes | null>} */
  changes(given) {
    const number = ++this.asked, done = this.underWay.then(() => this.made(given, () => number === this.asked)).catch(unlessEnded(null));
    this.underWay = done.catch(() => {});
    return done;
  }

  /**
   * @param {Requests["changes"][0]} given
   * @param {() => boolean} isNewest
   */
  async made({ generation, from, to, size, now, isOn }, isNewest) {
    const { history } = this, first = Math.floor(from / size), last = Math.ceil(Math.min(to, now) / size);
    if (!isNewest()) throw new Ended();
    await history.known(generation, now);
    const { epoch } = history, begun = performance.now(), cells = this.of(size), turn = async () => {
      await nextTask();
      while (history.looking) await history.looks;
      if (history.epoch !== epoch || !isNewest()) throw new Ended();
    };
    let isDone = true;
    for (let number = first; number < last && isDone; number++) {
      const end = Math.min((number + 1) * size, now);
      if (cells.get(number)?.end === end || (isOn && end === now)) continue;
      isDone = performance.now() - begun < SLICE_MS && !(isOn && this.replayer.msTo(this.replayer.count + size) > SLICE_MS);
      if (isDone) cells.set(number, await this.cell(number * size, end, turn));
    }
    const known = [...cells].filter(([number]) => number >= first && number < last).map(([number, one]) => ({ from: number * size, ...one }));
    return { cells: known.filter(({ end }) => end <= now).sort((one, other) => one.from - other.from), isDone };
  }

  /** Returns what came about between two counts.
   * @param {number} from
   * @param {number} end
   * @param {() => Promise<void>} turn
   * @returns {Promise<CellEnd>} */
  async cell(from, end, turn) {
    if (this.at !== from) await this.note(from, turn);
    const { dots, sent } = this, before = dots.slice(), dropped = await this.dropped(from, end, turn);
    await this.note(end, turn);
    let lines = 0;
    for (let at = 0; at < before.length; at += LINE_WORDS) lines += before.subarray(at, at + LINE_WORDS).every((word, k) => word === dots[at + k]) ? 0 : 1;
    return { end, lines, sent: this.sent - sent, dropped };
  }

  /** Returns the counts in [from, end) at which the queue drops keys, each with how many of its keys the queue takes. The machine is at `from`, and is run to a
   * later count only if the queue may be full there.
   * @param {number} from
   * @param {number} end
   * @param {() => Promise<void>} turn */
  async dropped(from, end, turn) {
    const { replayer, history: { inputs } } = this, last = inputs.from(end);
    /** @type {Cell["dropped"]} */
    const found = [];
    let waiting = replayer.part("keys");
    for (let at = inputs.from(from), next = at; at < last; at = next) {
      const count = inputs.count(at);
      let keys = 0;
      for (; next < last && inputs.count(next) === count; next++) keys += inputs.kind(next) === KEY ? 1 : 0;
      if (waiting + keys > MOST_KEYS) {
        await this.note(count, turn);
        waiting = replayer.part("keys");
        if (waiting + keys > MOST_KEYS) found.push([count, MOST_KEYS - waiting]);
      }
      waiting = Math.min(MOST_KEYS, waiting + keys);
    }
    return found;
  }

  /** Runs the machine to a count, and notes its dots and how much it sent.
   * @param {number} count
   * @param {() => Promise<void>} turn */
  async note(count, turn) {
    const { history, replayer } = this;
    this.at = -1;
    await history.reach(replayer, count, turn, { mayBeClaimed: history.mayBeClaimed(count) });
    this.dots.set(new Uint32Array(replayer.dots.slice().buffer));
    Object.assign(this, { at: count, sent: replayer.sent });
  }
}
