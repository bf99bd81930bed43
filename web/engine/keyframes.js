// @ts-check
/* Keyframes of a run: its states, by their counts. A keyframe has a table of the ids of its 1,024 pages, and keyframes share equal
 * pages. */
import { hashOf, PAGE_BYTES, PAGES, STATE_BYTES } from "../formats/states.js";

const KEYFRAMES_BUDGET = 200e6;
const PAGE_WORDS = PAGE_BYTES / 4, SLAB_PAGES = 1024;
// The bytes of a keyframe beside its pages: its state, its table, and an estimate for the objects.
const KEYFRAME_BYTES = STATE_BYTES + 4 * PAGES + 300;

/** Pages by their ids. Equal pages have one id, and each page has the number of its uses. */
class PagePool {
  /** @type {Uint32Array[]} */
  slabs = [];
  /** @type {number[]} */
  uses = [];
  /** @type {number[]} */
  hashes = [];
  /** @type {number[]} */
  unused = [];
  /** @type {Map<number, number[]>} */
  byHash = new Map();

  /** The number of pages that are in use. */
  get length() {
    return this.uses.length - this.unused.length;
  }

  /** @param {number} id */
  slab(id) {
    return this.slabs[Math.floor(id / SLAB_PAGES)];
  }

  /** @param {number} id */
  start(id) {
    return PAGE_WORDS * (id % SLAB_PAGES);
  }

  /** Returns the words of a page, as long as it is in use.
   * @param {number} id */
  page(id) {
    return this.slab(id).subarray(this.start(id), this.start(id) + PAGE_WORDS);
  }

  /** Whether the words from a position on are those of a page.
   * @param {number} id
   * @param {Uint32Array} words
   * @param {number} from */
  isPage(id, words, from) {
    const slab = this.slab(id);
    for (let at = this.start(id), of = from; of < from + PAGE_WORDS; at++, of++) if (slab[at] !== words[of]) return false;
    return true;
  }

  /** Uses the page with the words from a position on. Returns its id.
   * @param {Uint32Array} words
   * @param {number} from */
  put(words, from) {
    const hash = hashOf(words, from, from + PAGE_WORDS), ids = this.byHash.get(hash) ?? [];
    const same = ids.find((id) => this.isPage(id, words, from));
    if (same !== undefined) return this.use(same);
    const id = this.unused.pop() ?? this.uses.length;
    if (!this.slab(id)) this.slabs.push(new Uint32Array(SLAB_PAGES * PAGE_WORDS));
    this.slab(id).set(words.subarray(from, from + PAGE_WORDS), this.start(id));
    [this.uses[id], this.hashes[id]] = [1, hash];
    this.byHash.set(hash, [...ids, id]);
    return id;
  }

  /** @param {number} id */
  use(id) {
    this.uses[id]++;
    return id;
  }

  /** Gives up one use of a page.
   * @param {number} id */
  leave(id) {
    if (--this.uses[id]) return;
    const hash = this.hashes[id], others = (this.byHash.get(hash) ?? []).filter((other) => other !== id);
    if (others.length) this.byHash.set(hash, others);
    else this.byHash.delete(hash);
    this.unused.push(id);
  }
}

/** A state with a table of its pages. `sent` is how many bytes were sent before it; one that is claimed is what a checkpoint of a file claims.
 * @typedef {{ count: number, state: Bytes, table: Uint32Array, sent: number, isCheckpoint: boolean, isClaimed: boolean }} Keyframe */

/** The keyframes of one machine, by rising counts. The first one is always there. */
export class Keyframes {
  pool = new PagePool();
  /** @type {Keyframe[]} */
  items = [];

  /** `budget` is how many bytes they may take.
   * @param {number} budget */
  constructor(budget = KEYFRAMES_BUDGET) {
    this.budget = budget;
  }

  /** How many bytes they take. */
  get bytes() {
    return PAGE_BYTES * this.pool.length + KEYFRAME_BYTES * this.items.length;
  }

  get counts() {
    return this.items.map(({ count }) => count);
  }

  /** Returns the position of the last keyframe at or below a count, or -1.
   * @param {number} count */
  position(count) {
    let [from, to] = [0, this.items.length];
    while (from < to) {
      const middle = (from + to) >> 1;
      if (this.items[middle].count <= count) from = middle + 1;
      else to = middle;
    }
    return from - 1;
  }

  /** Returns the last keyframe at or below a count.
   * @param {number} count */
  nearest(count) {
    return this.items[this.position(count)];
  }

  /** Returns the table of a memory. It compares pages with those of a table that it is near to.
   * @param {Uint32Array} words
   * @param {Uint32Array} [near] */
  tableOf(words, near) {
    return Uint32Array.from({ length: PAGES }, (_, page) => {
      const from = PAGE_WORDS * page, id = near?.[page];
      return id !== undefined && this.pool.isPage(id, words, from) ? this.pool.use(id) : this.pool.put(words, from);
    });
  }

  /** Changes some pages of a table: their numbers, and their words one after the other.
   * @param {Uint32Array} table
   * @param {number[]} numbers
   * @param {Uint32Array} words */
  change(table, numbers, words) {
    numbers.forEach((page, at) => {
      this.pool.leave(table[page]);
      table[page] = this.pool.put(words, PAGE_WORDS * at);
    });
  }

  /** Returns a table with uses of its own.
   * @param {Uint32Array} table */
  copied(table) {
    return table.map((id) => this.pool.use(id));
  }

  /** @param {Uint32Array} table */
  leave(table) {
    for (const id of table) this.pool.leave(id);
  }

  /** Adds a keyframe, whose table is its own from now on. Of two at a count the first one stays, unless it was only claimed.
   * @param {Keyframe} keyframe */
  add(keyframe) {
    const at = this.position(keyframe.count), there = this.items[at];
    if (there?.count !== keyframe.count) return void this.items.splice(at + 1, 0, keyframe);
    const isCheckpoint = there.isCheckpoint || keyframe.isCheckpoint, isReplaced = there.isClaimed && !keyframe.isClaimed;
    this.leave((isReplaced ? there : keyframe).table);
    this.items[at] = { ...(isReplaced ? keyframe : there), isCheckpoint };
  }

  /** Drops the keyframes after a count.
   * @param {number} count */
  forgetAfter(count) {
    for (const { table } of this.items.splice(this.position(count) + 1)) this.leave(table);
  }

  /** Drops keyframes until they are within the budget: each time the one whose gap is least for its distance from a count. The first and
   * the last one stay, and those at checkpoints.
   * @param {number} cursor */
  thin(cursor) {
    while (this.bytes > this.budget) {
      let least = Infinity, found = -1;
      for (let at = 1; at < this.items.length - 1; at++) {
        const { count, isCheckpoint } = this.items[at], gap = this.items[at + 1].count - this.items[at - 1].count;
        const weight = gap / Math.max(1, Math.abs(count - cursor));
        if (!isCheckpoint && weight < least) [least, found] = [weight, at];
      }
      if (found < 0) return;
      this.leave(this.items[found].table);
      this.items.splice(found, 1);
    }
  }

  /** Copies the memory of a keyframe to words.
   * @param {Keyframe} keyframe
   * @param {Uint32Array} words */
  load({ table }, words) {
    table.forEach((id, page) => words.set(this.pool.page(id), PAGE_WORDS * page));
  }

  /** Returns a word of the memory of a keyframe, by its number.
   * @param {Keyframe} keyframe
   * @param {number} number */
  word({ table }, number) {
    return this.pool.page(table[Math.floor(number / PAGE_WORDS)])[number % PAGE_WORDS];
  }
}
