// @ts-check
/* The one door to what the browser keeps. An item, which is a run of the machine or a source, is two records: its body; and its head, which is small and says what the
 * item is, what was looked at in it, and what came since its body was written. One page writes an item: that which has it open. What the browser cannot keep stays in
 * the page, which says so, tries again, and asks before it is left. */
import { attempt, notice } from "./elements.js";
import { publish } from "./events.js";
import { locked } from "./locks.js";
import { put } from "./storage.js";
import { messageOf } from "../formats/texts.js";

/** What the ids of runs, of sources and of heads begin with. */
export const RUN = "run ", SOURCE = "source ", HEAD = "head ";
/** Whether an item is a source.
 * @param {string} id */
export const isSourceId = (id) => id.startsWith(SOURCE);

// What came is kept so soon. A run with its memory is a megabyte and more, so that is written at the first time, and then by time.
export const SOON_MS = 500, KEEP_MS = 5000;

/** The records of an item that are to be written: without a body it stays as it is.
 * @template {Head} Kind
 * @typedef {{ head: Kind, body?: any }} Records */
/** How something is kept: by time; as the page is left; or because the user did something, so that it is said again if it cannot be kept.
 * @typedef {{ isByTime?: boolean, isLeaving?: boolean, isSaidAgain?: boolean }} How */

/** The items that this page has to write: those that are open, and those that were left and are not written yet.
 * @type {Set<Item<any>>} */
export const items = new Set();

let latest = 0, timer = 0;

/** Returns the time at which something is written, in ms since 1970, which is later than all before. */
export const now = () => (latest = Math.max(Date.now(), latest + 1));

/** @param {string} kind */
export const newId = (kind) => `${kind}${Date.now()}-${Math.random()}`;

/** `news` counts what came for the item, and `safe` is how much of that is kept. `head` is that which was written last, if this page knows it.
 * @template {Head} Kind */
export class Item {
  news = 0;
  safe = 0;
  isRefused = false;
  /** @type {Kind | null} */
  head = null;
  /** What it was as it was left, until that is written.
   * @type {Records<Kind> | null} */
  left = null;
  /** What is being written: as the page is left it is written once more, since the browser may drop it.
   * @type {Records<Kind> | null} */
  underWay = null;
  // Whether this page has it still, though it was left: a branch.
  isHeld = false;
  /** How to give it free.
   * @type {(() => void) | null} */
  release = null;

  /** @param {string} kind */
  constructor(kind) {
    this.id = newId(kind);
  }

  /** What the page calls it if the browser cannot keep it. */
  get what() {
    return "";
  }

  /** Whether something came that is not kept. */
  get isNewer() {
    return this.news > this.safe;
  }

  /** Whether it is lost, in part or all of it, if the page is left. */
  get isUnsafe() {
    return this.left !== null || this.isNewer || (this.isRefused && this.records() !== null);
  }

  /** Returns what is to be written at once, or null.
   * @returns {Records<Kind> | null} */
  records() {
    return this.left;
  }

  /** Takes the item of an id, unless another page has it. What this page left of it and did not write yet goes with it. Returns whether it is taken.
   * @param {string} id */
  async take(id) {
    if (this.id === id && this.release) return true;
    const before = [...items].find((item) => item !== this && item.id === id), release = before?.release ?? (await locked(id));
    if (!release) return false;
    Object.assign(this, { id, release });
    if (!before) return true;
    Object.assign(this, { left: before.left, isRefused: before.isRefused });
    before.release = null;
    items.delete(before);
    items.add(this);
    return true;
  }

  /** Releases the item: another page may open it. */
  giveUp() {
    this.release?.();
    this.release = null;
  }

  /** Leaves the item as it is now, or with nothing more to write. A branch is held.
   * @param {Records<Kind> | null} records
   * @param {boolean} isHeld
   * @param {How} how */
  leave(records, isHeld = false, how = { isSaidAgain: true }) {
    Object.assign(this, { left: records, isHeld });
    items.add(this);
    if (!records) this.settle();
    else this.write(records, how).then((isWritten) => isWritten || publish("kept"));
  }

  /** The item is left, and all of it is kept. */
  settle() {
    this.left = null;
    items.delete(this);
    if (!this.isHeld) this.giveUp();
    publish("kept");
  }

  /** Ends to hold a branch. */
  drop() {
    this.isHeld = false;
    if (!this.left) this.giveUp();
  }

  /** Keeps what is to be written.
   * @param {How} how
   * @returns {Promise<unknown>} */
  keep(how) {
    const records = this.records() ?? (how.isLeaving ? this.underWay : null);
    return records ? this.write(records, how) : Promise.resolve();
  }

  /** Writes records. If the browser cannot keep them, the page says so once, and again if the user did something. Returns whether they are written.
   * @param {Records<Kind>} records
   * @param {How} how */
  async write(records, { isLeaving = false, isSaidAgain = false }) {
    const { news, head } = this;
    this.head = records.head;
    this.underWay = records;
    this.lock();
    try {
      await put([records.head, ...(records.body ? [records.body] : [])], isLeaving);
    } catch (error) {
      if (isSaidAgain || !this.isRefused) notice(`This browser cannot keep ${this.what}: ${messageOf(error)}`);
      if (this.head === records.head) this.head = head;
      this.isRefused = true;
      return false;
    } finally {
      if (this.underWay === records) this.underWay = null;
    }
    Object.assign(this, { safe: Math.max(this.safe, news), isRefused: false });
    if (this.left === records) this.settle();
    return true;
  }

  /** Takes the lock of an item that this page begins: nobody knows its id yet. */
  lock() {
    if (this.release) return;
    let isOver = false;
    /** @type {(() => void) | null} */
    let release = null;
    this.release = () => (release ? release() : (isOver = true));
    locked(this.id).then((lock) => ((release = lock), isOver && release?.()));
  }
}

/** Keeps all that is to be kept.
 * @param {How} how */
export const keepAll = (how) => Promise.all([...items].map((item) => attempt(() => item.keep(how))));

/** Keeps soon what came. Who does more does not put that off. */
export function keepSoon() {
  timer ||= setTimeout(() => {
    timer = 0;
    keepAll({});
  }, SOON_MS);
}

/** Whether something is lost if the page is left. */
export const isUnsafe = () => [...items].some(({ isUnsafe }) => isUnsafe);
