// @ts-check
/* What was typed and sent for a run and is not taken, as the page holds it: it has to be written in the moment in which the page is gone.
 *
 * The worker numbers the keys and the serial bytes of a run (engine/arrivals.js). What the page posts has no number until the worker answers. For keys, and
 * for serial bytes, this holds:
 * - `taken` is what the last frame said; the inputs that the page has heard of are those that were taken below it.
 * - The pieces are what comes from `taken` on, in rising order and without a gap, and after it what the worker has not answered yet.
 * What is posted, answered and shown comes in order. So inputs and pieces together have each key once, at any time; and what is kept is made of them. */
import { joined } from "../formats/states.js";

/** What was posted at once, and the numbers of its first key and its first byte; null until the worker answers.
 * @typedef {{ keys: Bytes, serial: Bytes, first: Numbers | null }} Piece */

const NAMES = /** @type {const} */ (["keys", "serial"]);

export class Typed {
  /** @type {Piece[]} */
  pieces = [];
  /** @type {Numbers} */
  taken = { keys: 0, serial: 0 };

  /** Begins with what waits for the run in the worker. What was answered is in it; the rest came later.
   * @param {Waiting} waiting */
  begin({ keys, serial, taken }) {
    const known = { keys: Uint8Array.from(keys), serial: Uint8Array.from(serial), first: taken };
    Object.assign(this, { taken, pieces: [...(keys.length + serial.length ? [known] : []), ...this.posted] });
  }

  /** Adds what is posted to the worker.
   * @param {Partial<Waiting>} typed
   * @returns {Piece} */
  post({ keys = [], serial = [] }) {
    const piece = { keys: Uint8Array.from(keys), serial: Uint8Array.from(serial), first: null };
    this.pieces.push(piece);
    return piece;
  }

  /** @param {Piece} piece */
  drop(piece) {
    this.pieces = this.pieces.filter((one) => one !== piece);
  }

  /** Takes the numbers of a piece, which comes before all that have none.
   * @param {Piece} piece
   * @param {Numbers} first */
  number(piece, first) {
    const { posted } = this;
    this.pieces = [...this.pieces.filter((one) => one.first), { ...piece, first }, ...posted];
  }

  /** Hears up to which numbers all is taken. Returns whether that is more than before.
   * @param {Numbers} taken */
  hear(taken) {
    const isMore = NAMES.some((name) => taken[name] > this.taken[name]);
    this.taken = taken;
    if (isMore) this.pieces = this.pieces.filter((piece) => NAMES.some((name) => this.rest(piece, name).length));
    return isMore;
  }

  /** What the worker has not answered yet. */
  get posted() {
    return this.pieces.filter(({ first }) => !first);
  }

  /** Returns what is not taken of a piece.
   * @param {Piece} piece
   * @param {"keys" | "serial"} name */
  rest(piece, name) {
    return piece[name].subarray(piece.first ? Math.max(0, this.taken[name] - piece.first[name]) : 0);
  }

  /** Returns what waits.
   * @returns {Waiting & { keys: Bytes, serial: Bytes }} */
  get waiting() {
    const [keys, serial] = NAMES.map((name) => joined(this.pieces.map((piece) => this.rest(piece, name))));
    return { keys, serial, taken: this.taken };
  }
}
