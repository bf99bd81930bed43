// @ts-check
/* The workers that search, each one piece of a run at a time. The page starts them at the first search; pieces and hits go through a
 * port between each and the worker that looks into the past. */
import { Refused } from "../formats/refused.js";
import { Ended } from "./tasks.js";

/** @typedef {{ hit: Hit | null, ms: number }} Searched */
/** @typedef {{ piece: Piece, resolve: (found: Searched) => void, reject: (error: Error) => void }} PoolTask */

export class SearchPool {
  size = 0;
  /** @type {MessagePort[]} */
  idle = [];
  /** @type {PoolTask[]} */
  waiting = [];
  /** @type {Map<MessagePort, PoolTask>} */
  tasks = new Map();

  /** Takes one more worker, by its port.
   * @param {MessagePort} port */
  join(port) {
    this.size++;
    port.onmessage = ({ data }) => this.heard(port, data);
    this.idle.push(port);
    this.begin();
  }

  /** Searches a piece: a state, words and inputs, the count at which it ends, conditions, and whether for the last hit. Returns the hit
   * or null, and how long it took.
   * @param {Piece} piece
   * @returns {Promise<Searched>} */
  search(piece) {
    const found = new Promise((resolve, reject) => this.waiting.push({ piece, resolve, reject }));
    // The result of a piece whose search has ended is dropped.
    found.catch(() => {});
    this.begin();
    return found;
  }

  /** Drops the pieces that no worker has begun. */
  clear() {
    for (const { reject } of this.waiting.splice(0)) reject(new Ended());
  }

  begin() {
    while (this.idle.length && this.waiting.length) {
      const [port] = this.idle.splice(-1), [task] = this.waiting.splice(0, 1), { state, words, inputs } = task.piece;
      this.tasks.set(port, task);
      port.postMessage(task.piece, [state.buffer, words.buffer, inputs.buffer]);
    }
  }

  /**
   * @param {MessagePort} port
   * @param {{ found?: Searched } & Failure} answer
   */
  heard(port, { found, refused, broken }) {
    const { resolve, reject } = /** @type {PoolTask} */ (this.tasks.get(port));
    this.idle.push(port);
    if (found) resolve(found);
    else reject(new Refused(refused ?? broken));
    this.begin();
  }
}

/** Searches a piece on an emulator.
 * @param {import("./emulator.js").Emulator} emulator
 * @param {Required<Piece>} piece
 * @returns {Searched} */
export function searchedOn(emulator, { state, words, inputs, to, conditions, isLast }) {
  const begun = performance.now();
  emulator.put(emulator.address, { state, words });
  return { hit: emulator.library.find(emulator.address, inputs, to, conditions, isLast), ms: performance.now() - begun };
}
