// @ts-check
/* What the checkpoints of a recording claim. The library reads some of them at once, those from one on that name so many pages at most, so that a recording with
 * thousands of checkpoints is not read for each. */
import { CHECKPOINT_BYTES } from "./library.js";
import { Refused } from "../formats/refused.js";
import { changesOf, sliceOf, tableAt } from "./slices.js";
import { PAGE_BYTES, PAGES, STATE_BYTES } from "../formats/states.js";

const MOST_HELD = 64, MOST_PAGES = 4096;

export class Claims {
  // The checkpoints that are held, from a number on, and their pages.
  first = 0;
  checkpoints = new Uint8Array();
  pages = new Uint8Array();

  /**
   * @param {Library} library
   * @param {Recording} recording
   */
  constructor(library, recording) {
    this.library = library;
    this.recording = recording;
    this.counts = recording.claims.map(({ count }) => count);
    let sent = 0;
    this.sent = recording.claims.map((claim) => (sent += claim.sent.length));
  }

  /** Returns the number of the last checkpoint at or below a count.
   * @param {number} count */
  before(count) {
    return this.counts.findLastIndex((other) => other <= count);
  }

  /** Reads checkpoints from a number on.
   * @param {number} number */
  hold(number) {
    const { recording, library } = this, { claims } = recording, table = tableAt(recording, number);
    let end = number;
    for (let pages = 0, own = table.slice(); end + 1 < claims.length && end < number + MOST_HELD && pages < MOST_PAGES; end++) {
      const changes = changesOf(recording, claims[end + 1], own);
      for (const [slot, id] of changes) own[slot] = id;
      pages += changes.length;
    }
    Object.assign(this, { first: number, ...library.claims(sliceOf(recording, table, number, end)) });
  }

  /** Writes a claimed state and its words to an address.
   * @param {number} number
   * @param {number} address */
  load(number, address) {
    if (!this.recording.claims[number]) throw new Refused(`no checkpoint ${number}`);
    if (number < this.first || number >= this.first + this.checkpoints.length / CHECKPOINT_BYTES) this.hold(number);
    const { library, checkpoints, pages } = this, at = CHECKPOINT_BYTES * (number - this.first), words = library.bytes(address + STATE_BYTES, PAGES * PAGE_BYTES);
    library.bytes(address, STATE_BYTES).set(checkpoints.subarray(at, at + STATE_BYTES));
    library.view.setBigUint64(address, BigInt(this.counts[number]), true);
    const table = new Uint32Array(checkpoints.buffer, at + STATE_BYTES + 8, PAGES);
    table.forEach((id, slot) => words.set(pages.subarray(PAGE_BYTES * id, PAGE_BYTES * (id + 1)), PAGE_BYTES * slot));
  }
}
