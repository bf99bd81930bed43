// @ts-check
/* Chains of recordings, each of which begins where the one before ends: what the last checkpoint of one claims is the initial state of the next. */
import { readRecording } from "../formats/recordings.js";
import { changesOf, claimBytes, firstTable, pageOf, recordingOf } from "./slices.js";
import { joined, last, PAGES } from "../formats/states.js";

/** Returns the recording that a chain makes up, in version 2: that which the library makes if it extends the first one by the checkpoints of
 * the others.
 * @param {Bytes[]} parts */
export function chained(parts) {
  if (parts.length === 1) return parts[0];
  const chain = new Chain();
  for (const part of parts) chain.add(readRecording(part));
  return recordingOf(chain.pages, joined(chain.inputs), chain.claims, chain.sent);
}

/** Returns how many pages the initial state of a recording names.
 * @param {Bytes} bytes */
export function firstPages(bytes) {
  return new Set(firstTable(readRecording(bytes)).filter(Boolean)).size;
}

/** What the parts of a chain come to so far. */
class Chain {
  /** @type {Bytes[]} */
  pages = [];
  /** @type {Bytes[]} */
  inputs = [];
  /** @type {Bytes[]} */
  claims = [];
  /** @type {Bytes[]} */
  sent = [];
  // The count, and the table, of the last checkpoint.
  count = 0;
  table = new Uint32Array(PAGES);

  /** Adds the next part.
   * @param {Recording} part */
  add(part) {
    const begun = this.count, ids = new Map([[0, 0]]), own = new Uint32Array(PAGES);
    if (this.claims.length) this.follow(firstTable(part), own, ids);
    for (const claim of part.claims.slice(this.claims.length ? 1 : 0)) {
      const changes = changesOf(part, claim, own);
      for (const [slot, id] of changes) own[slot] = id;
      this.claims.push(claimBytes(part, claim, -begun, this.changed(part, changes, ids)));
      this.sent.push(claim.sent);
    }
    this.inputs.push(part.inputs.between(-begun, Infinity));
    this.count = begun + last(part.claims).count;
  }

  /** Takes the initial table of a part, and which of the chain's pages it names.
   * @param {Uint32Array} first
   * @param {Uint32Array} own
   * @param {Map<number, number>} ids */
  follow(first, own, ids) {
    own.set(first);
    first.forEach((id, slot) => id && ids.set(id, this.table[slot]));
  }

  /** Changes the table as a checkpoint of a part does. Pages that the chain does not have yet come at its pool's end. Returns the changes in the
   * chain's ids: a page that is another one with the same content is no change.
   * @param {Recording} part
   * @param {[number, number][]} changes
   * @param {Map<number, number>} ids */
  changed(part, changes, ids) {
    /** @type {[number, number][]} */
    const made = [];
    for (const [slot, own] of changes) {
      const id = ids.get(own) ?? this.pages.push(pageOf(part, own));
      ids.set(own, id);
      if (this.table[slot] !== id) made.push([slot, id]);
      this.table[slot] = id;
    }
    return made;
  }
}
