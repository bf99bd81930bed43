// @ts-check
/* What the instructions before and after a count did, by the library's records. */
import { Refused } from "../formats/refused.js";
import { AT, field } from "../formats/states.js";
import { isWhole } from "./tasks.js";

/** The most instructions before a count of which it is said what they did last. */
export const MOST_BEFORE = 4096;
const MOST_AROUND = 512;
// A look at what was done last leaves a keyframe this far before it, if there is none: the next one is near.
const KEPT_BEFORE = 65536;

export class Recent {
  /** @param {import("../workers/past.js").History} history */
  constructor(history) {
    this.history = history;
  }

  /** Returns the instructions before and after a count, as far as the machine does any, with what each changed.
   * @param {Requests["around"][0]} given */
  around({ generation, at, before, after }) {
    if (!(isWhole(before) && isWhole(after) && before + after <= MOST_AROUND)) throw new Refused(`more than ${MOST_AROUND} instructions`);
    const { history } = this;
    return history.look({ generation, at }, async (turn) => {
      const { looker, inputs } = history, end = Math.min(at + after, Math.max(at, history.end));
      await history.reach(looker, Math.max(0, at - before), turn, { mayBeClaimed: history.mayBeClaimed(at) });
      if (looker.count === end) return [];
      const records = looker.record(inputs, end - looker.count), numbers = Array.from({ length: records.length }, (_, number) => number);
      return numbers.filter((number) => !field(records.state(number), AT.stop)).map((number) => records.done(number));
    });
  }

  /** Returns what each word did last that was executed in the last instructions before a count.
   * @param {Requests["effects"][0]} given */
  effects({ generation, at, before }) {
    if (!(isWhole(before) && before <= MOST_BEFORE)) throw new Refused(`more than ${MOST_BEFORE} instructions`);
    return this.history.look({ generation, at }, (turn) => this.effectsBefore(at, before, turn));
  }

  /** Brings the looker to a count, and returns what each word did last that was executed in the last instructions before it.
   * @param {number} at
   * @param {number} before
   * @param {() => Promise<void>} turn
   * @param {(replayer: import("./replayer.js").Replayer) => void} [heard] */
  async effectsBefore(at, before, turn, heard) {
    const { history } = this, { looker, inputs } = history, how = { mayBeClaimed: history.mayBeClaimed(at), heard }, from = Math.max(0, at - before), kept = from - KEPT_BEFORE;
    const isFar = kept > history.nearest(from, how.mayBeClaimed).count && !(looker.isSet && looker.count > kept && looker.count <= from);
    if (isFar) {
      await history.reach(looker, kept, turn, how);
      history.keep(looker);
    }
    await history.reach(looker, from, turn, how);
    return from < at ? looker.record(inputs, at - from).effects() : [];
  }
}
