// @ts-check
/* All hits of conditions in a span, by the library's lists. */
import { INPUT_BYTES } from "../formats/layout.js";
import { Pace } from "./emulator.js";
import { Refused } from "../formats/refused.js";
import { CALL_MS, FIRST_RUN } from "./replayer.js";
import { Errand, isWhole } from "./tasks.js";

// The most hits in a list, and the most conditions.
const MOST_HITS = 1000, MOST_CONDITIONS = 64;

export class HitLists {
  pace = new Pace(CALL_MS, FIRST_RUN);

  /** @param {import("../workers/past.js").History} history */
  constructor(history) {
    this.history = history;
    this.errand = new Errand(history);
  }

  /** Returns the hits in [from, to), up to a number, and the count up to which these are all. A newer request ends this one.
   * @param {Requests["hits"][0]} given
   * @returns {Promise<Hits | null>} */
  hits({ generation, from, to, conditions }) {
    if (!(isWhole(from) && isWhole(to) && from <= to)) throw new Refused("hits are listed from a count up to a count");
    if (!conditions.length || conditions.length > MOST_CONDITIONS) throw new Refused(`want 1 to ${MOST_CONDITIONS} conditions`);
    const { history, errand: { replayer }, pace } = this, { library, inputs } = history;
    return this.errand.run({ generation, to }, async (turn) => {
      /** @type {Hit[]} */
      const hits = [];
      await history.reach(replayer, from, turn);
      while (replayer.count < to && hits.length < MOST_HITS) {
        const { count } = replayer, begun = performance.now(), end = Math.min(to, count + pace.steps);
        const given = inputs.bytes.subarray(INPUT_BYTES * inputs.from(count), INPUT_BYTES * inputs.from(end));
        hits.push(...library.hits(replayer.address, given, end, conditions, MOST_HITS - hits.length));
        pace.took(replayer.count - count, performance.now() - begun);
        await turn();
      }
      // What it sent on the way is not known.
      const end = replayer.count;
      replayer.forget();
      return { hits, end };
    });
  }
}
