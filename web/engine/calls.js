// @ts-check
/* Answers which calls are open at a count, and where one of them ends. */
import { Refused } from "../formats/refused.js";
import { Follower } from "./stacks.js";
import { isWhole } from "./tasks.js";

export class Calls {
  // One for each place that shows calls: a newer question there ends the one before.
  /** @type {Map<string, Follower>} */
  followers = new Map();

  /** @param {import("../workers/past.js").History} history */
  constructor(history) {
    this.history = history;
  }

  /** @param {string} place */
  of(place) {
    const follower = this.followers.get(place) ?? new Follower(this.history);
    this.followers.set(place, follower);
    return follower;
  }

  forget() {
    for (const follower of this.followers.values()) follower.forget();
  }

  /** Ends what is under way for a place. Its answer is null.
   * @param {Requests["stopCalls"][0]} given */
  stop({ place }) {
    this.of(place).errand.end();
  }

  /** Returns the calls that are open at a count, oldest first, and the state there.
   * @param {Requests["calls"][0]} given
   * @returns {Promise<Called | null>} */
  open({ place, at, ...given }) {
    if (!isWhole(at)) throw new Refused(`${at} is not a count`);
    const follower = this.of(place);
    return follower.errand.run({ ...given, to: at }, async (turn) => {
      await follower.reach(at, turn, follower.progress(given, at));
      return { at, state: follower.replayer.state.slice(), calls: follower.log.bytes, first: this.history.first, since: follower.since };
    });
  }

  /** Returns the first count after one, up to another, at which fewer than `open` of the calls are open that were open at the first; or null.
   * @param {Requests["ending"][0]} given
   * @returns {Promise<{ at: number | null } | null>} */
  ending({ place, at, to, open, ...given }) {
    if (!(isWhole(at) && isWhole(to) && at <= to)) throw new Refused("calls are followed from a count up to a count");
    const follower = this.of(place), { replayer, log } = follower;
    return follower.errand.run({ ...given, to }, async (turn) => {
      const heard = follower.progress(given, to);
      await follower.reach(at, turn, heard);
      while (replayer.count < to) {
        const isCut = await follower.next(to, turn);
        for (const { count, stay } of log.listed()) if (stay < open) return { at: count + 1 };
        if (isCut) return { at: replayer.count };
        heard(replayer.count);
        await turn();
      }
      return { at: null };
    });
  }
}
