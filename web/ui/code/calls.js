// @ts-check
/* The calls that are open at a count: where the machine is, and what called that, the last call first. Each of the callers leads to its call. */
import { app } from "../../host/app.js";
import { commands } from "../../host/commands.js";
import { button, el, made, write } from "../../host/elements.js";
import { placeIn } from "../../host/names.js";
import { isAhead, shownCount } from "../../host/shown.js";
import { callAt, callsIn } from "../../formats/calls.js";
import { AT, countOf, equal, field } from "../../formats/states.js";
import { grouped, many } from "../../formats/texts.js";

// The most callers that are shown.
const MOST_CALLERS = 16;
/** Where the calls are shown that are asked for, by the numbers of the requests.
 * @type {Map<number, string>} */
const callsAsked = new Map();

/** Shows in an element which calls are open at a count, if it is still so that they are wanted. The state there is the one that is shown.
 * @param {string} name
 * @param {number} at
 * @param {Bytes} state
 * @param {() => boolean} isWanted */
export async function showCalls(name, at, state, isWanted) {
  if (isAhead() && at === shownCount()) return write(name, "");
  const request = app.past.numbered();
  callsAsked.set(request, name);
  const called = await app.past.calls(at, name, request).finally(() => callsAsked.delete(request));
  if (called && isWanted()) el(name).replaceChildren(...callParts(called, state));
}

/** Says how far the calls of a request are followed.
 * @param {NonNullable<PastNews["followed"]>} news */
export function showFollowed({ request, done, of }) {
  const name = callsAsked.get(request ?? -1);
  if (name && el(name)) write(name, `following calls: ${grouped(done)} of ${grouped(of)} counts ..`);
}

/** Returns where the machine is in a state, and the callers. Nothing is said if no call is open. What is shown may be what a checkpoint claims: if the run up
 * to there has another state, its calls are not those of what is shown.
 * @param {Called} called
 * @param {Bytes} shown
 * @returns {(string | HTMLElement)[]} */
function callParts({ at: count, state, calls, first, since }, shown) {
  if (countOf(shown) === count && !equal(state, shown)) return ["The calls are not known: this state is claimed, and the run from the beginning has another one."];
  const open = callsIn(calls), least = Math.max(0, open - MOST_CALLERS), entryOf = (/** @type {number} */ number) => 4 * (number < 0 ? first : callAt(calls, number).to);
  if (!open) return [];
  const at = 4 * field(state, AT.PC);
  /** @type {(string | HTMLElement)[]} */
  const parts = [made("bdi", placeIn(at, entryOf(open - 1)))];
  for (let number = open - 1; number >= least; number--) {
    const call = callAt(calls, number), go = button("", () => commands.moveCursor(call.count));
    go.append(made("bdi", placeIn(4 * call.back, entryOf(number - 1), 4 * call.back - 4)));
    go.title = `To the call, at ${grouped(call.count)}`;
    parts.push(" < ", go);
  }
  return [...parts, least ? ` < .. ${many(least, "call")} more` : "", since ? ` (calls since count ${grouped(since)})` : ""].filter(Boolean);
}
