// @ts-check
/* Where an input is taken: the instruction that takes a key out of the machine's queue; of another input, the count before which it comes. */
import { app } from "../../host/app.js";
import { LOAD } from "../../formats/conditions.js";
import { nowCount, shownCount } from "../../host/shown.js";
import { AT, field, MOST_KEYS } from "../../formats/states.js";

// The bytes of the device whose load takes the oldest key, and within how many counts an instruction that takes one is looked for:
// a program may take none.
const TAKES_KEY = { kind: LOAD, from: 0xffffdc, end: 0xffffe0, value: 0 }, FURTHEST = 1e8;

/** Returns how many keys wait at a count, with those that come there, and whether other inputs come there.
 * @param {number} at */
async function waitingAt(at) {
  const [moment, rows] = await Promise.all([app.past.moment(at), app.past.around(at, 0, 1)]);
  const inputs = rows?.[0]?.inputs ?? [], keys = inputs.filter(([kind]) => kind === "key").length;
  return { keys: moment ? Math.min(MOST_KEYS, field(moment.state, AT.keys) + keys) : 0, isKey: keys > 0 };
}

/** Returns the counts of the first loads that take a key, in [from, to) and not too far from its beginning, up to a number of them.
 * @param {number} from
 * @param {number} to
 * @param {number} most */
async function takesIn(from, to, most) {
  /** @type {number[]} */
  const found = [];
  const end = Math.min(to, from + FURTHEST);
  for (let at = from; found.length < most && at < end; at = found[found.length - 1] + 1) {
    const hit = await app.past.find({ from: at, to: end, conditions: [TAKES_KEY], request: app.past.numbered() });
    if (hit?.at === undefined) break;
    found.push(hit.at);
  }
  return found;
}

/** @param {number} at @param {boolean} isBefore */
const inputNear = (at, isBefore) => app.live.ask("inputNear", { at, isBefore });

/** Returns the count of the last instruction before the cursor that took a key, or of the first one after it; of an input that no instruction takes, or has not
 * taken yet, the count before which it comes; or null if there is none.
 * @param {boolean} isBack
 * @returns {Promise<number | null>} */
export const inputTaken = (isBack) => (isBack ? takenBefore(shownCount()) : takenAfter(shownCount()));

/** @param {number} at */
async function takenBefore(at) {
  for (let came = await inputNear(at, true); came !== null; came = await inputNear(came, true)) {
    const { keys, isKey } = await waitingAt(came), takes = await takesIn(came, at + 1, keys), before = takes.filter((count) => count < at);
    if (before.length) return before[before.length - 1];
    // From the instruction that takes the key one goes on to the input before.
    if (!isKey || !takes.includes(at)) return came;
  }
  return null;
}

/** @param {number} at */
async function takenAfter(at) {
  const now = nowCount(), { keys } = await waitingAt(at), [here] = await takesIn(at, Math.min(at + 1, now), keys), left = keys - Number(here === at);
  const [taken] = await takesIn(at + 1, now, Math.min(left, 1)), came = await inputNear(at, false);
  if (came === null || came > now) return taken ?? null;
  const { isKey } = await waitingAt(came);
  if (taken !== undefined && (isKey || taken < came)) return taken;
  return isKey ? (await takesIn(came, now, 1))[0] ?? came : came;
}
