// @ts-check
/* Steps by line, forward and back: into, over and out of what a branch with link calls. A line is an instruction. Which calls are open, and where they are over, is
 * followed by the library. In a program without a stack R14 is any register, so there a call ends where PC comes to the word after it. */
import { app } from "../../host/app.js";
import { COUNTER, elsewhere } from "../../formats/conditions.js";
import { callAt, callsIn } from "../../formats/calls.js";
import { notice } from "../../host/elements.js";
import { moveCursor } from "../timeline/cursormoves.js";
import { isAhead, isDone, isPast, nowCount, shownCount, shownState } from "../../host/shown.js";
import { runningProgram } from "./sourceprogram.js";
import { AT, field } from "../../formats/states.js";
import { grouped } from "../../formats/texts.js";

const PLACE = "step";
// The number of the question about calls that is under way, or 0, and whether the page says how far that is.
let stepping = 0, isSaid = false;

/** Whether calls are followed for a step. */
export const isStepping = () => stepping > 0;

/** Ends that. */
export const stopStepping = () => app.past.ask("stopCalls", { place: PLACE });

/** Says how far the calls are followed.
 * @param {NonNullable<PastNews["followed"]>} news */
export function showStepping({ request, done, of }) {
  if (!stepping || request !== stepping) return;
  isSaid = true;
  notice(`Following calls: ${grouped(done)} of ${grouped(of)} counts. Esc cancels it.`);
}

/** Asks about calls. A newer step ends this one, whose answer is null.
 * @template T
 * @param {(request: number) => Promise<T | null>} ask */
async function aboutCalls(ask) {
  const request = (stepping = app.past.numbered()), answer = await ask(request).finally(() => request === stepping && (stepping = 0));
  if (isSaid && !stepping) isSaid = false, notice();
  return answer;
}

/** Returns the calls that are open at a count, oldest first.
 * @param {number} at */
const callsAt = (at) => aboutCalls((request) => app.past.calls(at, PLACE, request));

/** Whether a word is a branch with link, which a call is.
 * @param {number | null | undefined} word */
const isCallWord = (word) => word !== null && word !== undefined && word >>> 30 === 3 && (word >>> 28 & 1) === 1;
const isStackless = () => runningProgram()?.hasStack === false;
const shownCounter = () => field(shownState(), AT.PC);

/** Looks at the first count after one at which fewer than `open` of its calls are open; if none comes by now, the page says so.
 * @param {number} at
 * @param {number} open
 * @param {string} why */
async function lookAtEnd(at, open, why) {
  const found = await aboutCalls((request) => app.past.ending({ place: PLACE, request, at, to: nowCount(), open }));
  if (found) return found.at === null ? notice(why) : moveCursor(found.at);
}

/** Runs the machine until something returns.
 * @param {Returning} returns */
const runToReturn = (returns) => app.live.ask("setRun", { on: true, fast: true, returns });

/** Does one instruction more, or one less; what it calls is entered. From the end of a program one instruction less is the one that led there.
 * @param {boolean} isBack */
export async function stepInto(isBack) {
  if (isBack && app.latest && !isPast() && isDone(app.latest)) {
    const last = await app.past.find({ to: nowCount(), last: true, conditions: elsewhere(shownCounter()), request: app.past.numbered() });
    if (last?.at !== undefined) return moveCursor(last.at);
  }
  if (isBack) return moveCursor(shownCount() - 1);
  if (isPast()) return moveCursor(shownCount() + 1);
  await app.live.ask("step");
}

/** Pauses a machine that runs, which is all that a step over or out does then. Returns whether it ran. */
async function pauses() {
  if (!app.latest?.on) return false;
  await app.live.ask("setRun", { on: false });
  return true;
}

/** Does one instruction with all that it calls, forward or back.
 * @param {boolean} isBack */
export async function stepOver(isBack) {
  if (await pauses()) return;
  const at = shownCount(), pc = shownCounter(), why = "The call has not returned yet.";
  if (isBack) return moveCursor((at && (isStackless() ? await wordBefore(at, pc - 1) : await callOver(at))) ?? at - 1);
  if (isAhead() || !isCallWord(await wordHere(at, pc))) return stepInto(false);
  if (isStackless()) return overWord(at, pc + 1, why);
  if (!isPast()) {
    const now = await callsAt(at);
    return now && runToReturn({ calls: now.calls, open: null });
  }
  const after = await callsAt(at + 1), open = after ? callsIn(after.calls) : 0;
  if (!after) return;
  if (!open || callAt(after.calls, open - 1).count !== at) return stepInto(false);
  await lookAtEnd(at + 1, open, why);
}

/** Returns the instruction that comes next: the one at PC.
 * @param {number} at
 * @param {number} pc */
async function wordHere(at, pc) {
  if (!isPast()) return app.latest?.listing.find(([place]) => place === pc)?.[1];
  return (await app.past.around(at, 0, 1))?.[0]?.word;
}

/** Returns the count of the call that is over with the instruction before a count; null if none is, or if that made another call.
 * @param {number} at */
async function callOver(at) {
  const before = await callsAt(at - 1), after = before && (await callsAt(at));
  if (!after) return shownCount();
  const stay = callsIn(after.calls);
  if (stay >= callsIn(before.calls) || (stay && callAt(after.calls, stay - 1).count === at - 1)) return null;
  return callAt(before.calls, stay).count;
}

/** Goes on until the procedure returns, or back to its call.
 * @param {boolean} isBack */
export async function stepOut(isBack) {
  if (await pauses()) return;
  const at = shownCount(), now = isAhead() ? null : await callsAt(at), open = now ? callsIn(now.calls) : 0;
  if (!now) return;
  if (!open) return notice("No call is open here.");
  if (isBack) return moveCursor(callAt(now.calls, open - 1).count);
  if (isPast()) return lookAtEnd(at, open, "It has not returned yet.");
  await runToReturn({ calls: now.calls, open });
}

// Without a stack

/** @param {number} pc */
const atWord = (pc) => ({ kind: COUNTER, from: pc, end: pc + 1, value: 0 });

/** Goes on until PC comes to a word.
 * @param {number} at
 * @param {number} pc
 * @param {string} why */
async function overWord(at, pc, why) {
  if (!isPast()) return runToReturn({ pc });
  const hit = await app.past.find({ from: at + 1, to: nowCount(), conditions: [atWord(pc)], request: app.past.numbered() });
  const found = hit?.at ?? (field(app.latest?.state ?? shownState(), AT.PC) === pc ? nowCount() : null);
  return found === null ? notice(why) : moveCursor(found);
}

/** Returns the last count before one at which PC was at a word that calls, if the instruction before that count led back to after it; or null.
 * @param {number} at
 * @param {number} pc */
async function wordBefore(at, pc) {
  const [row] = (await app.past.around(at, 1, 0)) ?? [];
  if (!row || row.pc === pc || pc < 0) return null;
  const hit = await app.past.find({ from: 0, to: at, last: true, conditions: [atWord(pc)], request: app.past.numbered() });
  const [call] = hit?.at === undefined ? [] : (await app.past.around(hit.at, 0, 1)) ?? [];
  return call && isCallWord(call.word) ? call.count : null;
}
