// @ts-check
/* The run of the live machine: how it goes, and how it went so far. Those who change how it goes are in turns.js. */
import { machine } from "./context.js";
import { Pace } from "../engine/emulator.js";

/** How long a turn of a run is that goes as fast as it can, in ms. */
export const BUDGET_MS = 12;
const FIRST_CHUNK = 200000, QUIET_TURNS = 30;

/** @typedef {import("./returns.js").Return} Return */
/** A run: at 25 MHz or as fast as it goes, up to a goal if there is one, with a checkpoint at a distance in seconds. Then when and where it begun, when
 * its last turn begun, its clock, how long its turns took, their number, how many had no news, its pace, the hit at which it is paused, the
 * count of the instruction that is done though it has a breakpoint, whether the recording became full, at which speed it goes on live after its goal, at which
 * return it ends, and whether it has come there; whether it goes on where the program ends, and whether it has come there.
 * @typedef {{ on: boolean, fast: boolean, goal: number | null, seconds: number, begun: number, from: number, turn: number,
 *   clock: { ms: number, count: number }, busy: number, frames: number, quiet: number, pace: Pace,
 *   hit: { at: number, condition: Condition } | null, passed: number, becameFull: boolean, then: { fast: boolean } | null,
 *   returns: Return | null, isBack: boolean, isEndless: boolean, isDone: boolean }} Run */

/** A run that has ended, or never began.
 * @returns {Run} */
export const noRun = () => ({
  on: false, fast: false, goal: null, seconds: 0, begun: 0, from: 0, turn: 0, clock: { ms: 0, count: 0 }, busy: 0, frames: 0, quiet: 0,
  pace: new Pace(BUDGET_MS, FIRST_CHUNK), hit: null, passed: -1, becameFull: false, then: null, returns: null, isBack: false,
  isEndless: false, isDone: false,
});
/** @type {Run} */
export let run = noRun();

/** Has another run in place of the one that is there.
 * @param {Run} other */
export function replaceRun(other) {
  run = other;
}

/** Whether nothing came about for a while that is shown. */
export const isQuiet = () => run.quiet >= QUIET_TURNS;

/** Returns how fast the run is: instructions in a second, and which part of the time it works; or null at its very beginning. */
export function speedOf() {
  const ms = performance.now() - run.begun;
  return ms > 0 ? { perSecond: (machine.count - run.from) / ms * 1000, busy: run.busy / ms } : null;
}
