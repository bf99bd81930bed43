// @ts-check
/* The frames that the live worker posts: what the page shows of the machine, and what it has not heard of yet of what it keeps. */
import { library, machine } from "./context.js";
import { INPUT_BYTES } from "../formats/layout.js";
import { isQuiet, run, speedOf } from "./run.js";
import { AT, equalWords, field, sentText, wordsOf } from "../formats/states.js";

/** The least time between two turns, in ms. */
export const FRAME_MS = 1000 / 60;
// What changes with each turn, as the count does, is posted so often; and less often while turns are longer.
const SHOW_MS = 100, QUIET_SHOW_MS = 200;

// The number of the machine that is shown: each one that is opened has the next. And that of its run: one that is taken over has the next, too.
export let generation = 0, fork = 0;

/** Counts one more machine that is opened. */
export function countMachine() {
  generation++;
}

// What was posted last: the dots; a text of what else is shown as soon as it changes; the number of checkpoints; and when.
/** @type {{ dots: Bytes | null, noted: string, marks: number, at: number }} */
let posted = { dots: null, noted: "", marks: 0, at: 0 };
// How many inputs and checkpoints of the run the page has heard of, which it keeps.
let said = { inputs: 0, marks: 0 };

/** Begins another run: the page asks for what it has so far. */
export function beginRun() {
  fork++;
  said = { inputs: machine.inputs.length, marks: machine.marks.length };
}

/** Returns the inputs and the checkpoints that the page has not heard of, and up to which numbers what was typed is taken. */
function fresh() {
  const { inputs, marks, arrivals: { taken } } = machine, news = { inputs: inputs.bytes.slice(INPUT_BYTES * said.inputs), marks: marks.slice(said.marks), taken };
  said = { inputs: inputs.length, marks: marks.length };
  return news;
}

/** Returns the dots if they have changed since they were posted, or null. */
function changedDots() {
  return posted.dots && equalWords(wordsOf(posted.dots), wordsOf(machine.dots)) ? null : machine.dots.slice();
}

/** Returns what else is shown as soon as it changes. */
function noted() {
  const { inputs, next, arrivals, isReplay } = machine;
  return [...[AT.LEDs, AT.switches, AT.mouse].map((at) => field(machine.state, at)), inputs.length, next, arrivals.typed, isReplay].join();
}

/** Posts what the page shows of the machine after a turn, unless only changed what changes with each turn, and that was posted a moment
 * ago.
 * @param {Bytes} sent */
export function showTurn(sent) {
  const dots = changedDots(), isNew = dots !== null || sent.length > 0 || posted.noted !== noted();
  run.quiet = isNew ? 0 : run.quiet + 1;
  const ms = performance.now() - posted.at, isLate = ms >= (isQuiet() ? QUIET_SHOW_MS : SHOW_MS) - FRAME_MS / 2;
  if (isNew || isLate || !run.on || machine.marks.length !== posted.marks) post(sent, dots);
}

/** Posts what the page shows of the machine: its state; its dots if they changed; and the words around PC.
 * @param {Bytes} sent
 * @param {boolean} isWhole */
export function show(sent, isWhole = false) {
  post(sent, isWhole ? machine.dots.slice() : changedDots());
}

/**
 * @param {Bytes} sent
 * @param {Bytes | null} dots
 */
function post(sent, dots) {
  posted = { dots: dots ?? posted.dots, noted: noted(), marks: machine.marks.length, at: performance.now() };
  const { inputs, given, next, marks, planned, isReplay, isTrue, arrivals, full, inputRefusal, isAtLastCount, hasLastRoom } = machine;
  postMessage({
    state: machine.state.slice(), dots, listing: machine.listing(6, 14), sent: sentText(sent), generation, fork, fresh: fresh(), memory: library.size,
    on: run.on, isQuiet: run.on && isQuiet(), goal: run.goal ?? null, speed: run.on ? speedOf() : null, frames: run.frames ?? 0,
    inputs: inputs.length, ahead: Math.max(0, given - next), marks: marks.length, planned: planned.length, typed: arrivals.typed, serial: arrivals.serial.length,
    hasOwn: machine.isToKeep, inputRefusal, isReplay, isTrue, full, isAtLastCount, hasLastRoom,
  });
}
