// @ts-check
/* The turns of the live machine: how a run begins and ends, how far each turn goes, and what is met on the way. */
import { BUDGET_MS, isQuiet, noRun, replaceRun, run } from "./run.js";
import { FRAME_MS, generation, show, showTurn } from "./frames.js";
import { INPUT_BYTES } from "../formats/layout.js";
import { CHECKPOINT_LIMIT, MOST_COUNT } from "../formats/limits.js";
import { Return } from "./returns.js";
import { SerialLine } from "../engine/serialline.js";
import { joined, last, PER_SECOND } from "../formats/states.js";
import { faultOf, library, machine } from "./context.js";

const LAG_MS = 100, PER_MS = PER_SECOND / 1000;
// After some turns in which nothing came about that is shown, a turn at 25 MHz is longer; what the user does ends that at once.
const QUIET_MS = 50;
// While typed keys or serial bytes wait, a turn runs in pieces for PIECES_MS, so that the program gets more than one: up to PIECES for keys; serialline.js says where
// pieces for serial bytes end.
const PIECES = 48, PIECES_MS = 8;
const NOTHING = new Uint8Array(), serialLine = new SerialLine();

/** @typedef {import("../engine/feed.js").Feed} Feed */

/** What reports to the past of the live machine, once it is connected.
 * @type {Feed | null} */
export let feed = null;

/** @param {Feed} made */
export function connectFeed(made) {
  feed = made;
}

// The conditions at which a run is paused: breakpoints and watches.
/** @type {Condition[]} */
let breaks = [];
/** @param {Condition[]} conditions */
export function setBreaks(conditions) {
  breaks = conditions;
}

/** Starts or ends the run: at 25 MHz or as fast as it goes, up to a goal if there is one. A run that begins does its first instruction
 * even at a breakpoint, or it would stay where it was paused.
 * @param {Requests["setRun"][0] & { isGoingOn?: boolean }} given */
export function setRun({ on, fast = false, goal = null, seconds = 0, then = null, returns = null, isGoingOn = false }) {
  const now = performance.now();
  const { count } = machine, clock = { ms: now, count };
  const back = isGoingOn ? run.returns : returns && new Return(library, returns);
  replaceRun({ ...noRun(), on, fast, goal, seconds, then, returns: back, begun: now, turn: now, from: count, clock, passed: isGoingOn ? -1 : count, isEndless: goal !== null || machine.isAtEnd });
  if (on) return isDue ? undefined : tick();
  endRun();
  show(NOTHING);
}

/** Ends the run. What still waits for its count gets it, so that it is kept. */
export function endRun() {
  Object.assign(run, { on: false, goal: null });
  machine.stamp(() => machine.count);
  feed?.ended();
}

/** Changes the speed of the run, or how often there is a checkpoint. The goal stays.
 * @param {Requests["setPace"][0]} given */
export function setPace({ fast, seconds }) {
  const { on, goal, then } = run;
  if (on) setRun({ on, fast, goal, seconds, then: then && { fast }, isGoingOn: true });
}

/** Does one turn: advances as far as the clock, or the time of a frame, allows, and stops at each checkpoint on the way. */
function tick() {
  if (!run.on) return;
  try {
    const begun = performance.now(), wasReplay = machine.isReplay;
    feed?.begun();
    const sent = isAtEnd() ? turnTo(machine.end, begun + LAG_MS) : run.fast ? fastTurn(begun) : clockedTurn(begun);
    feed?.follow(run.fast, performance.now() - begun);
    run.busy += performance.now() - begun;
    run.turn = begun;
    run.frames++;
    if (isOver(wasReplay)) endOrGoOn();
    showTurn(sent);
    if (run.hit) postMessage({ met: { generation, ...run.hit } });
    if (run.on && !isDue) again(begun);
  } catch (error) {
    run.on = false;
    postMessage(faultOf(error));
    show(NOTHING);
  }
}

/** Whether the machine has stopped in a replay. It changes no more, so it is at the end of the replay at once. */
function isAtEnd() {
  return machine.isReplay && machine.part("stop") !== 0;
}

/** Whether the run ends after a turn: at its goal, at the end of a replay, where the machine has stopped, where its program ends, where the recording became
 * full, and at the last count that there is, at which a file may have inputs.
 * @param {boolean} wasReplay */
function isOver(wasReplay) {
  if (run.becameFull || run.hit || run.isBack || run.isDone || machine.isAtLastCount || (run.goal !== null && machine.count >= run.goal)) return true;
  return !machine.isReplay && (wasReplay || machine.part("stop") !== 0);
}

/** Ends the run, or continues live from its goal. */
function endOrGoOn() {
  const { then, hit, becameFull, seconds } = run;
  if (!then || hit || becameFull || machine.isReplay || machine.part("stop") || machine.isAtEnd) return endRun();
  const now = performance.now(), { count } = machine;
  replaceRun({ ...noRun(), on: true, fast: then.fast, seconds, begun: now, turn: now, from: count, clock: { ms: now, count }, frames: run.frames });
}

// Whether the next turn is under way: there is never more than one; and the timer for which it waits, if it does.
let isDue = false, timer = 0;
const turns = new MessageChannel();
turns.port1.onmessage = nextTurn;

function nextTurn() {
  isDue = false;
  timer = 0;
  tick();
}

/** @param {number} begun */
function again(begun) {
  const left = run.fast ? 0 : (isQuiet() ? QUIET_MS : FRAME_MS) - (performance.now() - begun);
  isDue = true;
  if (left > 1) timer = setTimeout(nextTurn, left);
  else turns.port2.postMessage(null);
}

/** Ends the long turns of a machine that waits: something arrived for it. */
export function wake() {
  if (isQuiet() && timer) {
    clearTimeout(timer);
    timer = 0;
    turns.port2.postMessage(null);
  }
  run.quiet = 0;
}

/** @param {number} now */
function clockedTurn(now) {
  let to = run.clock.count + Math.floor((now - run.clock.ms) * PER_MS);
  // Too slow for real time, or suspended: the machine falls behind real time.
  if (to - machine.count > LAG_MS * PER_MS) {
    run.clock = { ms: now, count: machine.count };
    to = machine.count + Math.floor(FRAME_MS * PER_MS);
  }
  const { ms, count } = run.clock;
  // What was done within the last frame comes at the same times within the next one.
  machine.stamp((at) => count + (at - ms + FRAME_MS) * PER_MS, to);
  return turnTo(to, now + LAG_MS);
}

/** Runs a piece that takes about a frame, so that messages are read between two pieces.
 * @param {number} begun */
function fastTurn(begun) {
  const from = machine.count, { pace, turn } = run, to = from + pace.steps;
  machine.stamp((at) => from + (at - turn) * pace.steps / BUDGET_MS, to);
  const sent = turnTo(to, begun + BUDGET_MS);
  pace.took(machine.count - from, performance.now() - begun);
  return sent;
}

/** Advances to a count, from checkpoint to checkpoint, until then or until the time is up.
 * @param {number} to
 * @param {number} deadline */
function turnTo(to, deadline) {
  /** @type {Bytes[]} */
  const sent = [];
  const pieced = performance.now() + PIECES_MS, { isReplay } = machine, least = Math.ceil((to - machine.count) / PIECES);
  const isToGoOn = () => machine.count < to && machine.isReplay === isReplay && !run.becameFull && !run.hit && !run.isBack && !run.isDone;
  // A recording that goes on may have reached a limit before.
  run.becameFull ||= machine.endIfFull();
  for (let piece = least; isToGoOn() && (!sent.length || performance.now() < deadline);) {
    const waited = machine.arrivals.typed, isPieced = machine.feed() && performance.now() < pieced;
    // A program that takes nothing now gets longer pieces.
    piece = machine.arrivals.typed < waited ? least : 2 * piece;
    machine.foresee();
    const stop = Math.min(to, machine.nextStop(run.seconds, machine.trueTo), run.goal ?? Infinity, machine.roomEnd, MOST_COUNT);
    if (stop <= machine.count) break;
    advanceTo(isPieced ? serialLine.give(machine, stop, machine.count + piece) : stop, sent);
  }
  return joined(sent);
}

/** Advances to a count, or to where the run is paused before it, and adds the bytes that the machine sent to a list.
 * @param {number} stop
 * @param {Bytes[]} sent */
function advanceTo(stop, sent) {
  try {
    const end = breaks.length || run.returns ? breakBefore(stop) : stop;
    if (end <= machine.count) return;
    const isToEnd = !run.isEndless && !machine.isReplay;
    // While it takes by pieces what was typed, no copy is made: it may pass the end by a piece.
    sent.push(machine.advance(end, isToEnd && !machine.arrivals.typed));
    run.isDone = isToEnd && machine.isAtEnd;
  } finally {
    machine.takeBack();
  }
  reached();
}

/** Returns the count of the first breakpoint or watch that the run meets before a count, or of the return at which it ends, or that count. The first instruction of
 * a run is done even at a breakpoint.
 * @param {number} stop */
function breakBefore(stop) {
  const isFirst = machine.count === run.passed, end = isFirst ? machine.count + 1 : stop;
  const { to, isOver } = run.returns?.next(machine, end, isFirst) ?? { to: end, isOver: false };
  const inputs = machine.inputs.bytes.subarray(INPUT_BYTES * machine.next, INPUT_BYTES * machine.inputs.from(to, machine.next));
  const hit = isFirst || !breaks.length ? null : library.find(machine.address, inputs, to, breaks, false);
  if (hit) run.hit = { at: hit.at, condition: breaks[hit.which] };
  else run.isBack = isOver;
  return hit?.at ?? to;
}

/** Records and judges a checkpoint if the machine has just come to one. */
export function reached() {
  const passed = machine.pass(), { count } = machine, isPlanned = machine.planned.includes(count), step = (run.seconds) * PER_SECOND;
  if (isPlanned) machine.mark();
  else if (step && count % step === 0) mark();
  run.becameFull = machine.endIfFull();
  const judged = last(passed)?.count === count ? null : machine.judge();
  if (judged) passed.push(judged);
  if (passed.length) postMessage({ passed });
  if (isPlanned) feed?.checkpoint();
}

/** Records a checkpoint. Room for one is left for the end of the recording. */
export function mark() {
  const isNew = machine.mark(CHECKPOINT_LIMIT - 1);
  if (isNew) feed?.keyframe(true);
  return isNew;
}
