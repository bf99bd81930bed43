// @ts-check
/* What is known of the lanes of the timeline: what came, what was sent, what changed, the checkpoints, and how far the machine and its file go. This module owns
 * it. */
import { app } from "../../host/app.js";
import { falseClaim, nowCount } from "../../host/shown.js";

/** The lanes, from above. */
export const LANES = ["checkpoints", "notes", "keys", "mouse", "serial", "disk", "screen", "calls", "hits", "keyframes"];
// What the lanes show. `end` is the last count that is known of: that of now, or of the file.
// `cells` are the parts of the span of which it is known what changed in them, `passed` are the claims that a replay has judged, and `film` the
// counts of the keyframes. It is replaced whole when another machine is opened.
/** @type {Lanes} */
const NOTHING_FOUND = { keys: [], mouse: new Uint8Array(), serial: new Uint8Array(), disk: new Uint8Array(), listed: { keys: [], mouse: [], serial: [], disk: [] }, marks: [], planned: [], end: 0 };
// `rows` are the lanes that have something, or had.
/** @returns {{ end: number, found: Lanes, cells: Cell[], passed: Map<number, string>, film: number[], rows: string[] }} */
const newLanes = () => ({ end: 0, found: NOTHING_FOUND, cells: [], passed: new Map(), film: [], rows: [LANES[LANES.length - 1]] });
export let lanes = newLanes();

/** Forgets what is known: another machine is open, which has come to a count.
 * @param {number} end */
export function forgetLanes(end) {
  lanes = { ...newLanes(), end };
}

/** Takes what is known now.
 * @param {Partial<typeof lanes>} known */
export function takeLanes(known) {
  lanes = { ...lanes, ...known };
}

/** Extends the timeline to a count at least.
 * @param {number} count */
export function reachTo(count) {
  if (count > lanes.end) lanes.end = count;
}

/** Notes what a replay found of the claim at a count.
 * @param {number} count
 * @param {boolean} isTrue */
export function notePassed(count, isTrue) {
  lanes.passed.set(count, isTrue ? "true" : "false");
}

/**
 * @param {number} count
 * @param {string} state
 * @returns {[number, string]}
 */
const marked = (count, state) => [count, state];

/** The checkpoints with what is known of each: those of the file, or those that the page made. */
export function claimMarks() {
  const wrong = falseClaim(), ofFile = app.file?.claims ?? [], known = new Set(ofFile), { planned, marks } = lanes.found;
  const claims = ofFile.map((count, number) => marked(count, stateOfClaim(number, count, wrong))).slice(1);
  const own = [...new Set([...planned, ...marks])].filter((count) => !known.has(count));
  return [...claims, ...own.map((count) => marked(count, lanes.passed.get(count) ?? "unchecked"))];
}

/** What is known of a checkpoint of the file: true, false, not judged (it comes after a false one), or unchecked.
 * @param {number} number
 * @param {number} count
 * @param {Wrong | null} wrong */
function stateOfClaim(number, count, wrong) {
  if (wrong) return number < wrong.number ? "true" : number === wrong.number ? "false" : "not judged";
  if (app.file?.verdict?.status === 0) return "true";
  return lanes.passed.get(count) ?? "unchecked";
}

/** Returns the parts of a span, as far as the machine's end is known, of which it is not known what changed in them.
 * @param {{ from: number, to: number }} span
 * @returns {[number, number][]} */
export function unknownParts({ from, to }) {
  /** @type {[number, number][]} */
  const parts = [];
  let at = Math.max(0, from);
  for (const cell of lanes.cells) {
    if (cell.from > at) parts.push([at, cell.from]);
    at = Math.max(at, cell.end);
  }
  const end = Math.min(to, Math.max(lanes.end, nowCount()));
  return end > at ? [...parts, [at, end]] : parts;
}
