// @ts-check
/* The mouse, fingers and the wheel on the track of the timeline. */
import { answerAt } from "./answers.js";
import { app } from "../../host/app.js";
import { callText, callUnder } from "./callslane.js";
import { commands } from "../../host/commands.js";
import { laneAt } from "./drawing.js";
import { el, isNarrow, set } from "../../host/elements.js";
import { hitMarks } from "./hits.js";
import { claimMarks, lanes } from "./lanes.js";
import { showSpan, zoom } from "./loading.js";
import { columnOf, columns, countAt, timeline } from "./span.js";

const GLYPH_WIDTH = 6, FINGER_MOVE = 6;
// The room on each side of a call that is zoomed to, as a part of it.
const MARGIN = 0.02;
/** The pointers that press the track, with where they are.
 * @type {Map<number, number>} */
const pointers = new Map();
// The count that is pressed. A finger looks at it only once it has moved so far, or is lifted, since another one may come with it.
const pressing = { at: 0, far: 1 };

/** @param {MouseEvent} event */
const xOf = (event) => event.clientX - el("track").getBoundingClientRect().left;
/** @param {MouseEvent} event */
const yOf = (event) => event.clientY - el("track").getBoundingClientRect().top;

/** @param {PointerEvent} event */
export function trackPressed(event) {
  if (!app.latest || event.button > 0) return;
  pointers.set(event.pointerId, event.clientX);
  el("track").setPointerCapture(event.pointerId);
  el("cursor").focus({ preventScroll: true });
  const isDragged = pointers.size === 1, at = answerUnder(event)?.count ?? glyphNear(event) ?? countAt(xOf(event)), isFinger = event.pointerType === "touch";
  timeline.isDragged = isDragged;
  Object.assign(pressing, { at, far: isFinger ? FINGER_MOVE : 1 });
  if (isDragged && !isFinger) return commands.moveCursor(at, false);
}

/** Says what call is under the mouse, if it is in their lane.
 * @param {PointerEvent} event */
function nameUnder(event) {
  const at = laneAt(yOf(event));
  set("track", { title: answerUnder(event)?.what || (at?.lane === "calls" ? callText(Math.floor(countAt(xOf(event))), at.row, at.rows) : "") });
}

/** Returns the mark of an answer that is under the pointer, or null.
 * @param {PointerEvent} event */
const answerUnder = (event) => answerAt(xOf(event), el("track").getBoundingClientRect().bottom - event.clientY, columnOf);

/** Returns what is under the pointer in the lane of the calls, or null.
 * @param {MouseEvent} event */
function callAtPointer(event) {
  const at = laneAt(yOf(event));
  return at?.lane === "calls" ? callUnder(Math.floor(countAt(xOf(event))), at.row, at.rows) : null;
}

/** Shows the call that was clicked twice over the width of the track; or the columns in which several are.
 * @param {MouseEvent} event */
export function zoomToCall(event) {
  const under = callAtPointer(event);
  if (!under) return;
  const end = Math.min(under.end, lanes.end), margin = Math.max(1, (end - under.begin) * MARGIN);
  showSpan(under.begin - margin, end + margin);
}

/** Returns the count of the checkpoint or the hit whose glyph is under the pointer, or that of the branch that made the call, if there is one in sight.
 * @param {PointerEvent} event */
function glyphNear(event) {
  const lane = laneAt(yOf(event))?.lane, x = xOf(event), call = callAtPointer(event)?.call;
  if (call !== null && call !== undefined) return call >= timeline.from ? call : undefined;
  const marks = isNarrow() || lane === "checkpoints" ? claimMarks() : lane === "hits" ? hitMarks() : [];
  return marks.map(([count]) => count).find((count) => Math.abs(columnOf(count) - x) < GLYPH_WIDTH);
}

/** @param {PointerEvent} event */
export function trackMoved(event) {
  if (!pointers.has(event.pointerId)) return nameUnder(event);
  if (pointers.size === 2) return pinch(event);
  if (Math.abs(event.clientX - (pointers.get(event.pointerId) ?? 0)) < pressing.far) return;
  Object.assign(pressing, { at: countAt(xOf(event)), far: 1 });
  pointers.set(event.pointerId, event.clientX);
  if (timeline.isDragged) return commands.moveCursor(pressing.at, false);
}

/** Zooms by the distance of two fingers, around the one that stays.
 * @param {PointerEvent} event */
function pinch({ pointerId, clientX }) {
  const [[, other]] = [...pointers].filter(([id]) => id !== pointerId);
  const [before, now] = [Math.abs((pointers.get(pointerId) ?? 0) - other), Math.abs(clientX - other)];
  pointers.set(pointerId, clientX);
  if (before > 4 && now > 4) zoom(now / before, countAt(other - el("track").getBoundingClientRect().left));
}

/** @param {PointerEvent} event */
export function trackReleased(event) {
  if (!pointers.delete(event.pointerId)) return;
  if (!timeline.isDragged) return;
  timeline.isDragged = false;
  return commands.moveCursor(pressing.at);
}

/** The wheel zooms around the pointer with Ctrl, and moves along with Shift, or sideways; else it scrolls the page.
 * @param {WheelEvent} event */
export function wheeled(event) {
  if (!app.latest || !(event.ctrlKey || event.shiftKey || event.deltaX)) return;
  event.preventDefault();
  const across = event.shiftKey ? event.deltaY : event.deltaX, { from, to } = timeline;
  if (Math.abs(across) > Math.abs(event.shiftKey ? 0 : event.deltaY)) {
    const by = (across / columns()) * (to - from);
    showSpan(from + by, to + by);
  } else zoom(Math.exp(-event.deltaY * 0.002), countAt(xOf(event)));
}

/** Notes the width of the track. */
