// @ts-check
/* The timeline: lanes of what came, what was sent and what changed over the counts, with a cursor that is a slider. What is known of the lanes is in lanes.js, the span
 * in sight in span.js; drawing.js draws them, cursor.js shows the cursor, loading.js asks for what they show, and pointer.js hears the mouse. */
import { forgetCalls, turnCalls } from "./callslane.js";
import { showCursor } from "./cursor.js";
import { drawLanes } from "./drawing.js";
import { attempt, el, on } from "../../host/elements.js";
import { forgetHits } from "./hits.js";
import { forgetLanes, lanes, reachTo, takeLanes } from "./lanes.js";
import { askProgram, freshen } from "./loading.js";
import { onNames } from "../../host/names.js";
import { nowCount } from "../../host/shown.js";
import { timeline } from "./span.js";
import { countOf } from "../../formats/states.js";

/** Begins the lanes of a machine that was opened. */
export function beginLanes() {
  forgetLanes(nowCount());
  Object.assign(timeline, { isWhole: true, isDragged: false });
  forgetCalls();
  freshen(true);
}

/** Forgets what came after a count, from which the machine runs differently.
 * @param {number} at */
export function forgetAfter(at) {
  /** @param {[number, ...any[]]} entry */
  const isBefore = ([count]) => count <= at;
  const passed = new Map([...lanes.passed].filter(isBefore));
  forgetHits(at);
  forgetCalls();
  for (const item of el("passed").querySelectorAll("li")) if (Number(item.dataset.count) > at) item.remove();
  takeLanes({ end: at, cells: lanes.cells.filter(({ end }) => end <= at), passed });
  freshen(true);
}

/** Notes what a frame of the live machine brings for the lanes.
 * @param {Frame} frame */
export function noteFrame({ state, on }) {
  reachTo(countOf(state));
  freshen(!on);
}

/** Notes that the checkpoints up to a count were checked, and are true: those that the lanes know, or `counts`.
 * @param {number} last
 * @param {Iterable<number>} counts */
export function noteChecked(last, counts = lanes.found.marks) {
  for (const count of counts) if (count <= last) lanes.passed.set(count, "true");
  drawLanes();
}

/** Opens the lane of the calls to more rows, or closes it. */
export function turnCallRows() {
  turnCalls();
  drawLanes();
}

/** Notes the width of the track. */
export function measureTrack() {
  timeline.columns = Math.max(1, Math.floor(el("track").clientWidth));
}

export function makeTimeline() {
  onNames(() => (forgetCalls(), drawLanes(), attempt(askProgram)));
  measureTrack();
  new ResizeObserver(() => (measureTrack(), drawLanes(), showCursor(false))).observe(el("track"));
  on("names", "click", ({ target }) => target instanceof Element && target.classList.contains("more") && turnCallRows());
  matchMedia("(prefers-color-scheme: dark)").addEventListener("change", drawLanes);
  drawLanes();
}
