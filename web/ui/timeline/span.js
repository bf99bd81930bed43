// @ts-check
/* The span of counts that is in sight in the timeline, and the columns that counts have there. */
import { lanes } from "./lanes.js";
import { perSecond } from "../../host/shown.js";
import { PER_SECOND } from "../../formats/states.js";

/** The fewest counts that a span has. */
export const LEAST_SPAN = 16;
/** The span, in `columns` points: `isWhole` if it is all that is known, and `isDragged` while the cursor is dragged in it. */
export const timeline = { from: 0, to: PER_SECOND, isWhole: true, isDragged: false, columns: 1 };

/** The span of all that is known, rounded up, so that it does not move with each frame. */
export function wholeSpan() {
  const length = Math.max(LEAST_SPAN, lanes.end, lanes.found.end);
  const unit = 10 ** Math.floor(Math.log10(length));
  return { from: 0, to: unit * ([1, 1.5, 2, 3, 4, 5, 7.5, 10].find((share) => share * unit >= length) ?? 10) };
}

// The width of the track is noted when it changes: to ask for it would force layout.
export const columns = () => timeline.columns;
/** @param {number} count */
export const columnOf = (count) => ((count - timeline.from) / (timeline.to - timeline.from)) * columns();
/** @param {number} x */
export const countAt = (x) => timeline.from + (x / columns()) * (timeline.to - timeline.from);

/** Returns the step between two ticks: 1, 2 or 5 of a power of ten, of seconds where there is a thousandth of one between them, else
 * of counts.
 * @param {number} least */
export function tickStep(least) {
  const unit = least >= perSecond() / 1000 ? perSecond() : 1, power = 10 ** Math.floor(Math.log10(Math.max(1, least) / unit));
  return Math.max(1, unit * power * ([1, 2, 5, 10].find((share) => share * unit * power >= least) ?? 10));
}

/** Returns the entries of a list whose counts are in the span; the list is in the order of its counts.
 * @template {[number, ...any[]]} T
 * @param {T[]} list
 * @returns {T[]} */
export function inSpan(list) {
  return list.filter(([count]) => count >= timeline.from && count <= timeline.to);
}
