// @ts-check
/* What an answer marks over the lanes of the timeline, while it is shown: the links of where a value comes from, as arcs, above the lower end of the lanes. A click
 * on a mark goes to its count. */
import { grouped } from "../../formats/texts.js";

/** A link: its number in the list, its count, that of what used its value, and what it is.
 * @typedef {{ number: number, count: number, use: number, what: string }} Link */
/** @typedef {import("./drawing.js").Place} Place */
/** @typedef {(count: number) => number} ColumnOf */

const ROW = 16, NEAR = 6, RADIUS = 7;
/** @type {Link[]} */
let links = [];

/** Marks the links of an answer in place of those that were marked, or none.
 * @param {Link[]} list */
export function markLinks(list) {
  links = list;
}

/** Draws the marks over all lanes: an arc from each link to what used its value, and then the numbers, of two that are in one place that of the first.
 * @param {Place} place
 * @param {ColumnOf} columnOf */
export function drawAnswers({ pen, colour, width, y, high }, columnOf) {
  if (!links.length) return;
  const top = y + high - ROW, middle = top + ROW / 2;
  pen.fillStyle = colour("field");
  pen.globalAlpha = 0.85;
  pen.fillRect(0, top, width, ROW);
  pen.globalAlpha = 1;
  pen.strokeStyle = colour("link");
  for (const { count, use } of links) {
    const [from, to] = [count, use].map(columnOf), half = (to - from) / 2;
    if (to < 0 || from > width) continue;
    pen.beginPath();
    pen.ellipse(from + half, middle, half, Math.min(top, half), 0, Math.PI, 2 * Math.PI);
    pen.stroke();
  }
  pen.textAlign = "center";
  for (const { number, x } of numbersInSight(columnOf)) {
    pen.fillStyle = colour("link");
    pen.beginPath();
    pen.arc(x, middle, RADIUS, 0, 2 * Math.PI);
    pen.fill();
    pen.fillStyle = colour("paper");
    pen.fillText(`${number}`, x, middle + 0.5);
  }
  pen.textAlign = "start";
}

/** Returns the links whose numbers are drawn, each with its column: those that no earlier one hides.
 * @param {ColumnOf} columnOf */
function numbersInSight(columnOf) {
  /** @type {(Link & { x: number })[]} */
  const shown = [];
  for (const link of links) {
    const x = columnOf(link.count);
    if (shown.every((other) => Math.abs(other.x - x) >= RADIUS)) shown.push({ ...link, x });
  }
  return shown;
}

/** Returns the mark under the mouse: its count, and what it is; or null. `above` is how far the mouse is above the lower end of the lanes.
 * @param {number} x
 * @param {number} above
 * @param {ColumnOf} columnOf
 * @returns {{ count: number, what: string } | null} */
export function answerAt(x, above, columnOf) {
  if (above < 0 || above >= ROW) return null;
  const near = numbersInSight(columnOf).map((mark) => ({ ...mark, apart: Math.abs(mark.x - x) })).filter(({ apart }) => apart <= NEAR);
  return near.length ? near.reduce((one, other) => (other.apart < one.apart ? other : one)) : null;
}

/** Returns the marks as texts. */
export const answerTexts = () => links.map(({ count, what }) => `${what} at ${grouped(count)}`);
