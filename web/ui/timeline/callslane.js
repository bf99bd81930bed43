// @ts-check
/* The lane of the calls in the timeline, a flame graph: a row for each depth, from the deepest call on that is open all over the span. All of it is exact: a call that
 * is too short for a bar is in the pale sum of its column, and what was not followed yet is hatched. If there are more depths than rows, the last row has the procedure
 * that the last open call went to; so has the only row. The lane depends on the recording alone, not on how that was watched. */
import { app } from "../../host/app.js";
import { names, procedureText } from "../../host/names.js";
import { isAhead, nowCount } from "../../host/shown.js";
import { grouped, many } from "../../formats/texts.js";

// The most rows; the room beside a name, and the least width of a bar that has an edge; how many bars are listed as text; and how pale sums are.
const MOST_ROWS = 12, BESIDE = 6, EDGED = 4, LISTED = 40, PALE = 0.55, FOLLOWING = "following calls ..";

/** What is at a place of the lane: the procedure, [begin, end), where the end is Infinity if it is not over; in how many parts that is, 0 if it is one bar; and the
 * count of the branch if it is one call.
 * @typedef {{ name: string, begin: number, end: number, parts: number, call: number | null }} Under */

// What is known, and of what; what is asked for; whether the lane is opened to more rows; and the names and colours of the procedures.
/** @type {{ of: string, found: Framed | null }} */
const NOTHING = { of: "", found: null };
let callsKnown = NOTHING;
let callsAsked = "", isOpened = false;
/** @type {Map<number, { name: string, colour: string }>} */
let procedureLooks = new Map();

/** Whether there are names of code, and something is known of the calls, or asked. */
export const hasCalls = () => Boolean(app.latest && names.symbols.size && (callsKnown.found || callsAsked));

/** Forgets the lane: another machine is open, or it has other names. */
export function forgetCalls() {
  callsKnown = NOTHING;
  procedureLooks = new Map();
}

/** Opens the lane to more rows, or closes it. */
export function turnCalls() {
  isOpened = !isOpened;
}

/** Returns the number of rows of the lane, if the other lanes leave `room` rows.
 * @param {number} room */
export const callRows = (room) => Math.max(1, room, isOpened ? Math.min(MOST_ROWS, callsKnown.found?.depth ?? 0) : 0);

/** Asks for the calls of a span, until all are known, unless they are or the machine runs; has what is known drawn.
 * @param {{ from: number, to: number }} span
 * @param {number} columns
 * @param {() => void} draw */
export async function askCalls(span, columns, draw) {
  const from = Math.max(0, Math.floor(span.from)), to = Math.min(Math.floor(span.to), nowCount()), width = (span.to - span.from) / columns;
  const of = [app.work.generation, app.work.fork, from, to, width].join();
  if (!app.latest || app.latest.on || !names.symbols.size || isAhead() || to <= from) return;
  if (callsAsked === of || (callsKnown.of === of && callsKnown.found?.upTo === to)) return;
  callsAsked = of;
  try {
    for (let isDone = false; !isDone && callsAsked === of && !app.latest?.on; ) {
      const found = await app.past.frames({ from, to, width, rows: MOST_ROWS });
      if (!found || callsAsked !== of) return;
      callsKnown = { of, found };
      isDone = found.upTo === to;
      draw();
    }
  } finally {
    if (callsAsked === of) callsAsked = "";
  }
}

/** Returns the calls that the lane shows in a row, of `rows`.
 * @param {Framed} found
 * @param {number} row
 * @param {number} rows */
const rowOf = ({ top, rows: all, depth }, row, rows) => (row === rows - 1 && (rows === 1 || depth > rows) ? top : all[row]);

/** Draws the rows. What is not known is drawn by `hatch`, of [from, to).
 * @param {import("./drawing.js").Place} place
 * @param {number} rows
 * @param {(count: number) => number} columnOf
 * @param {(place: import("./drawing.js").Place, from: number, to: number) => void} hatch */
export function drawCalls(place, rows, columnOf, hatch) {
  const { pen, colour, y, high, width } = place, { found } = callsKnown, each = high / rows;
  if (!found || (found.upTo === found.from && callsAsked)) {
    pen.fillStyle = colour("soft");
    pen.fillText(found?.followed ? `${FOLLOWING} ${grouped(found.followed)}` : FOLLOWING, BESIDE, y + each / 2);
  }
  if (!found) return;
  for (let row = 0; row < rows; row++) {
    const calls = rowOf(found, row, rows), here = { ...place, y: y + row * each, high: each };
    if (!calls) continue;
    drawSums(here, found, calls, columnOf);
    drawBars(here, found, calls, columnOf);
  }
  if (found.upTo < found.to) hatch({ pen, colour, y, high, width }, Math.max(found.from, found.upTo), found.to);
}

/** @param {import("./drawing.js").Place} place
 * @param {Framed} found
 * @param {FrameRow} row
 * @param {(count: number) => number} columnOf */
function drawBars({ pen, colour, y, high, width }, { upTo, first }, { begins, ends, entries }, columnOf) {
  const sign = pen.measureText("0").width;
  for (let at = 0; at < entries.length; at++) {
    const left = Math.max(0, columnOf(begins[at])), right = Math.min(width, columnOf(Math.min(ends[at], upTo))), wide = right - left;
    if (wide <= 0) continue;
    const { name, colour: own } = lookOf(entries[at], first), text = shortName(name);
    pen.fillStyle = own;
    pen.fillRect(left, y + 1, Math.max(1, wide - (wide > EDGED ? 1 : 0)), high - 2);
    pen.fillStyle = colour("ink");
    if (sign * text.length + BESIDE < wide) pen.fillText(text, left + BESIDE / 2 + 1, y + high / 2);
  }
}

/** @param {import("./drawing.js").Place} place
 * @param {Framed} found
 * @param {FrameRow} row
 * @param {(count: number) => number} columnOf */
function drawSums({ pen, y, high, width }, { from, width: counts, first }, { sums: { columns, entries } }, columnOf) {
  pen.globalAlpha = PALE;
  columns.forEach((column, at) => {
    const left = columnOf(from + column * counts), right = columnOf(from + (column + 1) * counts);
    if (right < 0 || left > width) return;
    pen.fillStyle = lookOf(entries[at], first).colour;
    pen.fillRect(left, y + 2, Math.max(1, right - left), high - 4);
  });
  pen.globalAlpha = 1;
}

/** Returns the name and the colour of a procedure: its hue is that of its module, if the names have modules.
 * @param {number} entry
 * @param {number} first */
function lookOf(entry, first) {
  const there = procedureLooks.get(entry);
  if (there) return there;
  const name = procedureText(entry, first), [module] = name.split(/\.(?=.)/, 1), look = { name, colour: `hsl(${hash(module) % 360} 55% ${48 + (hash(name) % 5) * 6}%)` };
  procedureLooks.set(entry, look);
  return look;
}

/** Returns the name of a procedure without its module.
 * @param {string} name */
const shortName = (name) => name.replace(/^[^ .]*\.(?=.)/, "");

/** @param {string} text */
const hash = (text) => [...text].reduce((sum, sign) => (Math.imul(sum, 31) + Number(sign.codePointAt(0))) >>> 0, 7);

/** Returns what is at a count in a row of the lane, of `rows`; or null.
 * @param {number} count
 * @param {number} row
 * @param {number} rows
 * @returns {Under | null} */
export function callUnder(count, row, rows) {
  const { found } = callsKnown, calls = found && rowOf(found, row, rows);
  if (!found || !calls || count < found.from || count >= found.upTo) return null;
  const { begins, ends, entries, sums } = calls, { from, width, first } = found;
  const bar = begins.findIndex((begin, at) => begin <= count && count < ends[at]);
  if (bar >= 0) return { name: lookOf(entries[bar], first).name, begin: begins[bar], end: ends[bar], parts: 0, call: entries[bar] < 0 || calls === found.top ? null : begins[bar] - 1 };
  const column = Math.floor((count - from) / width), at = sums.columns.indexOf(column);
  if (at < 0) return null;
  const begin = Math.floor(from + column * width), end = Math.ceil(from + (column + 1) * width);
  return { name: lookOf(sums.entries[at], first).name, begin, end, parts: sums.calls[at], call: null };
}

/** Says what is at a count in a row of the lane, of `rows`.
 * @param {number} count
 * @param {number} row
 * @param {number} rows */
export function callText(count, row, rows) {
  const under = callUnder(count, row, rows), { found } = callsKnown;
  if (under) return underText(under, Number(found?.upTo));
  return found && count >= found.upTo && count < found.to ? `The calls from ${grouped(Math.max(found.from, found.upTo))} on are not followed yet.` : "";
}

/** @param {Under} under
 * @param {number} upTo */
function underText({ name, begin, end, parts }, upTo) {
  if (parts) return `${name} most of the time, of ${many(parts, "part")} from ${grouped(begin)} to ${grouped(end)}`;
  if (end === Infinity) return `${name} from ${grouped(begin)} on, not over by ${grouped(upTo)}`;
  return `${name} from ${grouped(begin)} to ${grouped(end)}, ${many(end - begin, "instruction")}`;
}

/** Returns the lane as a list of texts: the last procedures with their counts. */
export function callsList() {
  const { found } = callsKnown;
  if (!found) return callsAsked ? [FOLLOWING] : [];
  const { begins, ends, entries, sums } = found.top, first = Math.max(0, entries.length - LISTED);
  const bars = Array.from(entries.slice(first), (entry, at) => ({ name: lookOf(entry, found.first).name, begin: begins[first + at], end: Math.min(ends[first + at], found.upTo) }));
  const shorter = sums.columns.length ? [`shorter calls in ${many(sums.columns.length, "column")}`] : [], rest = found.upTo < found.to ? [`not followed yet from ${grouped(found.upTo)}`] : [];
  return [...bars.map(({ name, begin, end }) => `${name} from ${grouped(Math.max(begin, found.from))} to ${grouped(end)}`), ...shorter, ...rest];
}
