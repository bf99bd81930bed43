// @ts-check
/* Draws the lanes of the timeline. */
import { drawAnswers } from "./answers.js";
import { app, branches } from "../../host/app.js";
import { callRows, drawCalls, hasCalls } from "./callslane.js";
import { LINES } from "../../formats/dots.js";
import { el, isNarrow, made } from "../../host/elements.js";
import { hitMarks } from "./hits.js";
import { pins } from "../../host/pins.js";
import { claimMarks, LANES, lanes, takeLanes, unknownParts } from "./lanes.js";
import { isPast, nowCount, perSecond } from "../../host/shown.js";
import { columnOf, columns, inSpan, tickStep, timeline } from "./span.js";
import { grouped } from "../../formats/texts.js";

// The least number of lanes that have room, so the screen does not change its size for each one.
const LEAST_LANES = 4;
const ROW = 16, AXIS = 16, MERGED = 28, HATCH = 6, TICK_WIDTH = 76, NOTE_ROOM = 30, LETTER = 8;

/** Where a lane is drawn.
 * @typedef {{ pen: CanvasRenderingContext2D, colour: (name: string) => string, width: number, y: number, high: number }} Place */

/** When the lanes were drawn last, as performance.now() says it. */
export let drawnAt = 0;

/** Draws all lanes, one below the other; or merged to one in a narrow window. */
export function drawLanes() {
  drawnAt = performance.now();
  findRows();
  const canvas = el("lanes"), width = columns(), height = AXIS + (isNarrow() ? MERGED : ROW * Math.max(LEAST_LANES, lanes.rows.reduce((sum, lane) => sum + laneRows(lane), 0)));
  const [wide, high] = [width, height].map((points) => Math.round(points * devicePixelRatio));
  if (canvas.width !== wide || canvas.height !== high) Object.assign(canvas, { width: wide, height: high });
  canvas.style.height = `${height}px`;
  const style = getComputedStyle(canvas), pen = /** @type {CanvasRenderingContext2D} */ (canvas.getContext("2d"));
  /** @type {Map<string, string>} */
  const colours = new Map();
  /** @param {string} name */
  const colour = (name) => colours.get(name) ?? (colours.set(name, style.getPropertyValue(`--${name}`).trim()), colours.get(name) ?? "");
  pen.setTransform(devicePixelRatio, 0, 0, devicePixelRatio, 0, 0);
  pen.clearRect(0, 0, width, height);
  pen.font = `12px ${colour("mono")}`;
  pen.textBaseline = "middle";
  const to = { pen, colour, width };
  drawAxis(to);
  /** @type {{ [lane: string]: (place: Place) => void }} */
  const drawings = { checkpoints: drawClaims, keys: drawKeys, mouse: drawMouse, serial: drawSerial, disk: drawDisk, screen: drawScreen, calls: (place) => drawCalls(place, laneRows("calls"), columnOf, drawHatch), notes: drawNotes, hits: drawMarks, keyframes: drawFilm };
  for (const lane of lanes.rows) drawings[lane]({ ...to, ...lanePlace(lane) });
  drawAnswers({ ...to, y: 0, high: height }, columnOf);
  drawNow(to, height);
}

/** Finds the lanes that have something. One that had something stays. */
function findRows() {
  const { found, cells, rows } = lanes, { keys, mouse, serial, disk } = found;
  /** @type {{ [lane: string]: boolean }} */
  const has = {
    checkpoints: (app.file?.claims.length ?? 0) > 1 || found.planned.length + found.marks.length > 0, keys: keys.length > 0, mouse: mouse.some(Boolean), serial: serial.some(Boolean) || cells.some(({ sent }) => sent),
    disk: disk.some(Boolean), notes: pins.size > 0, screen: cells.some(({ lines }) => lines), calls: hasCalls(), hits: hitMarks().length > 0,
  };
  takeLanes({ rows: LANES.filter((lane) => has[lane] || rows.includes(lane)) });
  const wanted = lanes.rows.map((lane) => `${lane} ${laneRows(lane)}`).join();
  if (el("names").dataset.rows === wanted) return;
  el("names").dataset.rows = wanted;
  el("names").replaceChildren(made("span", ""), ...lanes.rows.map(laneName));
}

/** @param {string} lane */
function laneName(lane) {
  const name = made("span", lane), isCalls = lane === "calls";
  name.style.height = `${ROW * laneRows(lane)}px`;
  if (isCalls) Object.assign(name, { title: "c: more rows of calls, or fewer", className: "more" });
  return name;
}

/** Returns how many rows a lane has. The calls take the room that the other lanes leave.
 * @param {string} lane */
const laneRows = (lane) => (lane === "calls" && !isNarrow() ? callRows(LEAST_LANES + 1 - lanes.rows.length) : 1);

/** Returns where a lane is. Merged, the checkpoints and hits are above all others.
 * @param {string} lane */
function lanePlace(lane) {
  if (isNarrow()) return ["checkpoints", "hits"].includes(lane) ? { y: AXIS, high: MERGED / 2 } : { y: AXIS + MERGED / 2, high: MERGED / 2 };
  const above = lanes.rows.slice(0, lanes.rows.indexOf(lane)).reduce((sum, other) => sum + laneRows(other), 0);
  return { y: AXIS + ROW * above, high: ROW * laneRows(lane) };
}

/** Returns the lane that is at a height of the track, which of its rows that is, and how many it has; nothing if they are merged.
 * @param {number} at */
export function laneAt(at) {
  if (isNarrow()) return null;
  const places = lanes.rows.map((lane) => ({ lane, ...lanePlace(lane) })), found = places.find(({ y, high }) => at >= y && at < y + high);
  return found ? { lane: found.lane, row: Math.floor((at - found.y) / ROW), rows: laneRows(found.lane) } : null;
}

/** @param {Omit<Place, "y" | "high">} place */
function drawAxis({ pen, colour, width }) {
  const span = timeline.to - timeline.from, step = tickStep(span * TICK_WIDTH / width), inSeconds = step >= perSecond() / 1000;
  pen.fillStyle = colour("soft");
  for (let count = Math.ceil(timeline.from / step) * step; count <= timeline.to; count += step) {
    const x = columnOf(count), text = inSeconds ? `${Number((count / perSecond()).toPrecision(7))} s` : grouped(count);
    pen.fillRect(x, 0, 1, AXIS - 2);
    if (x + pen.measureText(text).width + 4 < width) pen.fillText(text, x + 4, AXIS / 2);
  }
}

/** @type {{ [state: string]: string }} */
const GLYPHS = { true: "◆", false: "■", "not judged": "◇", unchecked: "○" };

/** @param {Place} place */
function drawClaims({ pen, colour, y, high }) {
  /** @type {Map<string, number>} */
  const drawn = new Map(), colours = new Map();
  for (const state of Object.keys(GLYPHS)) colours.set(state, colour(state === "true" ? "true" : state === "false" ? "wrong" : "soft"));
  pen.textAlign = "center";
  for (const [count, state] of inSpan(claimMarks())) {
    // Of very many that are alike, one is seen for each two points.
    const column = 2 * Math.round(columnOf(count) / 2);
    if (drawn.get(state) === column) continue;
    drawn.set(state, column);
    pen.fillStyle = colours.get(state);
    pen.fillText(GLYPHS[state], column, y + high / 2);
  }
  pen.textAlign = "start";
}

/** @param {Place} place */
function drawKeys({ pen, colour, y, high }) {
  let free = -Infinity;
  pen.fillStyle = colour("ink");
  for (const [column, code] of lanes.found.keys) {
    const text = code > 32 && code < 127 ? String.fromCharCode(code) : "";
    if (text && column > free && high === ROW) pen.fillText(text, column, y + high / 2);
    else if (column > free - 5) pen.fillRect(column, y + 3, 1, high - 6);
    if (text && column > free) free = column + 7;
  }
}

/** @param {Place} place */
function drawMouse({ pen, colour, y, high }) {
  pen.fillStyle = colour("link");
  lanes.found.mouse.forEach((level, column) => level && pen.fillRect(column, y + high - (level === 2 ? high - 4 : 5), 1, level === 2 ? high - 5 : 4));
}

/** @param {Place} place */
function drawDisk({ pen, colour, y, high }) {
  pen.fillStyle = colour("link");
  lanes.found.disk.forEach((level, column) => level && pen.fillRect(column, y + 3, 1, high - 6));
}

/** @param {Place} place */
function drawSerial({ pen, colour, y, high }) {
  pen.fillStyle = colour("ink");
  lanes.found.serial.forEach((level, column) => level && pen.fillRect(column, y + 2, 2, high / 2 - 3));
  pen.fillStyle = colour("odd-ink");
  for (const [from, width] of cellColumns(({ sent }) => sent)) pen.fillRect(from, y + high / 2 + 1, width, high / 2 - 3);
  drawUnknown({ pen, colour, y: y + high / 2, high: high / 2 });
}

/** Returns the columns of the cells in which something is not 0: the first one, how many, and how much that is.
 * @param {(cell: Cell) => number} of
 * @returns {[number, number, number][]} */
function cellColumns(of) {
  return lanes.cells.filter(of).map((cell) => [columnOf(cell.from), Math.max(1, columnOf(cell.end) - columnOf(cell.from) - 1), of(cell)]);
}

/** Draws slanted lines where it is not known yet what changed.
 * @param {Omit<Place, "width">} place */
function drawUnknown(place) {
  for (const [from, end] of unknownParts(timeline)) drawHatch(place, from, end);
}

/** Draws slanted lines in [from, end), where something is not known yet.
 * @param {Omit<Place, "width">} place
 * @param {number} from
 * @param {number} end */
function drawHatch({ pen, colour, y, high }, from, end) {
  const right = Math.min(columns(), columnOf(end));
  pen.strokeStyle = colour("soft");
  pen.globalAlpha = 0.5;
  pen.beginPath();
  for (let x = Math.max(0, columnOf(from)); x < right; x += HATCH) pen.moveTo(x, y + high - 2), pen.lineTo(Math.min(right, x + HATCH / 2), y + 2);
  pen.stroke();
  pen.globalAlpha = 1;
}

/** @param {Place} place */
function drawScreen({ pen, colour, y, high }) {
  pen.fillStyle = colour("ink");
  for (const [from, width, lines] of cellColumns(({ lines }) => lines)) {
    const share = Math.sqrt(lines / LINES);
    pen.globalAlpha = 0.4 + 0.6 * share;
    pen.fillRect(from, y + high - 5 - share * (high - 8), width, share * (high - 8) + 4);
  }
  pen.globalAlpha = 1;
  drawUnknown({ pen, colour, y, high });
}

/** The notes, each up to the next one.
 * @param {Place} place */
function drawNotes({ pen, colour, width, y, high }) {
  const notes = inSpan([...pins]);
  pen.fillStyle = colour("link");
  notes.forEach(([count, text], at) => {
    const x = columnOf(count), room = (notes[at + 1] ? columnOf(notes[at + 1][0]) : width) - x - 12;
    pen.fillText("▾", x - 4, y + high / 2);
    if (high === ROW && room > NOTE_ROOM) pen.fillText(text.slice(0, Math.floor(room / LETTER)), x + 8, y + high / 2);
  });
}

/** @param {Place} place */
function drawMarks({ pen, colour, y, high }) {
  pen.fillStyle = colour("wrong");
  pen.textAlign = "center";
  for (const [count, glyph] of inSpan(hitMarks())) pen.fillText(glyph, columnOf(count), y + high / 2);
  pen.textAlign = "start";
}

/** Draws the branches as thin lines below the film.
 * @param {Place} place */
function drawBranches({ pen, colour, y, high }) {
  pen.fillStyle = colour("link");
  branches.list.forEach(({ parent, end }, at) => pen.fillRect(columnOf(parent), y + high - 1 - 2 * at, columnOf(end) - columnOf(parent), 1));
}

/** The keyframes: a line as far as the machine has run, with a tick at each keyframe, and a dashed line for what is still to come.
 * @param {Place} place */
function drawFilm({ pen, colour, y, high }) {
  const middle = Math.round(y + high / 2), [begin, now, end] = [0, nowCount(), lanes.end].map(columnOf);
  if (high !== ROW) return;
  drawBranches({ pen, colour, y, high, width: columns() });
  pen.fillStyle = pen.strokeStyle = colour("soft");
  pen.fillRect(begin, middle - 1, now - begin, 2);
  for (const [count] of inSpan(lanes.film.map((count) => /** @type {[number]} */ ([count])))) pen.fillRect(columnOf(count), middle - 3, 1, 6);
  pen.setLineDash([5, 4]);
  pen.beginPath();
  pen.moveTo(now, middle);
  pen.lineTo(end, middle);
  pen.stroke();
  pen.setLineDash([]);
}

/** Draws a line at now, unless the cursor is there.
 * @param {Omit<Place, "y" | "high">} place
 * @param {number} height */
function drawNow({ pen, colour, width }, height) {
  const x = columnOf(nowCount());
  if (!isPast() || x < 0 || x > width) return;
  pen.fillStyle = colour("link");
  pen.fillRect(x - 0.5, AXIS - 3, 1, height);
}
