// @ts-check
/* Asks the workers for what the lanes of the timeline show, and has it drawn; and shows other spans of it. */
import { app } from "../../host/app.js";
import { askCalls } from "./callslane.js";
import { listLanes, showCursor } from "./cursor.js";
import { drawLanes, drawnAt } from "./drawing.js";
import { attempt } from "../../host/elements.js";
import { askHits } from "./hits.js";
import { lanes, takeLanes } from "./lanes.js";
import { nowCount, shownCount } from "../../host/shown.js";
import { columns, LEAST_SPAN, tickStep, timeline, wholeSpan } from "./span.js";

// About how many cells a span has.
const CELLS = 100;
const FRESH_MS = 200, FOLLOW_MS = 2000, FILM_MS = 2000;
export const ZOOM = 1.6;
// `isAsked` while the worker is asked for the lanes, `isStale` if they are wanted again, and `of` says what they depend on as they were asked last. They are asked for
// again when they are `due`, and so are the keyframes. `changing` is the number of the last question about the cells.
const loading = { isAsked: false, isStale: false, of: "", due: 0, filmDue: 0, changing: 0 };

/** Shows a span, inside all that is known.
 * @param {number} from
 * @param {number} to */
export function showSpan(from, to) {
  const whole = wholeSpan(), length = Math.max(LEAST_SPAN, Math.min(to - from, whole.to - whole.from));
  const begin = Math.max(whole.from, Math.min(from, whole.to - length));
  Object.assign(timeline, { from: begin, to: begin + length, isWhole: length === whole.to - whole.from });
  showCursor(false);
  freshen(true);
}

/** Moves the span so that a count is in it, which is then in its middle.
 * @param {number} count */
export function keepInSight(count) {
  const { from, to } = timeline, half = (to - from) / 2;
  if (!timeline.isWhole && (count < from || count > to)) showSpan(count - half, count + half);
}

/** Zooms by a factor around a count.
 * @param {number} factor
 * @param {number} around */
export function zoom(factor, around = shownCount()) {
  const { from, to } = timeline, share = (around - from) / (to - from), length = (to - from) / factor;
  const inside = Math.max(0, Math.min(1, share));
  showSpan(around - inside * length, around + (1 - inside) * length);
}

/** Refreshes the lanes: at once, or while the machine runs some times a second. If only time has passed, no worker is asked.
 * @param {boolean} isAtOnce */
export function freshen(isAtOnce) {
  const now = performance.now();
  if (!isAtOnce && now < loading.due) return;
  loading.due = now + FRESH_MS;
  if (timeline.isWhole && app.work.generation) Object.assign(timeline, wholeSpan());
  if (isAtOnce || loading.of !== wantedLanes()) attempt(askLanes);
  else followNow();
}

/** What the worker's answer about the lanes depends on. */
function wantedLanes() {
  const { inputs, marks, planned, isReplay } = app.latest ?? {};
  return [app.work.generation, timeline.from, timeline.to, columns(), inputs, marks, planned, isReplay].join();
}

/** Draws periodically how far the machine has come: until then the cursor shows it. */
function followNow() {
  if (performance.now() - drawnAt >= FOLLOW_MS) drawLanes();
  attempt(askFilm);
}

/** Asks the worker for the lanes, one request at a time, and draws them. A request that comes meanwhile follows. */
async function askLanes() {
  if (loading.isAsked || !app.work.generation) return (loading.isStale = loading.isAsked);
  if (timeline.isWhole) Object.assign(timeline, wholeSpan());
  const { from, to } = timeline, { generation } = app.work;
  Object.assign(loading, { isAsked: true, isStale: false, of: app.latest ? wantedLanes() : "" });
  const found = await app.live.ask("lanes", { from, to, columns: columns(), of: generation }).finally(() => (loading.isAsked = false));
  if (found && generation === app.work.generation) showLanes({ ...found, from, to });
  if (loading.isStale) freshen(true);
}

/** @param {Lanes} found */
function showLanes(found) {
  takeLanes({ found, end: Math.max(nowCount(), app.latest?.isReplay ? found.end : 0) });
  drawLanes();
  showCursor(!app.latest?.on && !timeline.isDragged);
  attempt(askFilm);
  // The first answer says how far the file goes.
  if (timeline.isWhole && wholeSpan().to !== found.to) freshen(true);
}

/** Asks for the keyframes: periodically while the machine runs. */
async function askFilm() {
  const now = performance.now();
  if (app.latest?.on && now < loading.filmDue) return;
  loading.filmDue = now + FILM_MS;
  attempt(askChanges);
  attempt(askProgram);
  const film = await app.past.keyframes();
  if (!film || film.counts.length === lanes.film.length) return;
  takeLanes({ film: film.counts });
  drawLanes();
}

/** Asks where the program was. */
export async function askProgram() {
  const { from, to } = timeline;
  const draw = () => (drawLanes(), listLanes());
  attempt(() => askHits(from, to, draw));
  await askCalls({ from, to }, columns(), draw);
}

/** Asks what changed in the cells of the span: again until all of them are known, or, while the machine runs, with the keyframes. */
async function askChanges() {
  const number = ++loading.changing, { generation } = app.work;
  for (let isDone = false; !isDone && number === loading.changing && app.latest;) {
    const { from, to } = timeline, isOn = app.latest.on, size = tickStep((to - from) / CELLS);
    const found = await app.past.ask("changes", { from, to, size, now: nowCount(), isOn });
    if (!found || generation !== app.work.generation || number !== loading.changing) return;
    takeLanes({ cells: found.cells });
    isDone = found.isDone || isOn;
    drawLanes();
    if (isDone && !isOn) listLanes(), attempt(askProgram);
  }
}
