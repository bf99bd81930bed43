// @ts-check
/* Two runs with the same inputs: that of the program before, which two more workers run once more, and that of the program which is open. The page
 * names the first line that does something else in the one than in the other, and shows either where both are at the same line. */
import { app } from "../../host/app.js";
import { assembler } from "./desk.js";
import { button, el, notice, paragraph, set } from "../../host/elements.js";
import { noteHit } from "../timeline/hits.js";
import { backToNow, moveCursor, showOther } from "../timeline/cursormoves.js";
import { Past } from "../../host/pastclient.js";
import { Helper } from "../../host/requests.js";
import { isPast, secondsOf, shownCount } from "../../host/shown.js";
import { runningProgram } from "./sourceprogram.js";
import { grouped } from "../../formats/texts.js";
import { drawLanes } from "../timeline/drawing.js";

// How long the lines of two runs are compared at most.
const SECONDS = 60;
// The run before: the workers that have it, up to which count it went, the machine beside which it is, whether it is shown; and pairs of counts, its own and those
// of the run that is open, each where the distance of the two changes.
/** @type {{ live: Helper, past: Past, end: number, generation: number, isShown: boolean, shifts: [number, number][] } | null} */
let otherRun = null;

const isBeside = () => otherRun !== null && otherRun.generation === app.work.generation;

/** Forgets the run before, and ends its workers. */
export function forgetOther() {
  if (otherRun) for (const worker of [otherRun.live, otherRun.past.helper]) worker.end();
  otherRun = null;
  el("source-parts").replaceChildren();
  set("other-run", { hidden: true });
}

/** Runs the previous program again beside the open one, up to a count, and says which line does something else. A newer comparison ends this one.
 * @param {import("./sourceprogram.js").Running} before
 * @param {import("./sourceprogram.js").Running} now
 * @param {number} end */
export async function compareRuns(before, now, end) {
  forgetOther();
  const live = new Helper(app.module, () => {}), past = new Past(app.module, () => {}), { generation } = app.work;
  past.connect(live);
  /** @type {NonNullable<typeof otherRun>} */
  const own = { live, past, end, generation, isShown: false, shifts: [] };
  otherRun = own;
  const opened = await live.ask("openSession", { bytes: new TextEncoder().encode(before.session) });
  if (otherRun !== own) return;
  past.begin(opened.generation);
  set("other-run", { hidden: false });
  await live.ask("setRun", { on: true, fast: true, goal: end, seconds: 0 });
  if (otherRun !== own) return;
  const found = await assembler().ask("parting", { one: before.session, other: now.session, to: end, sources: [before, now].map(sourcesOf), seconds: SECONDS });
  if (otherRun !== own || !isBeside() || !found) return;
  own.shifts = found.lines?.shifts ?? [];
  showParting(found);
}

/** @param {import("./sourceprogram.js").Running} running
 * @returns {[string, string][]} */
const sourcesOf = ({ parts }) => [...parts].map(([file, { source }]) => [file, source.join("\n")]);

/** @param {Parting} found */
function showParting({ at, upTo, lines }) {
  if (at === null || !lines) return el("source-parts").replaceChildren(paragraph(`The two runs are the same up to ${grouped(upTo)}.`, "hint"));
  const { first, upTo: [before, now] } = lines;
  if (!first) return el("source-parts").replaceChildren(paragraph(sameText([before, now], "the previous run"), "hint"));
  const after = first.counts[1] + (first.did ? 1 : 0);
  noteHit(after, "the two runs differ");
  drawLanes();
  const line = paragraph(`${differenceText(first, ["the previous run", "this one"], lineText)}, ${secondsOf(first.counts[1])}. `, "hint");
  line.append(button("Jump", () => moveCursor(after)), " ", button("Previous run", toggleOther));
  el("source-parts").replaceChildren(line);
}

/** Says up to which counts two runs do the same.
 * @param {[number, number]} upTo
 * @param {string} other what the first of them is called */
export const sameText = ([before, now], other) => `The lines that both sources have do the same up to ${grouped(now)}; in ${other} that is ${grouped(before)}.`;

/** Says which line does something else, and what it does in both runs.
 * @param {NonNullable<NonNullable<Parting["lines"]>["first"]>} first
 * @param {[string, string]} names what the two runs are called
 * @param {(place: LinePlace) => string} textOf */
export function differenceText({ place, counts, did, goes }, names, textOf) {
  const [before, now] = did ?? goes.map((to) => (to ? `goes to ${textOf(to)}` : "stops"));
  const where = did && place ? `First difference at ${textOf(place)}` : place ? `First difference after ${textOf(place)}` : "First difference at the beginning";
  return `${where}: ${before} in ${names[0]}, at ${grouped(counts[0])}; ${now} in ${names[1]}, at ${grouped(counts[1])}`;
}

/** @param {LinePlace} place */
const lineText = ({ file, line }) => `line ${line}${runningProgram()?.parts.size === 1 ? "" : ` of ${file}`}`;

/** Returns the count of the run before at which that is at the same line as the one that is open is at a count.
 * @param {number} at */
function otherCount(at) {
  const [before, now] = otherRun?.shifts.findLast(([, count]) => count <= at) ?? [0, 0];
  return at - now + before;
}

/** Shows the run before at the count that is looked at, or the one that is open again. */
export async function toggleOther() {
  if (!otherRun || !isBeside()) return notice("There is no other run: Run with the same inputs makes two.");
  if (otherRun.isShown) return endOther();
  const at = shownCount(), before = otherCount(at), { past } = otherRun;
  if (before > otherRun.end) return notice(`The previous run ended at ${grouped(otherRun.end)}.`);
  const moment = await past.peek(before);
  if (!moment || at !== shownCount() || !isBeside()) return;
  otherRun.isShown = true;
  set("other-run", { ariaPressed: "true" });
  showOther(moment);
}

/** Shows the run that is open again. */
async function endOther() {
  if (otherRun) otherRun.isShown = false;
  set("other-run", { ariaPressed: "false" });
  await (isPast() ? moveCursor(shownCount()) : backToNow());
}

/** A look at another count shows the open run. */
export function leaveOther() {
  if (!otherRun?.isShown) return;
  otherRun.isShown = false;
  set("other-run", { ariaPressed: "false" });
}
