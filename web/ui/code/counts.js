// @ts-check
/* How often the words of memory were executed up to the count that is looked at: exact, by the library. */
import { app } from "../../host/app.js";
import { write } from "../../host/elements.js";
import { isAhead, isTab, shownCount } from "../../host/shown.js";
import { grouped } from "../../formats/texts.js";

/** What was counted last: of which machine, up to which count, and how often each word was executed. It is replaced whole.
 * @type {{ of: string, times: Map<number, number> | null }} */
let counted = { of: "", times: null };
let wanted = "";

/** What the counts belong to: the machine and the count that is looked at. */
const moment = () => `${app.work.generation} ${app.work.fork} ${shownCount()}`;

/** Returns how often a word was executed up to the count that is looked at; null if that is not known, as while the machine runs.
 * @param {number} word */
export function timesOf(word) {
  return counted.times && counted.of === moment() && !app.latest?.on ? counted.times.get(word) ?? 0 : null;
}

/** Counts up to the count that is looked at, if the code is, and that was not counted; and then draws it.
 * @param {() => void} draw */
export async function showCounts(draw) {
  const of = moment();
  if (!app.latest || app.latest.on || isAhead() || !isTab("code") || wanted === of) return;
  wanted = of;
  const found = await app.past.ask("visits", { from: 0, to: shownCount() }).finally(() => (wanted = ""));
  if (of !== moment() || !found) return;
  counted = { of, times: new Map(Array.from(found.words, (word, at) => [word, found.times[at]])) };
  write("counting", "");
  draw();
}

/** Hears how far a count has come.
 * @param {NonNullable<PastNews["counted"]>} news */
export function showCounting({ done, of }) {
  write("counting", done < of ? `counted ${grouped(done)} of ${grouped(of)} instructions ..` : "");
}

/** Forgets what was counted: another machine is open. */
export function forgetCounts() {
  counted = { of: "", times: null };
  write("counting", "");
}
