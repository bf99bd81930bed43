// @ts-check
/* The breakpoints, each with its name and how often it was hit, and the bytes of memory that are watched: the live machine stops there. */
import { address, bothOf } from "../../host/addresses.js";
import { send } from "../../host/app.js";
import { commands } from "../../host/commands.js";
import { ALL_BITS, CHANGE, COUNTER } from "../../formats/conditions.js";
import { timesOf } from "./counts.js";
import { button, el, listButton, made, notice, set, write } from "../../host/elements.js";
import { publish } from "../../host/events.js";
import { placeText } from "../../host/names.js";
import { wantHits } from "../timeline/hits.js";
import { breaks, MOST_BREAKS, takeBreaks, takeWatches, watches } from "../../host/shown.js";
import { many } from "../../formats/texts.js";

/** @param {number} pc */
export function toggleBreak(pc) {
  const next = new Set(breaks);
  if (!next.delete(pc)) next.add(pc);
  if (next.size > MOST_BREAKS) return notice(`There are ${MOST_BREAKS} breakpoints at most.`);
  takeBreaks(next);
  sendBreaks();
  showBreaks();
  publish("breaks");
}

/** Sets breakpoints, in place of those that there are.
 * @param {number[]} words */
export function setBreaks(words) {
  for (const word of [...breaks]) if (!words.includes(word)) toggleBreak(word);
  for (const word of words) if (!breaks.has(word)) toggleBreak(word);
}

/** Shows the breakpoints as rows: where each is, by name and number, how often it was hit up to the count that is looked at, and a cross. */
export function showBreaks() {
  const rows = [...breaks].sort((one, other) => one - other).map(breakRow);
  el("break-list").replaceChildren(...rows);
  set("break-list", { hidden: !rows.length });
  write("breaks", rows.length ? `${many(rows.length, "breakpoint")}:` : "Click beside an instruction, or write its address or name, to set a breakpoint.");
}

/** @param {number} pc */
function breakRow(pc) {
  const row = made("li", ""), name = placeText(4 * pc), drop = listButton("×", () => toggleBreak(pc)), go = button("", () => commands.showWord(pc));
  go.append(made("bdi", name || "no name"), ` ${bothOf(4 * pc)}`);
  drop.setAttribute("aria-label", `Drop the breakpoint at ${name || pc}`);
  row.dataset.pc = `${pc}`;
  row.append(go, made("span", hitsText(pc), "hint"), drop);
  return row;
}

/** @param {number} pc */
function hitsText(pc) {
  const times = timesOf(pc);
  return times === null ? "" : `${many(times, "hit")} up to here`;
}

/** Writes anew how often each breakpoint was hit. */
export function showHits() {
  for (const row of el("break-list").querySelectorAll("li")) row.getElementsByClassName("hint")[0].textContent = hitsText(Number(row.dataset.pc));
}

/** Forgets breakpoints and watches: they are of another program. */
export function forgetBreaks() {
  for (const pc of breaks) toggleBreak(pc);
  setWatches([]);
}

/** The conditions of all breakpoints and watches. */
export function conditionsOfBreaks() {
  return [...[...breaks].map((pc) => ({ kind: COUNTER, from: pc, end: pc + 1, value: 0 })), ...conditionsOfWatches()];
}

/** Stops the live machine at the present breakpoints and watches, and marks their hits in the timeline. */
export function sendBreaks() {
  const conditions = conditionsOfBreaks();
  wantHits(conditions, conditions.map(({ kind, from, end }) => (kind === COUNTER ? `PC ${bothOf(4 * from)}` : `a change of ${address(from)} to ${address(end - 1)}`)));
  send("setBreaks", { conditions });
}

/** Watches these bytes.
 * @param {Watch[]} wanted */
export function setWatches(wanted) {
  takeWatches(wanted);
  sendBreaks();
  publish("watches");
}

function conditionsOfWatches() {
  return watches.map(({ first, end }) => ({ kind: CHANGE, from: first, end, value: ALL_BITS }));
}
