// @ts-check
/* The cursor of the timeline, which is a slider, and the lanes as lists, for those who do not see them. */
import { app } from "../../host/app.js";
import { answerTexts } from "./answers.js";
import { pins } from "../../host/pins.js";
import { callsList } from "./callslane.js";
import { el, made, set, write } from "../../host/elements.js";
import { hitMarks, moreHits } from "./hits.js";
import { claimMarks, LANES, lanes, unknownParts } from "./lanes.js";
import { apart, isAhead, isPast, nowCount, secondsOf, shownCount } from "../../host/shown.js";
import { columnOf, columns, inSpan, timeline } from "./span.js";
import { hex } from "../../formats/states.js";
import { grouped, many } from "../../formats/texts.js";

const LISTED = 40;

/** Shows the cursor where it is. Its value in words changes once it has settled, so that a screen reader says that, and nothing on the way.
 * @param {boolean} isSettled */
export function showCursor(isSettled) {
  const at = shownCount(), x = columnOf(at), cursor = el("cursor");
  cursor.style.transform = `translateX(${Math.max(0, Math.min(columns(), x))}px)`;
  cursor.classList.toggle("outside", x < 0 || x > columns());
  cursor.classList.toggle("past", isPast());
  if (!app.latest) return;
  write("count", `${grouped(at)} · ${secondsOf(at)}`);
  for (const name of ["begin-at", "back-run", "line-out-back", "line-over-back", "back"]) set(name, { disabled: at === 0 });
  for (const name of ["now", "next-run"]) set(name, { disabled: !isPast() && !app.latest.isReplay });
  if (!isSettled) return;
  cursor.setAttribute("aria-valuemax", `${lanes.end}`);
  cursor.setAttribute("aria-valuenow", `${at}`);
  cursor.setAttribute("aria-valuetext", cursorWords(at));
  listLanes();
}

/** @param {number} at */
function cursorWords(at) {
  const where = isPast() ? `${isAhead() ? "not run yet" : "the past"}, ${apart(at)} ${isAhead() ? "ahead of" : "before"} now` : "now";
  const claim = claimMarks().find(([count]) => count === at);
  const words = `count ${grouped(at)}, ${secondsOf(at)}, ${where}${claim ? `, a checkpoint, ${claim[1]}` : ""}`;
  return words.replace(/ s\b/g, " seconds");
}

/** Writes each lane as a list, for those who do not see it. */
export function listLanes() {
  const { listed } = lanes.found;
  /**
   * @template {[number, ...any[]]} T
   * @param {T[]} list
   */
  const latest = (list) => inSpan(list).slice(-LISTED);
  const room = new Map(lanes.cells.flatMap(({ dropped }) => dropped));
  /** @param {string} lane */
  const inputs = (lane) => listed[lane].map(([count, kind, value], at, all) => {
    const isDropped = kind === "key" && at - all.findIndex(([first]) => first === count) >= (room.get(count) ?? Infinity);
    return `${kind} ${hex(value, 2)} at ${grouped(count)}${isDropped ? ", dropped" : ""}`;
  });
  const unknown = unknownParts(timeline).map(([from, end]) => `not known yet from ${grouped(from)} to ${grouped(end)}`);
  /**
   * @param {"lines" | "sent"} name
   * @param {(number: number) => string} text
   */
  const ofCells = (name, text) => lanes.cells.filter((cell) => cell[name]).slice(-LISTED).map((cell) => `${text(cell[name])} from ${grouped(cell.from)} to ${grouped(cell.end)}`);
  /** @type {{ [lane: string]: string[] }} */
  const lists = {
    checkpoints: latest(claimMarks()).map(([count, state]) => `${state} at ${grouped(count)}`),
    keys: inputs("keys"),
    mouse: inputs("mouse"),
    serial: [...inputs("serial"), ...ofCells("sent", (bytes) => `${many(bytes, "byte")} sent`), ...unknown],
    disk: inputs("disk"),
    screen: [...ofCells("lines", (lines) => `${many(lines, "line")} changed`), ...unknown],
    calls: callsList(),
    notes: latest([...pins]).map(([count, text]) => `${text} at ${grouped(count)}`),
    hits: [...latest(hitMarks()).map(([count, , what]) => `${what} at ${grouped(count)}`), ...moreHits()],
    keyframes: [`kept up to ${grouped(nowCount())}`],
  };
  const why = answerTexts();
  el("lists").replaceChildren(...LANES.filter((lane) => !["notes", "disk"].includes(lane) || lanes.rows.includes(lane)).map((lane) => laneList(lane, lists[lane])), ...(why.length ? [laneList("why", why)] : []));
}

/**
 * @param {string} lane
 * @param {string[]} items
 */
function laneList(lane, items) {
  const list = made("ul", "");
  list.setAttribute("aria-label", `Lane ${lane}: ${items.length || "nothing"}`);
  list.append(...items.map((text) => made("li", text)));
  return list;
}
