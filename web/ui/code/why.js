// @ts-check
/* Where a value comes from, in the card of who wrote it: the links to the key, the constant or the initial memory, as a list, and as arcs over the timeline. Each
 * of them leads to its count. */
import { app } from "../../host/app.js";
import { attempt, button, el, made, write } from "../../host/elements.js";
import { instruction } from "../../formats/instructions.js";
import { DISPLAY_AT, flagsText, hex, MEMORY_BYTES, rangesText } from "../../formats/states.js";
import { LINE_BYTES } from "../../formats/dots.js";
import { lineOf, placeText } from "../../host/names.js";
import { markLinks } from "../timeline/answers.js";
import { listLanes } from "../timeline/cursor.js";
import { drawLanes } from "../timeline/drawing.js";
import { isAhead } from "../../host/shown.js";
import { sourceText } from "../../formats/shownnames.js";
import { grouped } from "../../formats/texts.js";

const FIRST_LINKS = 20, MOST_LINKS = 200, DEEPEST = 8;
/** A row of the list: a value, how deep in the tree it is, its number if it leads to a count, and that count.
 * @typedef {{ it: Origin, depth: number, number: number, count: number | null }} Row */

/** What is followed: what that is about, by how many links, the number of the request, whether it is under way, and what leads to a count.
 * @typedef {{ about: About, links: number, request: number, isOn: boolean, jump: (count: number) => Promise<void> }} Following */
/** @type {Following | null} */
let following = null;
/** The rows that are shown, by what they are of: one that stays is the same element, so that a press of it stays one.
 * @type {Map<string, HTMLElement>} */
let linkRows = new Map();

export const isFollowing = () => following?.isOn === true;

/** Ends what is followed, and forgets it. */
export function forgetWhy() {
  if (isFollowing()) attempt(() => app.past.stop());
  following = null;
  showLinks([]);
}

/** Follows a value back from a count, and shows the links as they are found. A click on one calls `jump`.
 * @param {About} about
 * @param {number} before
 * @param {(count: number) => Promise<void>} jump
 * @param {number} links */
export async function followWhy(about, before, jump, links = FIRST_LINKS) {
  if ((about.device !== undefined && about.device !== "LEDs") || isAhead() || !el("why")) return;
  /** @type {Following} */
  const own = { about, links, request: app.past.numbered(), isOn: true, jump }, { request } = own;
  following = own;
  linkRows = new Map();
  const list = made("ol", ""), far = made("span", ""), said = made("div", "", "hint");
  list.id = "g-why-list";
  far.id = "g-why-far";
  said.append(button("Cancel", () => app.past.stop()), " ", far);
  el("why").replaceChildren(made("b", "Where the value comes from"), list, said);
  const answer = await attempt(() => app.past.why({ ...about, before, links, request }));
  own.isOn = false;
  if (following !== own || !list.isConnected) return;
  if (answer?.values) showWhy({ request, values: answer.values });
  const isMore = answer?.values && links < MOST_LINKS && flat(answer.values).some(({ it }) => it.end === "unfollowed");
  const more = isMore ? [" ", button("Follow more", () => followWhy(about, before, jump, Math.min(MOST_LINKS, 4 * links)))] : [];
  said.replaceChildren(answer?.values ? "It follows values, and not the branches that led to an instruction." : "The search was cancelled.", ...more);
}

/** Says how far the search for a link has come.
 * @param {NonNullable<PastNews["searched"]>} news */
export function showFollowing({ request, done, of }) {
  if (following?.isOn && request === following.request && el("why-far")) write("why-far", `${grouped(done)} of ${grouped(of)} counts`);
}

/** Shows the links that were found up to now.
 * @param {NonNullable<PastNews["why"]>} news */
export function showWhy({ request, values }) {
  const list = el("why-list"), found = flat(values);
  if (!following || following.request !== request || !list) return;
  const shown = found.map((row) => rowOf(row)), kept = new Set(shown);
  for (const item of [...list.children]) if (!kept.has(/** @type {HTMLElement} */ (item))) item.remove();
  shown.forEach((item, at) => list.children[at] === item || list.insertBefore(item, list.children[at] ?? null));
  showLinks(found.flatMap((row) => (row.count === null ? [] : [{ number: row.number, count: row.count, use: row.it.before, what: textOf(row.it) }])));
}

/** Shows links in the timeline, and lists them there.
 * @param {Parameters<typeof markLinks>[0]} links */
function showLinks(links) {
  markLinks(links);
  drawLanes();
  listLanes();
}

/** Returns the values of a tree as rows: each value, and then those from which it was made. Numbers of instructions have no row: their instruction shows them.
 * @param {Origin[]} values
 * @returns {Row[]} */
function flat(values) {
  /** @type {Row[]} */
  const found = [];
  /** @type {(list: Origin[], depth: number) => void} */
  const add = (list, depth) => {
    for (const it of list) {
      if (!it.part) continue;
      const count = it.step?.count ?? it.input?.[0] ?? null, number = found.filter((row) => row.count !== null).length + 1;
      found.push({ it, depth, number, count });
      add(it.from, depth + 1);
    }
  };
  add(values, 0);
  return found;
}

/** Returns the element of a row, with the texts that it has now.
 * @param {Row} row */
function rowOf({ it, depth, number, count }) {
  const key = JSON.stringify([it.part, it.before, it.role, it.step?.count]), item = linkRows.get(key) ?? newRow(count), [place, value, what] = item.querySelectorAll("span");
  linkRows.set(key, item);
  item.style.setProperty("--depth", `${Math.min(depth, DEEPEST)}`);
  place.textContent = count === null ? "·" : `${number}`;
  value.textContent = `${textOf(it)}${it.role ? ` (${it.role})` : ""}`;
  what.textContent = whatOf(it);
  item.title = [value.textContent, what.textContent, count === null ? "" : `at ${grouped(count)}`].filter(Boolean).join(" · ");
  return item;
}

/** Makes the element of a row, which leads to a count if there is one.
 * @param {number | null} count */
function newRow(count) {
  const item = made("li", ""), parts = ["", "value", ""].flatMap((name) => [made("span", "", name), " "]);
  if (count === null) item.append(...parts);
  else {
    const go = button("", async () => following?.jump(count));
    go.append(...parts);
    item.append(go);
  }
  return item;
}

/** Says a value: what has it, and what it is.
 * @param {Origin} it */
function textOf({ part, value }) {
  const { register, device, flags, address = 0, bit, mask = 0 } = part ?? {};
  if (flags) return `flags ${flags} = ${flagsText(value)}`;
  if (register ?? device) return `${register ?? device} = ${hex(value, 8)}`;
  const at = address - DISPLAY_AT;
  if (bit !== undefined) return `dot ${8 * (at % LINE_BYTES) + bit},${Math.floor(at / LINE_BYTES)} = ${value}`;
  if (address >= MEMORY_BYTES) return `LEDs = ${hex(value, 8)}`;
  const bytes = [0, 1, 2, 3].filter((byte) => mask >>> byte & 1), name = placeText(address + bytes[0]);
  const which = bytes.length === 4 ? "" : ` ${bytes.length > 1 ? "bytes" : "byte"} ${rangesText(bytes)}`;
  return `Mem[${hex(address, 6)}]${which}${name ? ` ${name}` : ""} = ${hex(value, 8)}`;
}

/** Says where a value is from: the instruction that wrote it with its line or its place, or where the links end.
 * @param {Origin} it */
function whatOf({ part, step, end, input }) {
  /** @type {{ [end: string]: string }} */
  const ends = { constant: "a constant", initial: "as at the beginning", elsewhere: "followed elsewhere in this list", unfollowed: "not followed further" };
  const from = input ? `the input ${input[1]} ${hex(input[2], 2)}` : part?.device === "timer" ? "the timer, which counts instructions" : ends.initial;
  const why = end === "taken" ? from : ends[end] ?? "";
  if (!step) return why || "..";
  const line = lineOf(4 * step.pc), place = line ? sourceText(line) : placeText(4 * step.pc) || `PC ${step.pc}`;
  return [instruction(step.word, step.pc)[0], place, why].filter(Boolean).join(" · ");
}
