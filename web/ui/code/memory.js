// @ts-check
/* The bytes of memory, of which some are selected, to watch them or to ask who wrote them. */
import { address, bothOf, memoryAddress } from "../../host/addresses.js";
import { app } from "../../host/app.js";
import { setWatches } from "./breakpoints.js";
import { attempt, el, isNarrow, listButton, made, notice, on, set, write } from "../../host/elements.js";
import { askLastWriter } from "./lastwriter.js";
import { onNames, placeText } from "../../host/names.js";
import { isTab, MOST_BREAKS, shownCount, shownState, watches } from "../../host/shown.js";
import { hex, MEMORY_BYTES } from "../../formats/states.js";
import { showVariables } from "./variables.js";

export const MEMORY_ROWS = 16, MOST_WATCHED = 4096;
// Smaller values are mostly no addresses.
const LEAST_NAMED = 0x100;
/** @typedef {Watch & { anchor: number, to: number }} Selected */

// What is shown: the first address, its bytes, and those selected, from one address to another, of which `anchor` stays.
let bytesShown = { from: 0, bytes: new Uint8Array() };
/** @type {Selected | null} */
let selected = null;

const rowBytes = () => (isNarrow() ? 8 : 16);

/** Shows the memory at the cursor, if its tab is. */
export async function showMemory() {
  if (!app.latest || app.latest.on || !isTab("memory")) return;
  const at = shownCount(), length = MEMORY_ROWS * rowBytes(), from = Math.max(0, Math.min(bytesShown.from, MEMORY_BYTES - length));
  const found = await app.past.memory(at, from, length);
  if (!found || at !== shownCount()) return;
  const { bytes } = found, isSame = bytesShown.from === from && bytesShown.bytes.length === length, before = isSame ? bytesShown.bytes : bytes;
  bytesShown = { from, bytes };
  const rows = Array.from({ length: MEMORY_ROWS }, (_, row) => memoryRow(row * rowBytes(), before));
  el("memory").replaceChildren(...rows);
  showSelected();
  await showVariables((place) => (select(place, place), showMemoryAt(place)));
}

/**
 * @param {number} first
 * @param {Bytes} before
 */
function memoryRow(first, before) {
  const { from, bytes } = bytesShown, line = made("div", `${address(from + first)} `), end = first + rowBytes();
  for (let at = first; at < end; at++) {
    const byte = made("span", hex(bytes[at], 2));
    byte.dataset.at = `${from + at}`;
    byte.classList.toggle("changed", bytes[at] !== before[at]);
    line.append(byte, at % 4 === 3 ? " " : "");
  }
  line.append(printable(bytes.subarray(first, end)));
  return line;
}

/** @param {Bytes} bytes */
const printable = (bytes) => Array.from(bytes, (byte) => (byte >= 0x20 && byte < 0x7f ? String.fromCharCode(byte) : ".")).join("");

/** Shows the memory from an address on, which is rounded down to a row.
 * @param {number} at */
function showMemoryAt(at) {
  bytesShown = { from: Math.max(0, at - (at % rowBytes())), bytes: new Uint8Array() };
  return showMemory();
}

function memoryByField() {
  if (!app.work.generation) return notice("There is no machine yet whose memory could be shown.");
  const at = memoryAddress(el("memory-at").value, shownState());
  notice();
  select(at, at);
  return showMemoryAt(at);
}

// Selecting

/** Selects the bytes from one address to another.
 * @param {number} anchor
 * @param {number} to */
function select(anchor, to) {
  selected = { anchor, to, first: Math.min(anchor, to), end: Math.min(Math.max(anchor, to) + 1, Math.min(anchor, to) + MOST_WATCHED) };
  showSelected();
}

function showSelected() {
  const { first = 0, end = 0 } = selected ?? {};
  for (const byte of el("memory").querySelectorAll("span")) byte.classList.toggle("selected", Number(byte.dataset.at) >= first && Number(byte.dataset.at) < end);
  for (const name of ["wrote", "watch"]) set(name, { disabled: !selected });
  if (selected) write("selected", selectedText(selected));
}

/** @param {Selected} selected */
function selectedText({ first, end }) {
  const { from, bytes } = bytesShown, word = first - (first % 4) - from;
  const value = word >= 0 && word + 4 <= bytes.length ? new DataView(bytes.buffer, bytes.byteOffset).getUint32(word, true) : null;
  const at = end - first === 1 ? address(first) : `${address(first)} to ${address(end - 1)}`;
  const name = placeText(first), points = value !== null && value >= LEAST_NAMED ? placeText(value) : "";
  return `${at}${name ? `, ${name}` : ""}${value === null ? "" : `; the word at ${bothOf(from + word)} is ${hex(value, 8)}, ${value | 0}${points ? `, ${points}` : ""}`}`;
}

/** Returns the address of the byte that an element shows, if it does.
 * @param {EventTarget | null} element */
const atOf = (element) => (element instanceof HTMLElement ? element.dataset.at : undefined);

/** Selects the byte under the mouse; with Shift, or while its key is down, all up to it.
 * @param {PointerEvent} event */
function memoryPointed(event) {
  const at = atOf(event.target) ?? atOf(document.elementFromPoint(event.clientX, event.clientY));
  if (at === undefined || (event.type === "pointermove" && !event.buttons)) return;
  const isMore = event.type === "pointermove" || event.shiftKey;
  select(isMore && selected ? selected.anchor : Number(at), Number(at));
}

/** @param {KeyboardEvent} event */
function memoryKey(event) {
  const step = { ArrowLeft: -1, ArrowRight: 1, ArrowUp: -rowBytes(), ArrowDown: rowBytes() }[event.key];
  if (!step) return;
  event.preventDefault();
  const { anchor = bytesShown.from, to = bytesShown.from - step } = selected ?? {}, next = Math.max(0, Math.min(MEMORY_BYTES - 1, to + step));
  select(event.shiftKey ? anchor : next, next);
  const { from, bytes } = bytesShown;
  if (next < from || next >= from + bytes.length) return showMemoryAt(next < from ? next : next - bytes.length + rowBytes());
}

// Watching

export function watchSelected() {
  if (!selected) return notice("Select the bytes to watch.");
  const { first, end } = selected, others = watches.filter((one) => one.first !== first || one.end !== end);
  if (others.length >= MOST_BREAKS) return notice(`There are ${MOST_BREAKS} watches at most.`);
  setWatches(others.length < watches.length ? others : [...watches, { first, end }]);
}

/** Shows which bytes are watched. */
export function showWatches() {
  el("watches").replaceChildren(...(watches.length ? ["Watched: ", ...watches.map(watchButton)] : []));
}

/** @param {Watch} watch */
function watchButton({ first, end }) {
  const name = placeText(first), made = listButton(`${name ? `${name}, ` : ""}${address(first)}${end - first > 1 ? ` to ${address(end - 1)}` : ""} ×`, async () => {
    select(first, end - 1);
    watchSelected();
  });
  made.setAttribute("aria-label", `Watch ${address(first)} no more`);
  return made;
}

/** Asks who wrote what is selected: its bits of the word in which it begins. */
function whoWroteSelected() {
  if (!selected) return;
  const { first, end } = selected, word = first - (first % 4);
  const bytes = [0, 1, 2, 3].filter((at) => word + at >= first && word + at < end);
  const mask = bytes.reduce((sum, at) => sum + 0xff * 2 ** (8 * at), 0);
  return askLastWriter({ address: word, mask }, `Who wrote ${bytes.length === 4 ? "the word" : "the bytes"} at ${address(first)}`);
}

export function listenToMemory() {
  on("memory-at", "change", memoryByField);
  on("memory-before", "click", () => showMemoryAt(Math.max(0, bytesShown.from - MEMORY_ROWS * rowBytes())));
  on("memory-after", "click", () => showMemoryAt(bytesShown.from + MEMORY_ROWS * rowBytes()));
  for (const type of ["pointerdown", "pointermove"]) on("memory", type, memoryPointed);
  on("memory", "keydown", memoryKey);
  on("wrote", "click", whoWroteSelected);
  on("watch", "click", watchSelected);
  onNames(() => attempt(showMemory));
}
