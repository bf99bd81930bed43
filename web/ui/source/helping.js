// @ts-check
/* Help where one writes: what the word under the mouse or at the caret means, and the names with which a word may go on. */
import { bothOf } from "../../host/addresses.js";
import { completions, helpOf, numberOf, registerNumber, valueText } from "../../assembler/help.js";
import { desk, editor, sourceEditor, sourcesNow } from "./desk.js";
import { attempt, el, made, paragraph, set } from "../../host/elements.js";
import { shownState } from "../../host/shown.js";
import { runningProgram } from "./sourceprogram.js";
import { AT, field } from "../../formats/states.js";

/** @typedef {import("../../assembler/help.js").Help} Help */
/** @typedef {import("./editor.js").Spot} Spot */
/** A word of a line: its text, and its columns.
 * @typedef {{ text: string, line: number, from: number, to: number }} Word */

// How long the mouse rests on a word before its help comes; how many letters a word has before names are offered; the most names that are offered.
const REST_MS = 350, LEAST_BEGUN = 2, MOST_OFFERED = 8, MARGIN = 8;
const WORDS = /"(?:[^"\\]|\\.)*"|'(?:\\.[0-9A-Fa-f]{0,2}|[^'\\])'|;.*|[A-Za-z_][\w.]*'?|\d\w*/g;
const STRINGS = /"(?:[^"\\]|\\.)*"|'(?:\\.|[^'\\])'/g;
const DEFINED = /^\s*([A-Za-z_][\w.]*)\s*[:=]/gm;
/** @type {Help} */
const OF_HELP = { title: "Help", rows: [["F1", "what a word means"], ["Ctrl+Space, Tab", "names with which it goes on, and the first of them"], ["Esc", "leaves the source"]], more: [] };

/** The word whose help is shown, and the timer of one at which the mouse rests. */
const rest = { word: "", timer: 0 };
/** The names that are offered, for which word, and which of them is chosen; below 0 none is yet.
 * @type {{ names: string[], word: Word, at: number } | null} */
let offered = null;
let isTyped = false;

// Words of the text

/** Returns the word at a place of the text, or the one that ends there; or null. Comments and strings have none.
 * @param {Spot} spot
 * @returns {Word | null} */
function wordAt([line, column]) {
  const text = editor.lines[line] ?? "";
  for (const { 0: found, index = 0 } of text.matchAll(WORDS))
    if (index <= column && column <= index + found.length) return /^[";]/.test(found) ? null : { text: found, line, from: index, to: index + found.length };
  return null;
}

/** Returns the place of the text that is at a point of the window, or null.
 * @param {number} x
 * @param {number} y
 * @returns {Spot | null} */
function spotAt(x, y) {
  const page = /** @type {any} */ (document), place = page.caretPositionFromPoint?.(x, y), range = place ? null : page.caretRangeFromPoint?.(x, y);
  const node = place?.offsetNode ?? range?.startContainer;
  return node && editor.field.contains(node) ? editor.spotOf(node, place?.offset ?? range.startOffset) : null;
}

/** Returns where a word is in the window.
 * @param {Word} word */
function boxOf({ line, from, to }) {
  const text = editor.rows[line].firstChild, range = document.createRange();
  if (!(text instanceof Text)) return editor.rows[line].getBoundingClientRect();
  range.setStart(text, Math.min(from, text.length));
  range.setEnd(text, Math.min(to, text.length));
  return range.getBoundingClientRect();
}

/** Shows an element below a box of the window, or above it where there is no room.
 * @param {"help" | "words"} name
 * @param {DOMRect} box */
function showBelow(name, { left, top, bottom }) {
  const { style } = el(name);
  el(name).hidden = false;
  const { offsetWidth: wide, offsetHeight: high } = el(name), below = bottom + MARGIN / 2;
  style.left = `${Math.max(MARGIN, Math.min(left, innerWidth - wide - MARGIN))}px`;
  style.top = `${below + high > innerHeight - MARGIN ? Math.max(MARGIN, top - high - MARGIN / 2) : below}px`;
}

// What a word means

/** Returns what a name of the program stands for, by the symbols of its last assembly: its line, and its value; or null.
 * @param {string} name
 * @returns {Help | null} */
function helpOfName(name) {
  const symbols = desk.program?.program.symbols ?? "", alias = aliasOf(name);
  const [, digits, kind, file, line] = new RegExp(`^([0-9A-F]{8})(?: [0-9A-F]{8})? ([tda]) ${name.replaceAll(".", "\\.")}\\t(.*):(\\d+)$`, "m").exec(symbols) ?? [];
  const where = `line ${line}${file === desk.file ? "" : ` of ${file}`}`, value = parseInt(digits, 16);
  if (alias) return withValue({ title: `${name}: a name of ${alias}`, rows: [], more: [] }, alias);
  if (kind === "a") return { title: `${name}: a constant, ${where}`, rows: [], more: [valueText(value)] };
  return kind ? { title: `${name}: a label, ${where}`, rows: [], more: [`address ${bothOf(value)}`, valueText(value)] } : null;
}

/** Returns the register that a name of the sources is for, or nothing.
 * @param {string} name */
function aliasOf(name) {
  const defined = new RegExp(`^\\s*${name.replaceAll(".", "\\.")}\\s*=\\s*(R\\d+|SP|LNK)\\s*(?:;|$)`, "im");
  return sourcesNow().map(([, text]) => defined.exec(text)?.[1]).find(Boolean) ?? "";
}

/** Adds the value of a register at the count that is looked at, if the program runs.
 * @param {Help} help
 * @param {string} name
 * @returns {Help} */
function withValue(help, name) {
  const number = registerNumber(name), at = number === undefined ? AT.H : AT.R + 4 * number;
  if (!runningProgram() || (number === undefined && name.toUpperCase() !== "H")) return help;
  return { ...help, more: [...help.more, `at the cursor: ${valueText(field(shownState(), at))}`] };
}

/** Returns what a word means, or null.
 * @param {string} text
 * @returns {Help | null} */
function helpOn(text) {
  const number = numberOf(text), built = helpOf(text);
  if (number !== null) return { title: text, rows: [], more: [valueText(number)] };
  return (/^[A-Za-z_]/.test(text) ? helpOfName(text) : null) ?? (built && withValue(built, text));
}

/** Shows what a word means.
 * @param {Word | null} word
 * @param {Help} [instead] */
function showHelp(word, instead) {
  const found = (word && helpOn(word.text)) ?? instead, line = editor.selected[1][0];
  if (!found) return hideHelp();
  const { title, rows, more } = found, table = made("table", "");
  for (const [form, does] of rows) table.append(rowOf(form, does));
  el("help").replaceChildren(made("b", title), ...(rows.length ? [table] : []), ...more.filter(Boolean).map((text) => paragraph(text)));
  showBelow("help", word ? boxOf(word) : editor.rows[line].getBoundingClientRect());
}

/** @param {string} form @param {string} does */
function rowOf(form, does) {
  const row = made("tr", "");
  row.append(made("td", form), made("td", does));
  return row;
}

export function hideHelp() {
  clearTimeout(rest.timer);
  rest.word = "";
  set("help", { hidden: true });
}

/** The mouse moves over the text: help comes where it rests on a word, and goes where it leaves that.
 * @param {PointerEvent} event */
function hovered({ clientX: x, clientY: y, pointerType, buttons }) {
  if (pointerType !== "mouse" || buttons || !editor) return;
  const spot = spotAt(x, y), word = spot && wordAt(spot), box = word && boxOf(word), isOn = box && x >= box.left && x <= box.right && y >= box.top && y <= box.bottom;
  const key = word && isOn ? `${word.line},${word.from},${word.text}` : "";
  if (key === rest.word) return;
  hideHelp();
  rest.word = key;
  if (word && isOn) rest.timer = setTimeout(() => attempt(() => showHelp(word)), REST_MS);
}

// How a word goes on

/** Offers the names with which the word before the caret goes on: as one types, if it is no name yet; or all, if they are asked for.
 * @param {boolean} isAsked */
function offer(isAsked) {
  const [line, column] = editor.selected[1], before = editor.lines[line].slice(0, column), [text] = /[A-Za-z_][\w.]*$/.exec(before) ?? [""];
  const start = column - text.length, ahead = before.slice(0, start), isCode = !/[";]/.test(before.replace(STRINGS, "")), isFirst = /^\s*(?:[A-Za-z_][\w.]*\s*:\s*)*$/.test(ahead);
  hideOffer();
  if (!isCode || /^\w/.test(editor.lines[line].slice(column)) || (!isAsked && (text.length < LEAST_BEGUN || helpOf(text)))) return;
  const defined = sourcesNow().flatMap(([, source]) => [...source.matchAll(DEFINED)].map(([, name]) => name)), names = completions(text, isFirst, defined);
  if (!names.length || (!isAsked && !isFirst && defined.includes(text))) return;
  offered = { names: names.slice(0, MOST_OFFERED), word: { text, line, from: start, to: column }, at: isAsked ? 0 : -1 };
  showOffer();
}

function showOffer() {
  if (!offered) return;
  const { names, word, at } = offered, items = names.map((name, number) => made("div", name, number === at ? "mark" : ""));
  items.forEach((item, number) => Object.assign(item, { role: "option", id: `g-word-${number}`, ariaSelected: `${number === at}` }));
  el("words").replaceChildren(...items);
  if (at < 0) editor.field.removeAttribute("aria-activedescendant");
  else editor.field.setAttribute("aria-activedescendant", `g-word-${at}`);
  showBelow("words", boxOf({ ...word, to: Math.max(word.to, word.from + 1) }));
}

function hideOffer() {
  if (!offered) return;
  offered = null;
  editor.field.removeAttribute("aria-activedescendant");
  set("words", { hidden: true });
}

/** Puts a name that is offered in place of the word.
 * @param {number} at */
function take(at) {
  if (!offered) return;
  const { names, word: { line, from, to } } = offered;
  hideOffer();
  editor.replace([line, from], [line, to], names[at]);
  hideOffer();
}

/** @param {number} by */
function choose(by) {
  if (!offered) return;
  const { length } = offered.names;
  offered.at = (Math.max(offered.at, by < 0 ? 0 : -1) + by + length) % length;
  showOffer();
}

/** What a key does while names are offered.
 * @type {{ [key: string]: () => void }} */
const OFFER_KEYS = { ArrowDown: () => choose(1), ArrowUp: () => choose(-1), Tab: () => take(Math.max(0, offered?.at ?? 0)), Escape: hideOffer };

/** Returns what a key does here, or null.
 * @param {KeyboardEvent} event
 * @returns {(() => void) | null} */
function taskOf({ key, shiftKey, ctrlKey, altKey, metaKey, isComposing }) {
  if (isComposing || altKey || metaKey) return null;
  if (ctrlKey) return key === " " ? () => offer(true) : null;
  if (shiftKey) return null;
  if (key === "F1") return () => showHelp(wordAt(editor.selected[1]), OF_HELP);
  if (offered && key === "Enter" && offered.at >= 0) return () => take(offered?.at ?? 0);
  if (offered && key in OFFER_KEYS) return OFFER_KEYS[key];
  return key === "Escape" && !el("help").hidden ? hideHelp : null;
}

/** A key in the source: what it does here comes before what the text field does with it.
 * @param {KeyboardEvent} event */
function pressed(event) {
  if (!editor) return;
  const task = taskOf(event);
  if (!task) {
    if (!["Shift", "Control", "Alt", "Meta"].includes(event.key)) hideHelp();
    return;
  }
  event.preventDefault();
  event.stopPropagation();
  attempt(task);
}

/** The text was changed: as one types, names are offered. */
export function offerSoon() {
  hideHelp();
  if (isTyped) attempt(() => offer(false));
  else hideOffer();
  isTyped = false;
}

export function listenToHelp() {
  const box = el("source");
  box.addEventListener("keydown", pressed, { capture: true });
  box.addEventListener("beforeinput", ({ inputType, data }) => (isTyped = inputType === "insertText" && data?.length === 1), { capture: true });
  box.addEventListener("pointermove", (event) => attempt(() => hovered(event)));
  for (const type of ["pointerleave", "pointerdown", "scroll", "focusout"]) box.addEventListener(type, () => (hideHelp(), hideOffer()));
  el("words").addEventListener("mousedown", (event) => {
    event.preventDefault();
    const at = [...el("words").children].indexOf(/** @type {Element} */ (event.target));
    if (at >= 0) take(at);
  });
  // The caret goes elsewhere by keys: what was offered is of another word.
  document.addEventListener("selectionchange", () => {
    if (!offered) return;
    const [line, column] = sourceEditor().selected[1], { word } = offered;
    if (line !== word.line || column !== word.to) hideOffer();
  });
}
