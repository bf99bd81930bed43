// @ts-check
/* The listing of the code: all words of memory, of which the rows in sight are made, with labels and lines of sources between them, a gutter for
 * breakpoints, and how often each word was executed. */
import { refusalText, readAddress } from "../../host/addresses.js";
import { app } from "../../host/app.js";
import { showHits, toggleBreak } from "./breakpoints.js";
import { offer } from "../../host/commands.js";
import { showCounts, timesOf } from "./counts.js";
import { attempt, el, made, notice, on, set, write } from "../../host/elements.js";
import { branchTarget, instruction, movedNumber } from "../../formats/instructions.js";
import { lineOf, names, onNames, placeText, sourceLine, valueName, whereText } from "../../host/names.js";
import { breaks, isPast, isTab, shownCount, shownState } from "../../host/shown.js";
import { hex, wordsOf, WORDS } from "../../formats/states.js";
import { shown, sourceText } from "../../formats/shownnames.js";
import { countUpTo } from "../../formats/symbols.js";
import { grouped, many } from "../../formats/texts.js";

// How high a row is, how many rows above and below those in sight are made, how many words are asked for around them, and the row of PC after a jump.
const ROW = 18, MARGIN = 12, AROUND = 128, ABOVE = 6;
const LONGEST_SOURCE = 200;

/** A row: its element, and what it shows. Those of words have a button in the gutter.
 * @typedef {{ line: HTMLElement, said: string, gutter?: HTMLButtonElement, cells?: { [name: string]: HTMLElement } }} Row */

// The rows by their keys. Rows that stay in sight stay: a button that were made anew between its press and its release would get no click.
/** @type {Map<string, Row>} */
const rows = new Map();
// The words that are known, from one number on, and of which moment they are; the word number of PC; and what is asked for.
let known = { from: 0, words: new Uint32Array(), of: "" };
let counter = 0;
let askedWords = "";
// Where rows other than those of words are: the word before which each comes, in rising order.
let extras = new Int32Array();
// What is in sight: it is noted when it changes, since reading it would force layout.
const sight = { top: 0, high: 0 };

/** What the words in sight depend on: the machine and the count that is looked at.
 * @returns {string} */
const moment = () => `${app.work.generation} ${app.work.fork} ${isPast() ? "past" : "now"} ${shownCount()}`;

/** Returns the number of the row of a word.
 * @param {number} word */
const rowOf = (word) => word + countUpTo(extras, word);

/** Returns the word to which a row belongs, and how many rows it is above that of the word.
 * @param {number} row
 * @returns {[number, number]} */
function wordOf(row) {
  let from = 0, end = WORDS - 1;
  while (from < end) {
    const middle = (from + end) >> 1;
    if (rowOf(middle) < row) from = middle + 1;
    else end = middle;
  }
  return [from, rowOf(from) - row];
}

/** Whether the text of a line of a source is known, so that it has a row of its own.
 * @param {import("../../formats/symbols.js").SourceLine} line */
const isWritten = (line) => sourceLine(line) !== undefined;

/** Finds where labels and lines of sources come between the words. */
function findExtras() {
  const { symbols } = names, places = [...symbols.starts, ...symbols.lineStarts.filter(isWritten).map(({ address }) => address)].filter((address) => address < 4 * WORDS);
  extras = Int32Array.from(places, (address) => address >>> 2).sort();
  for (const [key, { line }] of rows) line.remove(), rows.delete(key);
  el("listing-size").style.height = `${ROW * (WORDS + extras.length)}px`;
}

/** Shows the code around a program counter, if its tab is shown and PC is followed, with the words around it that are known already.
 * @param {number} pc
 * @param {[number, number][]} words */
export function showListing(pc, words) {
  counter = pc;
  if (words.length) noteWords(words[0][0], words.map(([, word]) => word));
  set("no-code", { hidden: pc < WORDS });
  showCode();
}

/** Notes words that are known: among those that are known already, or in their place.
 * @param {number} from
 * @param {number[]} words */
function noteWords(from, words) {
  const isInside = from >= known.from && from + words.length <= known.from + known.words.length;
  if (isInside) known.words.set(words, from - known.from);
  else known = { from, words: Uint32Array.from(words), of: "" };
}

/** Shows the code that is in sight. */
export function showCode() {
  if (!isTab("code")) return;
  write("where", app.latest && !app.latest.on ? whereText(4 * counter) : "");
  if (el("follow").checked) follow();
  draw();
  attempt(askWords);
}

/** Scrolls so that PC is in sight, unless it is. */
function follow() {
  const top = ROW * rowOf(counter);
  if (counter < WORDS && (top < sight.top + ROW || top > sight.top + sight.high - 3 * ROW)) scrollTo(counter);
}

/** Scrolls to a word.
 * @param {number} word */
function scrollTo(word) {
  sight.top = Math.max(0, Math.min(ROW * (rowOf(word) - ABOVE), ROW * (WORDS + extras.length) - sight.high));
  el("listing").scrollTop = sight.top;
}

/** Puts PC in sight from now on: a user went to where it is. */
export function followCounter() {
  set("follow", { checked: true });
  showCode();
}

/** Shows a word of the code, which PC is not followed from any more.
 * @param {number} word */
export function showWord(word) {
  set("follow", { checked: false });
  scrollTo(word);
  showCode();
}

/** Returns the first row in sight, and the one after the last. */
function inSight() {
  const first = Math.floor(sight.top / ROW);
  return [Math.max(0, first - MARGIN), Math.min(WORDS + extras.length, first + Math.ceil(sight.high / ROW) + MARGIN)];
}

/** Asks for the words in sight, once at a time, and shows them: from the machine as it is now, or from its past. */
async function askWords() {
  const [first, end] = inSight(), of = moment(), from = wordOf(first)[0], to = Math.min(WORDS, wordOf(Math.max(0, end - 1))[0] + 1);
  const isKnown = known.of === of && known.from <= from && known.from + known.words.length >= to;
  if (!app.latest || isKnown || askedWords) return;
  askedWords = of;
  const begin = Math.max(0, from - AROUND), length = Math.min(WORDS, to + AROUND) - begin;
  const bytes = await wordsAt(4 * begin, 4 * length).finally(() => (askedWords = ""));
  if (!bytes || !isTab("code")) return;
  if (of === moment() || app.latest.on) known = { from: begin, words: wordsOf(bytes), of };
  draw();
  if (of !== moment() && !app.latest.on) await askWords();
}

/**
 * @param {number} from
 * @param {number} length
 */
async function wordsAt(from, length) {
  if (isPast()) return (await app.past.memory(shownCount(), from, length))?.bytes;
  return app.live.ask("words", { from, length, of: app.work.generation });
}

/** Makes the rows that are in sight, and drops the others. */
function draw() {
  const [first, end] = inSight(), place = el("listing-rows"), keys = new Set();
  for (let row = first; row < end; row++) {
    const [word, above] = wordOf(row), key = `${word} ${above}`, was = rows.get(key), one = was ?? newRow(word, above);
    keys.add(key);
    if (!was) {
      rows.set(key, one);
      one.line.style.transform = `translateY(${ROW * row}px)`;
      place.append(one.line);
    }
    if (one.cells) fillWord(one, word);
  }
  for (const [key, { line }] of rows) if (!keys.has(key)) line.remove(), rows.delete(key);
}

/** @param {number} word @param {number} above @returns {Row} */
const newRow = (word, above) => (above ? newExtra(word, above) : newWord(word));

/** Makes the row of a label or of a line of a source.
 * @param {number} word
 * @param {number} above
 * @returns {Row} */
function newExtra(word, above) {
  const { symbols } = names, labels = symbols.startsIn(4 * word, 4 * word + 4), lines = symbols.linesIn(4 * word, 4 * word + 4).filter(isWritten);
  const at = labels.length + lines.length - above, label = labels[at], line = lines[at - labels.length];
  const row = made("div", "", `row ${label === undefined ? "quoted" : "label"}`);
  if (label !== undefined) row.append(made("bdi", `${placeText(label)}:`));
  else if (line) row.append(made("bdi", `${shortSource(line)}  ${shownSource(sourceLine(line))}`));
  row.title = row.textContent ?? "";
  return { line: row, said: "" };
}

/** Returns a line of a source without the folder of its file: there is little room for it.
 * @param {import("../../formats/symbols.js").SourceLine} line */
const shortSource = (line) => sourceText(line).replace(/.*\//, "");
/** @param {string | undefined} text */
const shownSource = (text = "") => text.slice(0, LONGEST_SOURCE).replace(/[\p{C}\p{Zl}\p{Zp}]/gu, " ").trim();

/** Makes the row of a word.
 * @param {number} word
 * @returns {Row} */
function newWord(word) {
  const line = made("div", "", "row"), gutter = made("button", "", "gutter");
  const cells = Object.fromEntries(["times", "place", "code", "mnemonic", "meaning", "remark"].map((name) => [name, made(name === "remark" ? "bdi" : "span", "", name)]));
  // The rows have no end for the key Tab: by keys, b and the form above set a breakpoint.
  Object.assign(gutter, { type: "button", tabIndex: -1, onclick: () => toggleBreak(word) });
  gutter.dataset.pc = `${word}`;
  line.append(gutter, ...Object.values(cells));
  return { line, gutter, cells, said: "" };
}

/** Writes an instruction to its row, unless it is there already.
 * @param {Row} row
 * @param {number} at */
function fillWord(row, at) {
  const word = known.words[at - known.from], times = timesOf(at), isHere = at === counter, isBreak = breaks.has(at);
  const said = [word, times, isHere, isBreak].join();
  if (row.said === said || !row.cells || !row.gutter) return;
  row.said = said;
  const { times: often, place, code, mnemonic, meaning, remark } = row.cells, [short, means] = word === undefined ? ["..", ""] : instruction(word, at);
  row.gutter.setAttribute("aria-pressed", String(isBreak));
  row.gutter.setAttribute("aria-label", `breakpoint at ${at}, ${short}`);
  often.textContent = times ? grouped(times) : "";
  often.title = times === null ? "" : `executed ${many(times, "time")} up to here`;
  often.style.setProperty("--heat", `${heatOf(times)}%`);
  place.textContent = `${isHere ? "▸" : " "}${hex(4 * at, 5)} · ${at}`;
  code.textContent = word === undefined ? "" : hex(word, 8);
  [mnemonic.textContent, meaning.textContent] = [short, means];
  remark.textContent = word === undefined ? "" : remarkOn(word, at);
  row.line.classList.toggle("here", isHere);
  row.line.classList.toggle("never", times === 0);
}

/** Returns how warm a row is, from 0 to 100, by the logarithm of how often it was executed.
 * @param {number | null} times */
const heatOf = (times) => Math.min(100, Math.round(8 * Math.log10(1 + (times ?? 0))));

/** Returns what the names say of an instruction: where a branch goes, or what number it moves, perhaps with the move of the upper half before it;
 * and the line of its source, unless that has a row.
 * @param {number} word
 * @param {number} at */
function remarkOn(word, at) {
  const target = branchTarget(word, at), value = movedNumber(word, known.words[at - 1 - known.from] ?? 0), line = lineOf(4 * at);
  const text = target !== null ? placeText(4 * target) : value === null ? "" : valueName(value);
  const said = [text, line && !isWritten(line) ? shortSource(line) : ""].filter(Boolean).join(", ");
  return said ? `; ${said}` : "";
}

/** Goes to what is written, or sets a breakpoint there.
 * @param {SubmitEvent} event */
function codeByForm(event) {
  event.preventDefault();
  notice();
  const text = el("code-at").value, address = readAddress(text, shownState()), word = address / 4;
  if (address >= 4 * WORDS) return notice(`${shown(text)} = ${hex(address, 1)} is no code address.`);
  if (!(address >= 0)) return notice(refusalText(text, `an address is hexadecimal, ·32 for the word 32, a register, or a name${names.from ? "" : " of a symbol file"}.`));
  if (event.submitter?.getAttribute("value") === "break" && address % 4 === 0 && !breaks.has(word)) toggleBreak(word);
  showWord(Math.floor(word));
}

/** Offers names that have what is written in them, and are shown as they are. */
function offerNames() {
  const text = el("code-at").value.toLowerCase(), found = [];
  for (const name of text.length < 2 ? [] : names.symbols.names()) {
    if (name.toLowerCase().includes(text) && shown(name) === name) found.push(name);
    if (found.length === 20) break;
  }
  el("code-names").replaceChildren(...found.map((value) => Object.assign(made("option", ""), { value })));
}

export function listenToListing() {
  const listing = el("listing");
  listing.addEventListener("scroll", () => {
    sight.top = listing.scrollTop;
    if (isTab("code")) draw(), attempt(askWords);
  });
  // What a user does to scroll ends that PC is followed; what the page does scrolls, too.
  for (const type of ["wheel", "touchmove"]) listing.addEventListener(type, () => set("follow", { checked: false }), { passive: true });
  listing.addEventListener("pointerdown", ({ target }) => target === listing && set("follow", { checked: false }));
  listing.addEventListener("keydown", ({ key }) => /^(?:Arrow|Page|Home|End)/.test(key) && set("follow", { checked: false }));
  on("follow", "change", () => showCode());
  on("code-form", "submit", codeByForm);
  on("code-at", "input", offerNames);
  onNames(() => (findExtras(), showCode()));
  new ResizeObserver(([{ contentRect }]) => {
    sight.high = contentRect.height;
    showCode();
  }).observe(listing);
  findExtras();
}

/** Shows how often the code was executed, once that is counted. */
export const countCode = () => attempt(() => showCounts(() => (draw(), showHits())));

offer({ showWord });
