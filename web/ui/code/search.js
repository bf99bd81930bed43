// @ts-check
/* Searches: at which count something happens, before the cursor or after it. */
import { address, bothOf, refusalText, readAddress, readCode } from "../../host/addresses.js";
import { app } from "../../host/app.js";
import { conditionsOfBreaks } from "./breakpoints.js";
import { ALL_BITS, BECOMES, CHANGE, COUNTER, LOAD, SENDS, SENDS_BYTE, STOP, STORE, TAKES, WRITES } from "../../formats/conditions.js";
import { moveCursor } from "../timeline/cursormoves.js";
import { attempt, el, made, notice, on, write } from "../../host/elements.js";
import { noteHit } from "../timeline/hits.js";
import { followCounter } from "./listing.js";
import { placeText } from "../../host/names.js";
import { nowCount, shownCount } from "../../host/shown.js";
import { hex, KINDS, REGISTERS, REGISTERS_ASKED } from "../../formats/states.js";
import { grouped, many } from "../../formats/texts.js";

// What can be searched for: its kind, its name, and the labels of what it is about: a range, a value.
/** @type {[number, string, ("PC" | "address" | "register" | null)?, string?][]} */
const WANTED = [
  [COUNTER, "PC comes to", "PC"], [STORE, "a store to", "address"], [CHANGE, "a change of", "address"], [LOAD, "a load from", "address"],
  [BECOMES, "a register becomes", "register", "value"], [WRITES, "a write of", "register"], [SENDS, "any byte sent"], [SENDS_BYTE, "the byte sent", null, "byte"],
  [TAKES, "an input"], [STOP, "the machine stops"],
];
// The search that is under way, or was last: the number of its request, when it began, its conditions, and what it found where. It is
// replaced whole.
/** @type {{ isOn: boolean, request: number, begun: number, conditions: Condition[] | null, hit: { at: number, conditions: Condition[] } | null }} */
export let finding = { isOn: false, request: 0, begun: 0, conditions: null, hit: null };

/** Forgets the result of a search that has ended. */
export function forgetFinding() {
  if (!finding.isOn) write("found", "");
}

/** Forgets where something was found last. */
export function forgetFound() {
  finding = { ...finding, hit: null };
}

/** Whether the same conditions were found at a count last.
 * @param {number} at
 * @param {Condition[]} conditions */
function wasFoundAt(at, conditions) {
  return finding.hit?.at === at && JSON.stringify(finding.hit.conditions) === JSON.stringify(conditions);
}

/** Looks at the nearest hit of some conditions, before the cursor or after it. A search on begins with the instruction at the cursor, unless
 * that is what was found last; a run on begins after it. Returns the count, or null if there is none, or undefined if the search was ended.
 * @param {Condition[]} conditions
 * @param {boolean} isBack
 * @param {boolean} isRun */
export async function search(conditions, isBack, isRun = false) {
  const at = shownCount(), next = isRun || wasFoundAt(at, conditions) ? at + 1 : at, [from, to] = isBack ? [0, at] : [next, nowCount()];
  if (app.latest?.on) await app.live.ask("setRun", { on: false });
  const request = app.past.numbered(), own = (finding = { ...finding, isOn: true, request, begun: performance.now(), conditions });
  const what = conditions.length === 1 ? conditionText(conditions[0]) : many(conditions.length, "condition");
  showFinding(`${what}: searching ${isBack ? "back" : "on"} ..`);
  const found = from < to ? await attempt(() => app.past.find({ from, to, last: isBack, conditions, request })) : { none: true };
  if (finding !== own) return undefined;
  finding = { ...own, isOn: false };
  if (found?.at !== undefined) return foundAt({ at: found.at, which: found.which ?? 0 }, conditions);
  showFinding(found?.none ? `${what}: none ${isBack ? "before" : "after it, up to now"}.` : "The search was cancelled.");
  return found?.none ? null : undefined;
}

/** Returns what can be searched for of a kind.
 * @param {number} kind */
const wanted = (kind) => WANTED.find(([one]) => one === kind) ?? WANTED[0];

/** Says a condition in words.
 * @param {Condition} condition */
function conditionText({ kind, from = 0, end = 0, value = 0 }) {
  const [, name, about] = wanted(kind), write = about === "address" ? address : String;
  const range = end - from > 1 ? `${write(from)} to ${write(end - 1)}` : write(from), place = placeText(kind === COUNTER ? 4 * from : from);
  if (kind === COUNTER) return `PC ${end - from > 1 ? range : bothOf(4 * from)}${place ? `, ${place}` : ""}`;
  if (kind === BECOMES) return `${REGISTERS_ASKED[from]} becomes ${hex(value, 8)}`;
  if (kind === WRITES) return `${name} ${REGISTERS_ASKED[from]}`;
  return about ? `${name} ${range}${place ? `, ${place}` : ""}` : kind === SENDS_BYTE ? `${name} ${value}` : kind === TAKES ? `${name}: ${KINDS[value]}` : name;
}

/**
 * @param {Hit} hit
 * @param {Condition[]} conditions
 */
export async function foundAt({ at, which }, conditions) {
  const what = conditionText(conditions[which] ?? conditions[0]);
  finding = { ...finding, hit: { at, conditions } };
  noteHit(at, what);
  await moveCursor(at);
  followCounter();
  if (finding.hit?.at === at) showFinding(`${what} at ${grouped(at)}`);
  return at;
}

/** Hears that the live machine has come to a breakpoint or a watch, and was paused before that instruction.
 * @param {NonNullable<LiveNews["met"]>} met */
export function meetBreak({ generation, at, condition }) {
  if (generation === app.work.generation) return foundAt({ at, which: 0 }, [condition]);
}

/** @param {string} text */
function showFinding(text) {
  write("found", text);
  el("find-stop").hidden = !finding.isOn;
}

/** Says how far the search has come, and how long it will take.
 * @param {NonNullable<PastNews["searched"]>} news */
export function showSearched({ request, done, of }) {
  if (!finding.isOn || request !== finding.request) return;
  const ms = performance.now() - finding.begun, left = done ? `, about ${Math.max(1, Math.ceil((ms * (of - done)) / done / 1000))} s left` : "";
  write("found", `${grouped(done)} of ${grouped(of)} counts${left}`);
}

export async function stopSearch() {
  await app.past.stop();
}

/** Searches again for what was searched last.
 * @param {boolean} isBack */
export function searchAgain(isBack) {
  const conditions = finding.conditions ?? conditionsOfBreaks();
  if (!conditions.length) return notice("Nothing was searched for yet.");
  return search(conditions, isBack);
}

/** Searches for what the form says.
 * @param {SubmitEvent} event */
function searchByForm(event) {
  event.preventDefault();
  notice();
  const conditions = conditionsOfForm();
  if (conditions) return search(conditions, event.submitter?.getAttribute("value") === "before");
}

/** Returns the conditions that the form says, or null if it says none: then the page says why. */
function conditionsOfForm() {
  const [kind, , about, valued] = wanted(Number(el("search-kind").value));
  const range = about ? rangeOf(el("search-range").value, about) : { from: 0, end: 1 };
  if (!range) return notice(refusalText(el("search-range").value, FORMS[about ?? "PC"])), null;
  const fixed = kind === TAKES ? Number(el("input-kind").value) : kind === CHANGE ? ALL_BITS : 0;
  const value = valued ? valueOf(el("search-value").value) : fixed;
  if (value === null) return notice(refusalText(el("search-value").value, "a value is a number, hexadecimal after 0x, or a character in quotes.")), null;
  return [{ kind, ...range, value }];
}

const FORMS = {
  PC: "PC is an address as in the listing, such as 0044, ·17 for the word 17, a name, or two as in 0044-0050.",
  address: "an address is hexadecimal, ·32 for the word 32, a name, or two as in E8000-E8003.",
  register: "a register is R0 to R15, H or flags.",
};
const FLAGS = 17, LAST_PC = 1 << 22, LAST_ADDRESS = 1 << 24;

/** Returns the range that was written: two numbers with a line between them, or one.
 * @param {string} text
 * @param {string} about */
function rangeOf(text, about) {
  if (about === "register") {
    const from = text.toUpperCase() === "FLAGS" ? FLAGS : [...REGISTERS, "H"].indexOf(text.toUpperCase());
    return from < 0 ? null : { from, end: from + 1 };
  }
  const isAddress = about === "address", read = isAddress ? readAddress : readCode, most = isAddress ? LAST_ADDRESS : LAST_PC;
  // A name may have a line in it, and a sum has one.
  const whole = read(text), [from, last, ...more] = whole >= 0 ? [whole] : text.split("-").map((one) => read(one)), end = last ?? from;
  return !more.length && from >= 0 && from <= end && end < most ? { from, end: end + 1 } : null;
}

/** Returns the value that was written: a number, or the code of a character in quotes.
 * @param {string} text */
function valueOf(text) {
  const character = /^'(.)'$/u.exec(text.trim());
  if (character) return Number(character[1].codePointAt(0));
  const number = /^(?:0x[0-9a-f]+|\d+)$/i.test(text.trim()) ? Number(text) : NaN;
  return number <= ALL_BITS ? number : null;
}

/** Shows the fields that what is searched for has. */
function showFields() {
  const [kind, , about, valued] = wanted(Number(el("search-kind").value));
  for (const [name, label] of [["search-range", about], ["search-value", valued]]) {
    el(`${name}-label`).hidden = !label;
    el(`${name}-label`).getElementsByTagName("span")[0].textContent = label ?? "";
  }
  el("input-kind-label").hidden = kind !== TAKES;
}

export function listenToSearch() {
  /**
   * @param {number} value
   * @param {string} text
   */
  const choice = (value, text) => Object.assign(made("option", text), { value });
  el("search-kind").replaceChildren(...WANTED.map(([kind, name]) => choice(kind, name)));
  el("input-kind").replaceChildren(...KINDS.map((name, kind) => choice(kind, name)).slice(1));
  on("search-kind", "change", showFields);
  on("search", "submit", searchByForm);
  on("find-stop", "click", stopSearch);
  showFields();
}
