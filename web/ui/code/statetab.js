// @ts-check
/* The registers of the machine, and the checkpoints of a recording. */
import { bothOf } from "../../host/addresses.js";
import { app } from "../../host/app.js";
import { showAround } from "./code.js";
import { DOTS_WIDE, LINES } from "../../formats/dots.js";
import { attempt, button, el, made, named, paragraph } from "../../host/elements.js";
import { publish } from "../../host/events.js";
import { showListing } from "./listing.js";
import { showMemory } from "./memory.js";
import { whereText } from "../../host/names.js";
import { paint } from "../screen/screen.js";
import { falseClaim, isTab } from "../../host/shown.js";
import { AT, equal, field, partsOf, rangesText, REGISTERS_ASKED, STATE_BYTES } from "../../formats/states.js";
import { grouped } from "../../formats/texts.js";
import { notePassed } from "../timeline/lanes.js";
import { askLastWriter } from "./lastwriter.js";

export const DEVICES_ASKED = ["stop", "switches", "LEDs", "mouse", "serial", "keys", "disk"];

// The cells of the registers by their names, made once: a drag of the cursor changes texts, and makes nothing. The state that was shown
// before, while the machine did not run, to mark what changed. While it runs, they are shown so often.
/** @type {Map<string, { value: HTMLElement, holder: HTMLElement }>} */
const registerCells = new Map();
const RUNNING_MS = 100;
/** @type {Bytes | null} */
let registersBefore = null;
let runningDue = 0;

/** Forgets what was shown: the next state is not compared with it. */
export function forgetRegisters() {
  registersBefore = null;
}

export function makeRegisters() {
  for (const [name] of partsOf(new Uint8Array(STATE_BYTES))) {
    const [cell, value] = cellOf(name, "");
    if (aboutPart(name)) value.append(button("", () => askPart(name)));
    const holder = /** @type {HTMLElement} */ (value.firstElementChild ?? value);
    if (holder !== value) holder.title = `Who wrote ${name}`;
    registerCells.set(name, { value, holder });
    el("state").append(cell);
  }
}

/**
 * @param {string} name
 * @param {string} text
 * @returns {[HTMLElement, HTMLElement]}
 */
function cellOf(name, text) {
  const cell = document.createElement("div"), value = made("dd", text);
  cell.append(made("dt", name), value);
  return [cell, value];
}

/** What is asked about a part of a state: a register or a part of a device; or null if nothing can be.
 * @param {string} name
 * @returns {About | null} */
export function aboutPart(name) {
  const register = REGISTERS_ASKED.indexOf(name);
  return register >= 0 ? { register } : DEVICES_ASKED.includes(name) ? { device: name } : null;
}

/** @param {string} name */
export function askPart(name) {
  return askLastWriter(aboutPart(name) ?? {}, `Who wrote ${name}`);
}

/** Shows the parts of a state, with what has changed since the one shown before marked.
 * @param {Bytes} state */
export function showRegisters(state) {
  showParts(state, registersBefore);
  registersBefore = state;
  publish("registers");
}

/** Marks the part that a checkpoint claims falsely, or none.
 * @param {string | null} part */
export function markWrong(part) {
  for (const [name, { value }] of registerCells) value.classList.toggle("wrong", name === part);
}

/** Writes the parts of a state to their cells, and marks those that are others than before, if anything was.
 * @param {Bytes} state
 * @param {Bytes | null} old */
function showParts(state, old) {
  const before = old && new Map(partsOf(old));
  for (const [name, plain] of partsOf(state)) {
    const text = name === "PC" ? bothOf(4 * field(state, AT.PC)) : plain;
    const { value, holder } = /** @type {{ value: HTMLElement, holder: HTMLElement }} */ (registerCells.get(name));
    if (holder.textContent !== text) {
      holder.textContent = text;
      if (holder !== value) holder.setAttribute("aria-label", `${name} ${text}: who wrote it`);
      if (name === "PC") holder.title = whereText(4 * field(state, AT.PC));
    }
    value.classList.toggle("changed", Boolean(before && before.get(name) !== plain));
  }
}

/** Shows the registers or the listing of a machine that runs, whichever is seen, as often as can be read.
 * @param {Bytes} state
 * @param {[number, number][]} words */
export function showRunning(state, words) {
  const now = performance.now();
  if (now < runningDue) return;
  runningDue = now + RUNNING_MS;
  if (isTab("state")) showParts(state, null);
  if (isTab("code")) showListing(field(state, AT.PC), words);
}

/**
 * @param {Bytes} state
 * @param {[number, number][]} listing
 */
export function showPaused(state, listing) {
  if (registersBefore && equal(registersBefore, state)) return;
  showRegisters(state);
  showListing(field(state, AT.PC), listing);
  attempt(showAround);
  attempt(showMemory);
}

/**
 * @param {Bytes} state
 * @param {Bytes | null} before
 * @param {string | null} wrong
 */
function cells(state, before, wrong) {
  const old = before && Object.fromEntries(partsOf(before));
  return partsOf(state).map(([name, text]) => {
    const [cell, value] = cellOf(name, text);
    value.classList.toggle("changed", Boolean(old && old[name] !== text));
    value.classList.toggle("wrong", name === wrong);
    return cell;
  });
}

/** @param {Passed[]} passed */
export function showPassed(passed) {
  el("passed").append(...passed.map(passedItem));
  el("passed").scrollTop = el("passed").scrollHeight;
  for (const { count, part } of passed) notePassed(count, !part);
}

/** @param {Passed} passed */
function passedItem({ number, count, part }) {
  const item = made("li", part ? `at ${grouped(count)}: false, first in ${part}` : `at ${grouped(count)}: true`, part ? "wrong" : "");
  item.value = number;
  item.dataset.count = `${count}`;
  return item;
}

// The checkpoints of a recording

/** @param {number} number */
export async function showClaim(number) {
  const { file } = app;
  if (!file) return;
  number = Math.max(0, Math.min(file.claims.length - 1, Math.floor(number) || 0));
  const shown = await app.live.ask("claimed", { number, of: app.work.generation });
  if (!shown || file !== app.file) return;
  el("claim-number").value = `${number}`;
  const wrong = falseClaim();
  el("claim").replaceChildren(...claimParts(shown, wrong?.number === number ? wrong.part : null));
  showOf(file);
  el("run-on").disabled = false;
}

/** Says which recording the checkpoints are of, and its verdict.
 * @param {OpenFile} file */
export function showOf({ name, version, inputs, checkpoints, verdict }) {
  const line = verdict ? `: ${verdict.line}` : "";
  el("claims-of").replaceChildren(`of ${grouped(checkpoints)} in `, named(name), `, ${grouped(inputs)} inputs, version ${version}${line}`);
}

/**
 * @param {Claimed} claimed
 * @param {string | null} wrong
 */
function claimParts({ number, count, steps, state, before, dots, sent, sentLength, pages }, wrong) {
  const canvas = made("canvas", ""), list = made("dl", "");
  [canvas.width, canvas.height] = [DOTS_WIDE, LINES];
  canvas.setAttribute("role", "img");
  canvas.setAttribute("aria-label", `The screen at checkpoint ${number}`);
  paint(canvas, dots);
  list.append(...cells(state, before, wrong));
  const when = number ? `at ${grouped(count)}, after ${grouped(steps ?? 0)} more steps; changes are marked` : "the initial state, taken as given";
  /** @type {HTMLElement[]} */
  const parts = [paragraph(when, "hint")];
  if (wrong) parts.push(paragraph(`False: the first part that differs from the machine's is ${wrong}.`, "wrong"));
  parts.push(canvas, list);
  if (pages.length) parts.push(paragraph(`Memory changed in the pages ${rangesText(pages)}, of 1,024 bytes each.`, "hint"));
  if (!sentLength) return parts;
  const output = made("pre", sent);
  output.tabIndex = 0;
  output.setAttribute("role", "region");
  output.setAttribute("aria-label", `Bytes sent at checkpoint ${number}`);
  return [...parts, paragraph(`Sent since the checkpoint before, ${grouped(sentLength)} bytes:`, "hint"), output];
}
