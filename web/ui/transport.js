// @ts-check
/* The transport: the buttons and the keys that go to another count. The keys are those of the time machine's region: while the screen
 * has the focus, its keys go to the machine. */
import { app } from "../host/app.js";
import { conditionsOfBreaks, toggleBreak } from "./code/breakpoints.js";
import { attempt, closeMenu, el, on } from "../host/elements.js";
import { goToWritten } from "./going.js";
import { backToNow, moveCursor, runAgain, runTo, takeOverHere } from "./timeline/cursormoves.js";
import { watchSelected } from "./code/memory.js";
import { toggleOther } from "./source/runcomparison.js";
import { pausePlay, play } from "./timeline/play.js";
import { setRun } from "./timeline/running.js";
import { finding, search, searchAgain, stopSearch } from "./code/search.js";
import { isAhead, isPast, isPlaying, nowCount, shownCount, shownState } from "../host/shown.js";
import { AT, field } from "../formats/states.js";
import { isStepping, stepInto, stepOut, stepOver, stopStepping } from "./source/stepping.js";
import { inputTaken } from "./timeline/taking.js";
import { claimMarks, lanes } from "./timeline/lanes.js";
import { showSpan, zoom, ZOOM } from "./timeline/loading.js";
import { trackMoved, trackPressed, trackReleased, wheeled, zoomToCall } from "./timeline/pointer.js";
import { wholeSpan } from "./timeline/span.js";
import { turnCallRows } from "./timeline/timeline.js";
import { asking } from "./code/lastwriter.js";
import { isFollowing } from "./code/why.js";

/** Runs and pauses the machine; in the past, plays from the cursor up to now, and the machine stays where it is. */
async function runOrPause() {
  if (isAhead()) return runTo(shownCount());
  if (isPast()) return isPlaying() ? pausePlay() : play();
  await setRun(!app.latest?.on);
}

const stepOn = () => stepInto(false), stepBack = () => stepInto(true);

/** Goes to the last hit of the breakpoints and watches before the cursor, or to the first one after it; without any to the instruction that takes a key, or to
 * another input.
 * @param {boolean} isBack */
async function toHit(isBack) {
  if (conditionsOfBreaks().length) return search(conditionsOfBreaks(), isBack, true);
  const at = await inputTaken(isBack);
  if (at !== null) return moveCursor(at);
  return isBack ? moveCursor(0) : backToNow();
}

/** Goes to the input before the cursor, or to the next one; to the beginning, or to now, if there is none.
 * @param {boolean} isBack */
async function toInput(isBack) {
  const at = await app.live.ask("inputNear", { at: shownCount(), isBefore: isBack });
  if (at !== null && at <= nowCount()) return moveCursor(at);
  return isBack ? moveCursor(0) : backToNow();
}

/** Goes to the checkpoint before the cursor, or to the next one.
 * @param {boolean} isBack */
async function toClaim(isBack) {
  const at = shownCount(), counts = [0, ...claimMarks().map(([count]) => count).sort((one, other) => one - other)];
  const found = isBack ? counts.filter((count) => count < at).at(-1) : counts.find((count) => count > at);
  if (found !== undefined) await moveCursor(found);
}

/** Goes to now; from there, to the end of a replay. */
async function toNow() {
  if (isPast()) return backToNow();
  if (app.latest?.isReplay) await runTo(lanes.found.end);
}

// The steps, by the names of their buttons.
/** @type {[string, () => unknown][]} */
const STEPS = [
  ["line-out-back", () => stepOut(true)], ["line-over-back", () => stepOver(true)], ["back", stepBack],
  ["step", stepOn], ["line-over", () => stepOver(false)], ["line-out", () => stepOut(false)],
];

// What each key does. A capital is with Shift.
/** @type {{ [key: string]: () => unknown }} */
const KEYS = {
  ArrowLeft: stepBack, ArrowRight: stepOn, "Shift+ArrowLeft": () => toHit(true), "Shift+ArrowRight": () => toHit(false),
  ",": () => toInput(true), ".": () => toInput(false), "[": () => toClaim(true), "]": () => toClaim(false),
  Home: () => moveCursor(0), End: toNow, PageUp: () => zoom(ZOOM), PageDown: () => zoom(1 / ZOOM), "+": () => zoom(ZOOM), "-": () => zoom(1 / ZOOM),
  "−": () => zoom(1 / ZOOM), "=": () => zoom(ZOOM), c: turnCallRows, g: () => openMore("goto"), "/": () => openMore("search-kind"),
  n: () => searchAgain(false), N: () => searchAgain(true), b: () => toggleBreak(field(shownState(), AT.PC)), w: watchSelected, x: toggleOther, i: stepOn, I: stepBack, o: () => stepOver(false), O: () => stepOver(true),
  u: () => stepOut(false), U: () => stepOut(true), Escape: endOrNow,
};

/** Does what a key of the region means, unless it is typed into a field.
 * @param {KeyboardEvent} event */
function timeKey(event) {
  const { key, shiftKey, ctrlKey, altKey, metaKey, target } = event, isField = target instanceof Element && target.matches("input, select, textarea");
  if (!app.latest || ctrlKey || altKey || metaKey || (isField && key !== "Escape")) return;
  const task = KEYS[shiftKey && key.startsWith("Arrow") ? `Shift+${key}` : key];
  if (!task) return;
  event.preventDefault();
  return task();
}

/** Opens what one searches with, and goes to a field of it.
 * @param {"goto" | "search-kind"} field */
function openMore(field) {
  el("more").setAttribute("open", "");
  el(field).focus();
}

/** Ends the search that is under way, or else closes the menu that is open, or else goes to now. */
function endOrNow() {
  if (isStepping()) return stopStepping();
  if (finding.isOn || asking?.isOn || isFollowing()) return stopSearch();
  return closeMenu() || backToNow();
}

// What each key does anywhere in the page: those of a browser's debugger, and that which pauses and runs.
/** @type {{ [key: string]: () => unknown }} */
const ANYWHERE = {
  "Ctrl+Shift+Enter": runOrPause, F8: runOrPause, F10: () => stepOver(false), F11: stepOn, "Shift+F11": () => stepOut(false),
  "Ctrl+\\": runOrPause, "Ctrl+'": () => stepOver(false), "Ctrl+;": stepOn, "Ctrl+Shift+:": () => stepOut(false), "Ctrl+Shift+;": () => stepOut(false),
};

/** Does what a key means from anywhere in the page. A key with Ctrl is the machine's while that runs and has the focus, but for the one that pauses it.
 * @param {KeyboardEvent} event */
function anywhere(event) {
  const { key, ctrlKey, metaKey, shiftKey, altKey, target } = event, isCtrl = ctrlKey || metaKey;
  const task = altKey ? undefined : ANYWHERE[`${isCtrl ? "Ctrl+" : ""}${shiftKey ? "Shift+" : ""}${key}`];
  if (!task || !app.latest || (isCtrl && key !== "Enter" && target === el("screen") && app.latest.on)) return;
  event.preventDefault();
  attempt(task);
}

export function listenToTime() {
  on("run", "click", runOrPause);
  for (const [name, task] of STEPS) on(name, "click", task);
  // A tooltip has the keys after what the button does.
  for (const button of document.querySelectorAll("#galluspa .keys button[title]:not(#g-run)")) button.ariaLabel = button.getAttribute("title")?.split(":")[0] ?? null;
  on("back-run", "click", () => toHit(true));
  on("next-run", "click", () => toHit(false));
  on("begin-at", "click", () => moveCursor(0));
  on("now", "click", toNow);
  on("back-now", "click", () => backToNow());
  on("take-here", "click", takeOverHere);
  on("run-again", "click", runAgain);
  on("goto", "change", goToWritten);
  on("zoom-in", "click", () => zoom(ZOOM));
  on("zoom-out", "click", () => zoom(1 / ZOOM));
  on("zoom-all", "click", () => showSpan(wholeSpan().from, wholeSpan().to));
  on("time", "keydown", timeKey);
  on("track", "pointerdown", trackPressed);
  on("track", "pointermove", trackMoved);
  on("track", "dblclick", zoomToCall);
  // The track keeps the focus that it is given when it is pressed.
  on("track", "mousedown", (event) => event.preventDefault());
  for (const type of ["pointerup", "pointercancel"]) on("track", type, trackReleased);
  el("track").addEventListener("wheel", (event) => attempt(() => wheeled(event)), { passive: false });
  addEventListener("keydown", anywhere);
}
