// @ts-check
/* What is shown: the count that is looked at, now or in the past, with the machine's state there; the mode in which the machine is run; breakpoints, and the
 * tab that is in sight. This module owns it. Panels read it here, and import no other panel for it. Looking never changes the recording. */
import { app } from "./app.js";
import { el } from "./elements.js";
import { AT, countOf, field, PER_SECOND, withDisk } from "../formats/states.js";
import { isEnd } from "../formats/instructions.js";
import { grouped, many, timeText } from "../formats/texts.js";

// The count and its moment

// `at` is the count that is looked at, in the past, or ahead of a replay; or null for now. `moment` is what was answered for it last: a count with the state
// before the inputs of that count.
/** @type {{ at: number | null, moment: Moment | null }} */
export const cursor = { at: null, moment: null };

/** Says what is looked at from here on: a count, or what was answered for it.
 * @param {Partial<typeof cursor>} now */
export function setCursor(now) {
  Object.assign(cursor, now);
}

/** Shows the machine as it is now. */
export function cursorToNow() {
  setCursor({ at: null, moment: null });
}

export const isPast = () => cursor.at !== null;
/** Whether a count is looked at to which the replay has not come yet: what is shown is what the file claims, or what comes of it. */
export const isAhead = () => cursor.at !== null && cursor.at > nowCount();
export const nowCount = () => (app.latest ? countOf(app.latest.state) : 0);
export const shownCount = () => cursor.at ?? nowCount();
/** The state that is shown: that of the moment, or the machine's own. */
export const shownState = () => cursor.moment?.state ?? app.latest?.state ?? withDisk(new Uint8Array(AT.disk));

/** Why keys, the mouse and the controls of devices have no effect while the past is looked at, or null. */
export function inputRefusalInPast() {
  if (!isPast()) return null;
  return cursor.at === stoppedAt() ? "STOPPED: a stopped machine takes no inputs" : "VIEWING an earlier count: nothing goes to the machine until you continue from here, or go back to live";
}

/** How many instructions are a second of the machine: by its rate, or at 25 MHz if only inputs set its timer. */
export const perSecond = () => (app.latest ? 1000 * field(app.latest.state, AT.rate) : 0) || PER_SECOND;
/** Returns the time of a count, as in 2.650 s, or 12:13:00.
 * @param {number} counts
 * @param {number} [digits] */
export const secondsOf = (counts, digits) => timeText(counts / perSecond(), digits);
/** How far a count is from now: in seconds, or in instructions where it is near.
 * @param {number} at */
export function apart(at) {
  const counts = Math.abs(nowCount() - at);
  return counts < perSecond() / 20 ? many(counts, "instruction") : secondsOf(counts, 1);
}

// The run and its mode

/** What is false of the file that is open, or null. */
export const falseClaim = () => app.file?.verdict?.wrong ?? null;

const WHY = ["", "a floating-point instruction", "a division by a divisor below 1", "PC left memory", "an address outside memory"];
// The run that stopped, by its number, the count of the instruction that stopped it, once that is known, and a count to which the user had it run.
export const stopped = { fork: 0, at: /** @type {number | null} */ (null), goal: -1 };

/** The count of the instruction that stopped the machine, or null.
 * @returns {number | null} */
export const stoppedAt = () => (stopped.fork === app.work.fork ? stopped.at : null);

/** Says what is known of the run that stopped.
 * @param {Partial<typeof stopped>} now */
export function setStopped(now) {
  Object.assign(stopped, now);
}

/** Says up to which count the user has the machine run, where it stays if it stopped before.
 * @param {number} goal */
export function setGoal(goal) {
  setStopped({ goal });
}

/** Says where the machine stopped, as far as that is known, and why.
 * @param {Bytes} state */
export function stopText(state) {
  const at = stoppedAt();
  return `${at === null ? "" : `at ${grouped(at)}: `}${WHY[field(state, AT.stop)]}`;
}

/** Whether the machine is where its program ends.
 * @param {Frame} frame */
export function isDone({ state, listing }) {
  const pc = field(state, AT.PC), [, word] = listing.find(([place]) => place === pc) ?? [];
  return word !== undefined && isEnd(word, pc, field(state, AT.flags));
}

/** Whether the machine is run as fast as it goes, and after how many seconds of it there is a checkpoint each; 0 for none. */
export const isFast = () => el("speed").value === "fast";
export const everySeconds = () => Math.max(0, Math.min(3600, Math.floor(Number(el("each").value)) || 0));

// Whether a machine that was taken over resumes at the first key.
export let isToGoOn = false;

/** @param {boolean} is */
export function setToGoOn(is) {
  isToGoOn = is;
}

// Whether the machine was just told to run: what is typed from then on goes to it, though it has not answered yet.
export let isStarting = false;

/** @param {boolean} is */
export function setStarting(is) {
  isStarting = is;
}

/** What is played, or null.
 * @type {{} | null} */
export let playing = null;

/** @param {{} | null} own */
export function setPlaying(own) {
  playing = own;
}

export const isPlaying = () => playing !== null && isPast();

// The selection

/** How many breakpoints there are at most, and conditions of a search. */
export const MOST_BREAKS = 32;
/** The word numbers at which the machine stops on its way.
 * @type {Set<number>} */
export let breaks = new Set();

/** Takes other breakpoints in their place.
 * @param {Set<number>} words */
export function takeBreaks(words) {
  breaks = words;
}

/** The bytes of memory whose changes stop the machine on its way.
 * @type {Watch[]} */
export let watches = [];

/** Takes other watches in their place.
 * @param {Watch[]} wanted */
export function takeWatches(wanted) {
  watches = wanted;
}

/** Whether a tab is in sight.
 * @param {string} name */
export const isTab = (name) => !el(`panel-${name}`).hidden;
