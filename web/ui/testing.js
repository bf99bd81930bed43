// @ts-check
/* What the page answers to its tests, as `galluspa`: a few questions about what is open and what is shown. A test asks these, and reads for the rest what a user
 * sees; so modules can change without the tests. Nothing of the page uses it, and it changes nothing of the page but what `live` and `past` ask for. */
import { finding } from "./code/search.js";
import { desk, editor } from "./source/desk.js";
import { runningProgram } from "./source/sourceprogram.js";
import { verdicts } from "./screen/verdicts.js";
import { app } from "../host/app.js";
import { isUnsafe } from "../host/keeping.js";
import { names } from "../host/names.js";
import { timeline } from "./timeline/span.js";
import { isPast, cursor, nowCount, shownCount, shownState } from "../host/shown.js";
import { AT, field } from "../formats/states.js";

/** Returns a part of a state by its name, and which word of it, as in ("R", 5); null without a state.
 * @param {Bytes | undefined} state
 * @param {keyof typeof AT} name
 * @param {number} word */
const partOf = (state, name, word) => (state ? field(state, AT[name] + 4 * word) : null);

/** Returns what a test may know of the recording in progress.
 * @param {Work} work */
const workOf = ({ name, generation, branch, number, sent, kept, isStored, isNewer, isPinned, head }) =>
  ({ name, generation, branch, number, sent, kept, isStored, isNewer, isPinned, head: head && { ...head, since: undefined, shades: undefined } });

const QUESTIONS = {
  // The machine: its last frame (null before the first one), its count, and parts of its state.
  frame: () => app.latest,
  count: nowCount,
  part: (/** @type {keyof typeof AT} */ name, word = 0) => partOf(app.latest?.state, name, word),
  // What is shown: the count that is looked at, or null for now; whether it is one; the count and the state that are shown; what was answered last for it.
  cursor: () => cursor.at,
  isPast,
  shownCount,
  shownPart: (/** @type {keyof typeof AT} */ name, word = 0) => partOf(shownState(), name, word),
  moment: () => cursor.moment,
  // The counts between which the timeline is in sight.
  span: () => [timeline.from, timeline.to],
  // What is open: the recording in progress; the file, with its bytes and its verdict, or null; the file of the names, and
  // how many they are; the source, whether it is assembled as it is, and whether it runs.
  work: () => workOf(app.work),
  // Whether something is lost if the page is left; and what would be written of the recording in progress.
  isUnsafe,
  unwritten: () => app.work.base && app.work.sinceOf(app.work.base),
  file: () => app.file,
  names: () => ({ from: names.from, size: names.symbols.size }),
  source: () => ({ file: desk.file, isAssembled: desk.made !== null && desk.version === editor?.version, isRunning: runningProgram() !== null }),
  // Whether a search, or the check of "file" or "own", goes on.
  isSearching: () => finding.isOn,
  isChecking: (/** @type {keyof typeof verdicts} */ place) => verdicts[place].checker !== null,
  // Asks the live machine for something, or calls a method of the past, as the panels do.
  live: (/** @type {RequestName} */ name, /** @type {any} */ given) => app.live.ask(name, given),
  past: (/** @type {keyof Past} */ name, /** @type {any[]} */ ...given) => /** @type {any} */ (app.past)[name](...given),
  /** Forgets the last frame, so that a test sees the next one. */
  forget: () => void (app.latest = null),
};

Object.defineProperty(globalThis, "galluspa", { value: Object.freeze(QUESTIONS) });
