// @ts-check
/* A project in a file: what is beside its recording, as JSON. Whoever wrote the file may have written anything, so each member is tested, and the first that
 * is wrong is refused by its name. Nothing of it is run. */
import { areNotes, MOST_NOTES } from "./pinned.js";
import { MOST_COUNT } from "./limits.js";
import { Refused } from "./refused.js";
import { plainName } from "./texts.js";

export const FORMAT = "galluspa-project", VERSION = 1;
const MOST_NAME = 80, LONGEST_TITLE = 200, MOST_FILES = 100, LONGEST_SOURCE = 1 << 22, MOST_BREAKS = 32, MOST_BRANCHES = 8, MOST_STEPS = 100, LONGEST_TASK = 10000, MOST_WORDS = 4096, MEMORY_BYTES = 1 << 20;

/** Another run beside that of the project: its number, the count at which it leaves the others, and where it ends; its recording up to its last checkpoint, and
 * all of its inputs.
 * @typedef {{ number: number, parent: number, end: number, recording: Bytes, inputs: Bytes }} ProjectBranch */
/** What a lesson wants: that at a count parts of the state, words of memory and the bytes that were sent are these.
 * @typedef {{ task: string, see: string, claim: Wanted }} LessonStep */
/** @typedef {{ title: string, steps: LessonStep[] }} Lesson */
/** A project beside its recording: its name; the sources as they are now, the one that is shown, and those from which it was run, if these are others; the
 * symbol file; what was looked at; its other branches, and the lesson that it is, or is an answer to.
 * @typedef {{ name: string, file: string, sources: [string, string][], ran: [string, string][] | null, symbols: SymbolFile | null, breaks: number[], watches: Watch[],
 *   notes: import("./pinned.js").PinnedNote[], cursor: number | null, number: number, branches: ProjectBranch[], lesson: Lesson | null }} Project */

/** Bytes as JSON has them here.
 * @param {Bytes} bytes */
function base64(bytes) {
  let text = "";
  for (let at = 0; at < bytes.length; at += 1 << 15) text += String.fromCharCode(...bytes.subarray(at, at + (1 << 15)));
  return btoa(text);
}

/** Returns the JSON of a project.
 * @param {Project} project */
export const writtenProject = (project) => JSON.stringify({ format: FORMAT, version: VERSION, ...project }, (_, value) => (value instanceof Uint8Array ? base64(value) : value));

/** @param {string} what
 * @param {unknown} isSo */
function demand(what, isSo) {
  if (!isSo) throw new Refused(`the project in this file is not valid: ${what}`);
}

/** @param {unknown} value */
const isObject = (value) => typeof value === "object" && value !== null && !Array.isArray(value);
/** @param {unknown} value
 * @param {number} most */
const isText = (value, most) => typeof value === "string" && value.length <= most;
/** @param {unknown} value
 * @param {number} most */
const isWhole = (value, most) => Number.isInteger(value) && Number(value) >= 0 && Number(value) <= most;
/** @param {any} value
 * @param {number} most
 * @param {(one: any) => unknown} test */
const isList = (value, most, test) => Array.isArray(value) && value.length <= most && value.every(test);
/** @param {any} value */
const areSources = (value) => isList(value, MOST_FILES, (one) => isList(one, 2, (text) => isText(text, LONGEST_SOURCE)) && one.length === 2);
/** @param {any} value */
const isWatch = (value) => isWhole(value?.first, MEMORY_BYTES) && isWhole(value.end, MEMORY_BYTES) && value.first < value.end;
/** @param {any} value */
const isStep = (value) => isText(value?.task, LONGEST_TASK) && isText(value.see, LONGEST_TASK) && isClaim(value.claim);

/** Whether a value is a lesson, or none.
 * @param {any} value
 * @returns {value is Lesson | null | undefined} */
export const isLesson = (value) => value === null || value === undefined || (isText(value.title, LONGEST_TITLE) && isList(value.steps, MOST_STEPS, isStep) && value.steps.length > 0);

/** Whether a value says what is wanted of a program at a count.
 * @param {any} value */
export function isClaim(value) {
  if (!isObject(value)) return false;
  const { at, sent = "", memory = {}, ...parts } = value, areWords = (/** @type {any} */ all) => isObject(all) && isList(Object.values(all), MOST_WORDS, (word) => isWhole(word, 0xffffffff));
  return isWhole(at, MOST_COUNT) && at > 0 && isText(sent, LONGEST_TASK) && areWords(memory) && areWords(parts) && Object.keys(memory).every((address) => isWhole(Number(address) / 4, MEMORY_BYTES / 4 - 1));
}

/** Returns bytes that JSON has, or refuses them.
 * @param {string} what
 * @param {unknown} text */
function bytesOf(what, text) {
  demand(what, typeof text === "string");
  try {
    return Uint8Array.from(atob(`${text}`), (sign) => sign.charCodeAt(0));
  } catch {
    throw new Refused(`the project in this file is not valid: ${what}`);
  }
}

/** Returns the project that a file has, or refuses it by its first member that is wrong. What is not known here is left out.
 * @param {string} text
 * @returns {Project} */
export function readProject(text) {
  /** @type {any} */
  let value = null;
  try {
    value = JSON.parse(text);
  } catch {
    throw new Refused("the project in this file is not JSON");
  }
  demand("format", isObject(value) && value.format === FORMAT);
  demand("version", Number.isInteger(value.version));
  if (value.version !== VERSION) throw new Refused(`the project in this file has version ${value.version}, and this page reads version ${VERSION}`);
  const { name, sources = [], file = sources?.[0]?.[0] ?? "", ran = null, symbols = null, breaks = [], watches = [], notes = [], cursor = null, number = 1, branches = [], lesson = null } = value;
  demand("name", isText(name, MOST_NAME) && name);
  demand("sources", areSources(sources));
  demand("file", isText(file, LONGEST_SOURCE) && (!sources.length || sources.some((/** @type {[string, string]} */ [one]) => one === file)));
  demand("ran", ran === null || areSources(ran));
  demand("symbols", symbols === null || (isObject(symbols) && isText(symbols.from, LONGEST_SOURCE)));
  demand("breaks", isList(breaks, MOST_BREAKS, (word) => isWhole(word, MEMORY_BYTES / 4 - 1)));
  demand("watches", isList(watches, MOST_BREAKS, isWatch));
  demand(`notes, of which there are at most ${MOST_NOTES}`, areNotes(notes));
  demand("cursor", cursor === null || isWhole(cursor, MOST_COUNT));
  demand("number", isWhole(number, 1e9));
  demand("branches", isList(branches, MOST_BRANCHES, (one) => isObject(one) && isWhole(one.number, 1e9) && [one.parent, one.end].every((count) => isWhole(count, MOST_COUNT))));
  demand("lesson", isLesson(lesson));
  return {
    name: plainName(name), file, sources, ran, breaks, watches, notes, cursor, number,
    symbols: symbols && { from: plainName(symbols.from), bytes: bytesOf("symbols", symbols.bytes) },
    branches: branches.map((/** @type {any} */ one) => ({ number: one.number, parent: one.parent, end: one.end, recording: bytesOf("branches", one.recording), inputs: bytesOf("branches", one.inputs) })),
    lesson: lesson && { title: plainName(lesson.title), steps: lesson.steps },
  };
}
