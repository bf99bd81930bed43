// @ts-check
/* The sources of the program that is open: the text field with one of them, the others, and what the worker made of them. */
import { app } from "../../host/app.js";
import { Editor } from "./editor.js";
import { el } from "../../host/elements.js";
import { Helper } from "../../host/requests.js";
import { breaks } from "../../host/shown.js";
import { linesOfWords, NO_PART, programLine, runningProgram, textLine } from "./sourceprogram.js";

export const LONGEST_SOURCE = 1 << 22;
export const FIRST_SOURCE = "; A program of your own. Ctrl+Enter runs it.\n\n";

/** @type {Editor} */
export let editor;
/** A source of the program that is open: its text and the changes that led to it, which are those of the field while it is shown, and the lines with
 * breakpoints that wait for a program, from 0.
 * @typedef {{ text: string, done: import("./editor.js").Change[], breaks: Set<number> }} OpenSource */
export const FIRST_FILE = "program.asm";
// The worker that assembles, what it made of which version of the text, the last program without a mistake with its sources, the timer, the
// name of the file that is shown, all sources of the program by the names of their files, and the lesson that goes with them.
/** @type {{ worker: Helper | null, made: Assembled | null, version: number, program: { program: AssembledProgram, sources: [string, string][] } | null, timer: number,
 *   file: string, parts: Map<string, OpenSource>, isEdited: boolean, lesson: import("../../formats/project.js").Lesson | null }} */
export const desk = {
  lesson: null, worker: null, made: null, version: -1, program: null, timer: 0, file: FIRST_FILE, parts: new Map([[FIRST_FILE, { text: "", done: [], breaks: new Set() }]]), isEdited: false,
};

/** Says what is open, or what the worker made of it.
 * @param {Partial<typeof desk>} now */
export function setDesk(now) {
  Object.assign(desk, now);
}

/** What the text field calls.
 * @typedef {ConstructorParameters<typeof Editor>[1]} Owner */
/** @type {Owner} */
let owner;

export const sourceFile = () => desk.file;
/** Whether there is something that a person wrote. */
export const isEdited = () => desk.isEdited;

/** The worker that assembles. It starts once there is something to assemble. */
export const assembler = () => (desk.worker ??= new Helper(app.module, () => {}));

/** Says what the text field calls when it is changed, shown or clicked on.
 * @param {Owner} tasks */
export function ownEditor(tasks) {
  owner = tasks;
}

/** Returns the text field. It is made at the first use. */
export function sourceEditor() {
  editor ??= new Editor(el("source"), owner);
  return editor;
}

/** Returns a source of the program.
 * @param {string} file */
export const partOf = (file) => /** @type {OpenSource} */ (desk.parts.get(file));

/** Returns the sources of the program as they are now.
 * @returns {[string, string][]} */
export const sourcesNow = () => [...desk.parts].map(([file, { text }]) => [file, file === desk.file ? sourceEditor().text : text]);

/** Returns the sources of the program as they are now, with their undo and the lines that have breakpoints.
 * @returns {import("./sourceautosave.js").KeptPart[]} */
export function partsNow() {
  return sourcesNow().map(([name, text]) => ({ name, text, done: name === desk.file ? editor.done : partOf(name).done, breaks: breakLines(name) }));
}

// The lines and the words of the program

/** Returns the lines of a source that have breakpoints, by their numbers from 0.
 * @param {string} file */
export const breakLines = (file) => [...(runningProgram() ? new Set(linesOfWords(runningPart(file), linesNow(file), breaks)) : partOf(file).breaks)];

/** Returns what the program that runs has of a source.
 * @param {string} file */
export const runningPart = (file) => (file === desk.file ? runningProgram() : runningProgram()?.parts.get(file)) ?? NO_PART;
/** @param {string} file */
export const linesNow = (file) => (file === desk.file ? editor.lines : partOf(file).text.split("\n"));

/** Returns the word number of a line of the text, if the program has one of it.
 * @param {number} line */
export function wordOfLine(line) {
  const own = runningProgram(), of = own ? programLine(line, editor) : null;
  return of === null ? undefined : own?.words.get(of);
}

/** Returns the line of the text that an instruction is of, or null.
 * @param {number} word */
export function lineOfWord(word) {
  const line = runningProgram()?.lines.get(word);
  return line === undefined ? null : textLine(line, editor);
}
