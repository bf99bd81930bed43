// @ts-check
/* What the browser keeps of sources: each program that a person changed, of one source or several, with their undo, is an item beside the runs. */
import { app } from "../../host/app.js";
import { commands } from "../../host/commands.js";
import { desk, editor, isEdited, partsNow, setDesk, sourceFile } from "./desk.js";
import { closeMenus, notice, set } from "../../host/elements.js";
import { publish } from "../../host/events.js";
import { HEAD, Item, items, keepSoon, now, SOURCE } from "../../host/keeping.js";
import { oneAtATime } from "../../host/locks.js";
import { pins } from "../../host/pins.js";
import { filesText, isSource, MOST_NAME } from "../../host/projects.js";
import { dropItems, Gone, listed, readItem } from "../../host/records.js";
import { runningProgram } from "./sourceprogram.js";
import { showTab } from "../screen/tabs.js";
import { plainName } from "../../formats/texts.js";

/** A source of a program: its undo, and the lines that have breakpoints, from 0.
 * @typedef {{ name: string, text: string, done?: import("./editor.js").Change[], breaks?: number[] }} KeptPart */

/** A program that a person writes. `name` is that of its project, which it gets at its first run.
 * @extends {Item<SourceHead>} */
class Source extends Item {
  name = "";
  /** Where the caret is, in which file.
   * @type {{ file: string, at: import("./editor.js").Spot } | undefined} */
  caret = undefined;

  constructor() {
    super(SOURCE);
  }

  get what() {
    const { files, desk: { file } } = /** @type {SourceHead} */ (this.head), rest = filesText(files);
    return `the source ${file}${rest}, so save ${rest ? "each" : "it"} to a file`;
  }

  get isNewer() {
    return super.isNewer && this.isOpen;
  }

  /** Whether it is open, and a person changed it. */
  get isOpen() {
    return this === open && editor !== undefined && isEdited();
  }

  /** Returns which source is shown, where its caret is, as far as it was there, and where the breakpoints are.
   * @param {KeptPart[]} parts
   * @returns {SourceHead["desk"]} */
  deskOf(parts) {
    const file = sourceFile();
    if (editor.field.contains(getSelection()?.anchorNode ?? null)) this.caret = { file, at: editor.selected[1] };
    return { file, ...(this.caret?.file === file ? { caret: this.caret.at } : {}), breaks: parts.map(({ breaks = [] }) => breaks) };
  }

  /** Returns what is to be written: all of it, or, if nothing but the place was changed, its head. */
  records() {
    const { id, name, head: before, left } = this;
    if (!this.isOpen || left) return left;
    const all = partsNow(), place = this.deskOf(all);
    if (before && !this.isNewer) return JSON.stringify([before.name, before.desk]) === JSON.stringify([name, place]) ? null : { head: { ...before, at: now(), name, desk: place } };
    const parts = all.map(({ breaks, done = [], ...part }) => ({ ...part, done })), texts = parts.flatMap(({ text, done }) => [text, ...done.flatMap(({ removed, inserted }) => [removed, inserted])]);
    const lines = parts.reduce((sum, { text }) => sum + text.split("\n").length, 0), size = texts.reduce((sum, { length }) => sum + length, 0);
    return { head: { id: `${HEAD}${id}`, of: id, at: now(), name, desk: place, files: parts.length, lines, size }, body: { id, parts, lesson: desk.lesson } };
  }
}

/** The source that is open. */
let open = new Source();
items.add(open);

/** The source that is open, if a person changed it. */
export const openSource = () => (open.isOpen ? open : null);
export const openSourceId = () => open.id;
/** Returns the name of the project of the source that is open, which is that of its first file at the first run.
 * @param {string} file */
export const nameProject = (file) => (open.name ||= plainName(file.replace(/\.[^.]*$/, "") || file).slice(0, MOST_NAME));

/** Gives the project of the source that is open another name.
 * @param {string} name */
export function renameProject(name) {
  open.name = name;
  keepSoon();
}

/** Keeps the source soon: it was changed. */
export function keepSourceSoon() {
  open.news++;
  keepSoon();
}

/** Begins another source: the one before stays as it is, among what is kept. One that another page has open becomes a copy here.
 * @param {string} [id]
 * @param {SourceHead | null} [head] what is kept of it */
export async function beginSource(id, head = null) {
  const before = open, next = new Source(), isFree = id === undefined || (await next.take(id));
  before.leave(before.records());
  // It is written once it is shown: the text that is open is still that of the one before.
  if (next.left || !isFree) next.news++, keepSoon();
  Object.assign(next, { left: null, head: next.news ? null : head });
  items.add((open = next));
  setDesk({ lesson: null });
  set("lesson", { hidden: true });
  return isFree;
}

/** Opens the source that was changed last, of those that are kept or wait to be, if there is one and nothing was typed until the storage answered. */
export async function openNewest() {
  const newest = (await listed()).heads.find(isSource);
  if (newest && !isEdited()) await openKept(newest.of);
}

/** Opens a source that is kept, as it is now, with its caret and its breakpoints. One that is open already stays as it is.
 * @param {string} id */
export const openKept = (id) => oneAtATime(id, async () => {
  closeMenus();
  if (open.isOpen && id === open.id) return showTab("source");
  await showKeptSource(id);
  if (open.id !== id) notice("This source is open in another page: what you do here is kept as a copy.");
});

/** Shows a source that is kept. It is refused if it is no longer there.
 * @param {string} id */
async function showKeptSource(id) {
  const { head, body } = await readItem(id);
  await beginSource(id, head);
  const { name, desk: { file, caret, breaks } } = /** @type {SourceHead} */ (head), { parts, lesson } = body;
  open.name = name;
  commands.showSources(parts.map((/** @type {KeptPart} */ part, /** @type {number} */ at) => ({ ...part, breaks: breaks[at] })), { file, isEdited: true });
  if (caret || document.activeElement === editor.field) editor.goTo(...(caret ?? editor.end));
  if (lesson) commands.showLesson(lesson);
}

/** Opens the sources that a machine was run from, with what was written in them since, if that is kept.
 * @param {Ran} ran */
export const openRan = ({ id, file, sources }) => oneAtATime(id, async () => {
  if (editor && id === open.id) return showTab("source");
  const error = await showKeptSource(id).then(() => null, (reason) => reason);
  if (!error) return;
  // If it is there and cannot be read, nothing is written over it.
  await beginSource(error instanceof Gone ? id : undefined);
  open.name = app.work.name;
  commands.showSources(sources.map(([name, text]) => ({ name, text })), { file });
});

// Runs

/** Returns the run that is open if the next run of its source takes its place: it has no inputs of the user, no note and no branch, and is not pinned. */
export function emptyRun() {
  const { work, latest } = app, own = runningProgram();
  if (!own || !latest || work.ran?.id !== openSourceId() || work.family !== undefined || work.isPinned || pins.size) return null;
  return latest.inputs + latest.typed === JSON.parse(own.session).inputs.length ? work : null;
}

/** Deletes what is kept of a run that was left.
 * @param {Work} work */
export async function dropRun(work) {
  items.delete(work);
  if (work.head) await dropItems([work.id]);
  publish("kept");
}
