// @ts-check
/* The list of what the browser keeps and is not open here, as projects; and how one goes on with it. */
import { app, branches, NO_BRANCHES } from "../../host/app.js";
import { familyOf } from "../timeline/branches.js";
import { sendBreaks, setBreaks, setWatches } from "../code/breakpoints.js";
import { offer } from "../../host/commands.js";
import { attempt, button, download, el, listButton, made, named, notice, paragraph, set, write } from "../../host/elements.js";
import { items, newId, RUN } from "../../host/keeping.js";
import { moveCursor, runTo, showMode } from "../timeline/cursormoves.js";
import { mayLeave, showOpened } from "./opening.js";
import { setPins } from "../../host/pins.js";
import { headOf, isSource, MOST_NAME, nameIn, nameOf, partsOf, projectsOf, sizeText, textOf } from "../../host/projects.js";
import { dropItems, listed, readItem, relabel } from "../../host/records.js";
import { Refusal } from "../../host/requests.js";
import { smallPicture } from "../screen/screen.js";
import { isPast, nowCount } from "../../host/shown.js";
import { sentIn } from "../../formats/recordings.js";
import { findProgram, resumeProgram, takeSources } from "../source/source.js";
import { openKept, openSource, renameProject } from "../source/sourceautosave.js";
import { deleteStorage, withStore } from "../../host/storage.js";
import { resumeNames } from "../code/symbolfiles.js";
import { many, messageOf, plainName } from "../../formats/texts.js";
import { offerToContinue } from "../screen/welcome.js";
import { keepRun, keepRunSoon, Work } from "../../host/work.js";
import { locked, oneAtATime } from "../../host/locks.js";
import { textOf as jsonOf } from "../../host/writeahead.js";

// The list

/** @typedef {import("../../host/projects.js").Project} Project */
/** What was deleted: its records, and items that were not written, which bring it back.
 * @typedef {{ records: any[], unwritten: import("../../host/keeping.js").Item<any>[], name: string, text: string }} Deleted */

/** What was deleted since the page was opened, in that order.
 * @type {Set<Deleted>} */
const deleted = new Set();
let listing = 0;

/** Reads what is kept and not open here; and why it cannot be read, if so. */
async function readKept() {
  const read = await listed(), here = new Set([app.work, openSource(), ...branches.list].map((item) => item?.id));
  return { ...read, heads: read.heads.filter(({ of }) => !here.has(of)) };
}

/** Shows what is kept and not open here, as projects, and what was deleted since the page was opened. Of two at a time the later one counts. */
export async function showKept() {
  const turn = ++listing, { heads, odd, error } = await readKept();
  if (turn !== listing) return;
  const projects = projectsOf(heads), rows = [...(error ? [unreadable(error)] : []), ...(odd.length ? [oddRow(odd)] : []), ...projects.map(projectRow)];
  set("forget-all", { hidden: !heads.length });
  offerToContinue(projects, goOnWith);
  write("kept-number", `${rows.length || "none"}`);
  showOpen();
  set("kept-none", { hidden: rows.length + deleted.size > 0 });
  el("kept").hidden = !rows.length && !deleted.size && !app.work.generation;
  el("kept-list").replaceChildren(...[...[...deleted].map(deletedRow), ...rows].flat());
}

/** Shows what the list says of the project that is open. */
function showOpen() {
  const { work } = app;
  set("project-row", { hidden: !work.generation });
  if (document.activeElement !== el("project-name")) set("project-name", { value: work.name });
  set("pin-run", { hidden: !work.ran, ariaPressed: `${work.isPinned}` });
}

/** Gives the project that is open, with its branches, another name.
 * @param {{ target: HTMLInputElement }} event */
export async function renameOpen({ target }) {
  const name = plainName(target.value.trim()).slice(0, MOST_NAME), { work, latest } = app;
  if (!name || !latest) return showOpen();
  for (const one of [work, ...branches.list]) one.name = name;
  for (const { id, left } of branches.list) await (left ? void (left.head.name = name) : relabel(id, { name }));
  if (work.ran?.id === openSource()?.id) renameProject(name);
  showMode(latest);
  await keepRun();
}

/** Has the run that is open listed by itself, or with the others of its source. */
export async function pinOpen() {
  app.work.isPinned = !app.work.isPinned;
  showOpen();
  await keepRun();
}

/** Returns a project in the list: its last run, or its source if it has none, and below that its other runs.
 * @param {Project} project */
function projectRow(project) {
  const head = headOf(project), { runs, source } = project, [, ...others] = runs, parts = rowOf(head, nameOf(project), runs.length > 1 || source !== null, () => remove(project));
  if (!others.length) return parts;
  const more = made("details", "", "runs"), size = partsOf(project).reduce((sum, one) => sum + one.size, 0), place = made("div", "", "kept");
  more.append(made("summary", `${many(others.length, "older run")}, ${sizeText(size)} in all`), place);
  place.append(...others.flatMap((run) => rowOf(run, nameIn(run), true, () => remove({ ...project, source: null, runs: [run] }))));
  return [...parts, more];
}

/** Returns an item of the list: what it is, and its buttons.
 * @param {Head} head
 * @param {string} name
 * @param {boolean} isOneOfSeveral
 * @param {() => Promise<void>} removed */
function rowOf(head, name, isOneOfSeveral, removed) {
  const isHereOnly = [...items].some(({ id, isRefused }) => id === head.of && isRefused), text = textOf(head, isHereOnly), press = listButton("Delete", removed);
  if (isSource(head)) return [rowText("Source ", nameIn({ ...head, name: head.desk.file }), text), listButton("Open", () => goOnWith(head)), press];
  const what = rowText(head.pinned ? "Pinned: " : "", name, text);
  if (head.shades) what.prepend(smallPicture(head.shades));
  return [what, listButton("Resume", () => goOnWith(head)), ...(head.pinned || isOneOfSeveral ? [pinning(head)] : []), press];
}

/** Returns the button by which a run is listed by itself, or again with the others of its project.
 * @param {RunHead} head */
function pinning({ of: id, pinned = false }) {
  const press = listButton(pinned ? "Unpin" : "Pin", async () => {
    await withLocks([id], () => relabel(id, { pinned: !pinned }));
    await showKept();
  });
  press.title = pinned ? "List it with the other runs of its source" : "List this run by itself";
  return press;
}

/** Goes on with a recording or a source that is kept.
 * @param {Head} head */
export const goOnWith = (head) => (isSource(head) ? openKept(head.of) : resume(head.of));

/** @param {Deleted} item */
const deletedRow = (item) => [rowText("Deleted: ", item.name, item.text), listButton("Undo", () => bringBack(item))];

/** Returns the text of an item: a word before its name, and what it is.
 * @param {string} before
 * @param {string} name
 * @param {string} text */
function rowText(before, name, text) {
  const what = paragraph(before);
  what.append(named(name), text);
  return what;
}

/** Returns the row of what is of another shape: it is saved as one file, or deleted.
 * @param {IDBValidKey[]} keys */
function oddRow(keys) {
  const save = async () => download("kept.json", new Blob([jsonOf(await withStore("readonly", (store) => keys.map((key) => store.get(key))))]), "application/json");
  return [paragraph(`${many(keys.length, "record")} cannot be read: this page did not write ${keys.length > 1 ? "them" : "it"}.`), button("Save as a file", save), listButton("Delete", () => dropItems(keys).then(showKept))];
}

/** @param {Error} error */
function unreadable(error) {
  const deleteAll = async () => {
    if (!confirm("Delete everything this page has stored? That cannot be undone.")) return;
    await deleteStorage();
    for (const item of items) Object.assign(item, { head: null, isStored: false });
    await showKept();
  };
  return [paragraph(`What this browser keeps cannot be read: ${messageOf(error)}`), button("Delete all of it", deleteAll)];
}

// Resuming

/** Resumes what is kept, with its branches, the source that it was run from, its breakpoints, its watches, its notes and its cursor.
 * @param {string} id */
export const resume = (id) => oneAtATime(id, async () => {
  if (!mayLeave()) return;
  const work = new Work(""), { ran } = await resumed(work, id, async ({ family }) => (family === undefined ? NO_BRANCHES : familyOf(family, id)));
  try {
    if (ran) await resumeProgram(ran);
  } finally {
    await lookAgain(work);
  }
});

// Whether what was kept is played back up to where it was, in which the machine stops at no breakpoint; and the work whose count is looked at after that.
const playback = { isOn: false, waiting: /** @type {Work | null} */ (null) };

/** Shows what was looked at in the work that is open: the breakpoints, watches and notes at once, so that nothing is lost if the page ends before the machine is
 * where it was; the count, once `lookAgain` is called.
 * @param {Omit<DeskState, "source">} desk */
export function restore({ breaks, watches = [], notes, cursor }) {
  app.work.unshown.cursor = cursor;
  setBreaks(breaks);
  setWatches(watches);
  setPins(notes);
}

/** Looks at the count that was looked at in a work, once the machine is where it was.
 * @param {Work} work */
export async function lookAgain(work) {
  playback.waiting = work;
  if (!playback.isOn) await lookAtWaiting();
}

/** Looks at the count that waits. If the user has stopped the machine on its way, runs it on, or looks at another count, the cursor stays there. */
async function lookAtWaiting() {
  const { waiting } = playback, { latest, work } = app;
  playback.waiting = null;
  if (!waiting) return;
  const { cursor = null } = waiting.unshown;
  delete waiting.unshown.cursor;
  const isThere = waiting === work && !latest?.isReplay && !latest?.on && !isPast();
  if (isThere && cursor !== null && cursor < nowCount()) await moveCursor(cursor);
}

/** Plays back what was kept, up to a count.
 * @param {number} until */
async function playBack(until) {
  playback.isOn = true;
  await app.live.ask("setBreaks", { conditions: [] });
  await runTo(until);
}

/** A run has ended, which may have been what is played back. */
export async function endPlayback() {
  if (!playback.isOn) return;
  playback.isOn = false;
  sendBreaks();
  await lookAtWaiting();
}

/** Resumes an item. If another page has it open, this is a copy. `branchesOf` returns the branches beside it. Returns what was kept
 * beside the machine.
 * @param {Work} work
 * @param {string} id
 * @param {(head: RunHead) => Branches | Promise<Branches>} branchesOf
 * @returns {Promise<Kept>} */
export async function resumed(work, id, branchesOf) {
  const isBranch = branches.list.includes(work), opened = work.head ? null : work.opened;
  let isFree = true;
  try {
    const read = opened ? work.recordsOf(opened) : await readItem(id, async () => (isFree = await work.take(id)));
    const { head, body, isWritten } = { isWritten: false, ...read }, isOwn = isFree && isWritten, { family, number = 1, parent = 0, until: end, pinned: isPinned = false, desk } = head, { symbols, live, ran } = body;
    const others = await branchesOf(head), { generation, fork, program, ...answer } = await app.live.ask("resume", { kept: { ...body, family }, isKeptOn: isFree });
    Object.assign(work, { name: nameIn(head), generation, fork, program, family, number, parent, end, ran, isPinned, by: body.by, kept: "", base: null, left: null, opened: null, unshown: { symbols } });
    // Without its state a machine is at its last checkpoint, and what it sent later comes again.
    Object.assign(work, { sent: live ? body.sent : sentIn(body.recording), head: isOwn ? head : null, isStored: isOwn && end === body.count && Boolean(live), news: work.news + Number(isFree && !isWritten) });
    if (!isFree) work.id = newId(RUN);
    showOpened({ generation, fork, program, ...answer }, work, others);
    // What is looked at in a branch that one returns to is what was looked at in the one before; its program runs in a machine of another number.
    if (!isBranch) restore(desk); else attempt(() => (ran ? takeSources(ran.file, ran.sources) : findProgram()));
    attempt(() => resumeNames(symbols)).then(() => delete work.unshown.symbols);
    // It is what was worked on last from now on.
    if (isFree) keepRunSoon();
    if (app.latest?.isReplay) await playBack(end);
    if (!isFree) notice("This recording is open in another page: what you do here is kept as a copy.");
    return body;
  } catch (error) {
    if (!isBranch && !work.left) work.giveUp();
    throw error;
  }
}

// Deleting

/** Does something with items that no other page has open; else it is refused. What is asked for twice is done once.
 * @param {string[]} ids
 * @param {() => Promise<unknown>} task */
const withLocks = (ids, task) => oneAtATime(`locks of ${ids.join()}`, async () => {
  // What this page left and could not write has its lock still.
  const locks = await Promise.all(ids.filter((id) => ![...items].some((item) => item.id === id && item.release)).map(locked));
  try {
    if (locks.includes(null)) throw new Refusal("This project is open in another page, so it cannot be changed or deleted here.");
    await task();
  } finally {
    for (const release of locks) release?.();
  }
});

/** Deletes a project, or some of its parts.
 * @param {Project} project */
async function remove(project) {
  await withLocks(partsOf(project).map(({ of }) => of), () => deleteParts(project));
  await showKept();
}

/** Deletes all that is kept and not open here, which may be more than the list shows yet. Each can be brought back, as one that is deleted alone. */
export async function forgetAll() {
  let areLeft = false;
  for (const project of projectsOf((await readKept()).heads)) {
    const leave = (/** @type {unknown} */ error) => {
      if (!(error instanceof Refusal)) throw error;
      areLeft = true;
    };
    await withLocks(partsOf(project).map(({ of }) => of), () => deleteParts(project)).catch(leave);
  }
  await showKept();
  if (areLeft) notice("What is open in another page is not deleted.");
}

/** Deletes a project at once. What only this page has is deleted though the browser denies its storage.
 * @param {Project} project */
async function deleteParts(project) {
  const ids = partsOf(project).map(({ of }) => of), unwritten = [...items].filter(({ id, left }) => left && ids.includes(id)), text = textOf(headOf(project));
  for (const item of unwritten) items.delete(item);
  const records = await dropItems(ids).catch((error) => {
    if (!unwritten.length) throw error;
    return [];
  });
  if (records.length || unwritten.length) deleted.add({ records, unwritten, name: nameOf(project), text });
}

/** Brings back what was deleted.
 * @param {Deleted} item */
async function bringBack(item) {
  const { records, unwritten } = item;
  if (records.length) await withStore("readwrite", (store) => records.map((record) => store.put(record)));
  for (const one of unwritten) one.leave(one.left);
  deleted.delete(item);
  await showKept();
}

offer({ resumed });
