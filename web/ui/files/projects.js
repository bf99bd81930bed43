// @ts-check
/* Opens projects that were exported: the run at its last count or at the cursor, its source, names, breakpoints, watches, notes, and its branches. It is not kept in
 * this browser before something is done in it. */
import { app, branches, NO_BRANCHES } from "../../host/app.js";
import { lookAgain, restore } from "./savedlist.js";
import { toMachineAt } from "../code/differences.js";
import { offer } from "../../host/commands.js";
import { button, named, notice, paragraph } from "../../host/elements.js";
import { namesText, setSource } from "../../host/names.js";
import { mayLeave, openRecording, refusing, showOpened } from "./opening.js";
import { unpacked } from "../../host/packed.js";
import { projectOf, readExported } from "./projectfile.js";
import { Helper, Refusal } from "../../host/requests.js";
import { offerLesson } from "../source/lessons.js";
import { showCard } from "../screen/card.js";
import { showTab } from "../screen/tabs.js";
import { falseClaim, secondsOf } from "../../host/shown.js";
import { moveCursor } from "../timeline/cursormoves.js";
import { reachTo } from "../timeline/lanes.js";
import { grouped, plainName } from "../../formats/texts.js";
import { readRecording, sentIn } from "../../formats/recordings.js";
import { isSourceName, showSources, takeSources, tieSources } from "../source/source.js";
import { beginSource, nameProject } from "../source/sourceautosave.js";
import { last } from "../../formats/states.js";
import { openSymbols } from "../code/symbolfiles.js";
import { noteChecked } from "../timeline/timeline.js";
import { verdicts } from "../screen/verdicts.js";
import { Work } from "../../host/work.js";

const LATE_MS = 300, NONE = new Uint8Array();
/** @typedef {import("../../formats/project.js").Project} Project */
/** @typedef {import("../../formats/project.js").ProjectBranch} ProjectBranch */

/** Opens a page that was exported.
 * @param {Bytes} bytes */
export const openPage = async (bytes) => openProject(await readExported(bytes));

/** Opens the project in this page, if it is one that was exported. */
export async function openOwn() {
  if (!document.getElementById("g-project")) return;
  await refusing("in this page", async () => openProject({ recording: await unpacked("recording"), project: projectOf(await unpacked("project")) }));
}

/** Returns the line of one call of the proved check over a recording.
 * @param {string} name
 * @param {Bytes} bytes
 * @returns {Promise<Verdicted>} */
async function judged(name, bytes) {
  const late = setTimeout(() => notice(`Checking the recording of ${name} before it is opened ..`), LATE_MS), checker = new Helper(app.module, () => {});
  try {
    return await checker.ask("check", { bytes });
  } finally {
    clearTimeout(late);
    checker.end();
  }
}

/** Opens a project where it was left, if the proved check accepts its recording. One that is false opens at the cursor, or else at its first false checkpoint, with
 * what is false there.
 * @param {import("./projectfile.js").Exported} exported */
export async function openProject({ recording, project }) {
  const { name, cursor } = project, file = `${name}.orsr`, verdict = await judged(name, recording);
  if (verdict.status === 2) throw new Refusal(verdict.line);
  const { works, left } = await branchesOf(project);
  if (!(await (verdict.status ? openRecording(file, recording, verdict) : resumeRun(project, recording, works)))) return;
  if (!verdict.status) verdicts.file.take(file, verdict), noteChecked(Infinity, readRecording(recording).claims.map(({ count }) => count));
  await openParts(project);
  const wrong = falseClaim();
  if (wrong) showTab("state"), reachTo(wrong.count), await toMachineAt(cursor ?? wrong.count);
  showBeside(project);
  notice(left);
}

/** Shows what somebody wrote in a project, with what came beside its recording.
 * @param {Project} project */
function showBeside({ name, notes, sources }) {
  if (!notes.length && !falseClaim()) return;
  const lines = notes.map(([count, text]) => {
    const note = paragraph("", "note");
    note.append(button(`${grouped(count)} · ${secondsOf(count)}`, () => moveCursor(count)), " ", named(text));
    return note;
  });
  const names = namesText(), files = sources.map(([file]) => file).join(", ");
  const source = files ? [button(`Source: ${files}`, () => showTab("source"))] : [];
  if (lines.length + source.length) showCard(plainName(name), [...lines, ...source, ...(names ? [paragraph(`${names}, which are claims of whoever made it.`, "hint")] : [])]);
}

/** Opens the run of a project at its last count, with its branches beside it. Returns whether it is open.
 * @param {Project} project
 * @param {Bytes} recording
 * @param {Work[]} list */
async function resumeRun({ name, number }, recording, list) {
  if (!mayLeave()) return false;
  const opened = wholeOf(recording), answer = await app.live.ask("resume", { kept: opened, isOfFile: true }), work = new Work(name, { ...answer, sent: sentIn(recording) });
  const [{ family, parent } = work] = list, made = Math.max(number, ...list.map((one) => one.number));
  showOpened(answer, Object.assign(work, { number, family, parent, opened, end: opened.count }), list.length ? { list, made } : NO_BRANCHES);
  return true;
}

/** Returns a machine at the last checkpoint of a recording, as the browser keeps one. More inputs may have come after it, up to an end.
 * @param {Bytes} recording
 * @param {{ inputs?: Bytes, end?: number }} more */
function wholeOf(recording, { inputs, end = 0 } = {}) {
  const read = readRecording(recording), { count } = last(read.claims);
  return { recording, sentSince: NONE, live: null, count, inputs: inputs ?? read.inputs.bytes, waiting: { keys: NONE, serial: NONE, taken: { keys: 0, serial: 0 } }, marks: [], until: Math.max(count, end) };
}

/** Returns the branches of a project whose recordings the proved check accepts, and says which are left out.
 * @param {Project} project */
async function branchesOf({ name, branches: given }) {
  const family = Date.now();
  /** @type {ProjectBranch[][]} */
  const [accepted, refused] = [[], []];
  for (const branch of given) {
    const { status } = await judged(name, branch.recording);
    (status ? refused : accepted).push(branch);
  }
  const works = accepted.map((branch) => Object.assign(new Work(name), { family, number: branch.number, parent: branch.parent, end: branch.end, opened: wholeOf(branch.recording, branch) }));
  const left = refused.length ? `Left out, since the recording is not accepted: ${refused.map(({ number }) => `branch ${number}`).join(", ")}.` : "";
  return { works, left };
}

/** Opens what a project has beside its run. The lines of sources that the page does not assemble are shown in the listing.
 * @param {Project} project */
async function openParts(project) {
  const { name, sources, file, ran, symbols, lesson } = project, { work } = app, own = sources.filter(([one]) => isSourceName(one));
  restore(project);
  if (own.length) {
    await beginSource();
    nameProject(`${name}.asm`);
    showSources(own.map(([one, text]) => ({ name: one, text })), { file: isSourceName(file) ? file : own[0][0] });
    await takeSources(file, ran ?? own);
    for (const branch of branches.list) branch.ran = app.work.ran;
    if (lesson) offerLesson(lesson);
  }
  if (symbols) await openSymbols(symbols.from, symbols.bytes);
  for (const [one, text] of sources) if (!isSourceName(one)) setSource(one, text);
  await tieSources();
  await lookAgain(work);
}

offer({ openPage });
