// @ts-check
/* Opens recordings, sessions, memory images and examples in place of what is open, whose recording is kept. */
import { LONGEST_RECORDING } from "../../formats/limits.js";
import { app, branches, nameFile, NO_BRANCHES, setBranches, setFile, setImage } from "../../host/app.js";
import { beginShowing } from "./beginning.js";
import { showBranches } from "../timeline/branches.js";
import { forgetBreaks } from "../code/breakpoints.js";
import { closeCard } from "../screen/card.js";
import { showFalse } from "../code/differences.js";
import { showClaim, showOf } from "../code/statetab.js";
import { commands, offer } from "../../host/commands.js";
import { forgetCounts } from "../code/counts.js";
import { LONGEST_SOURCE } from "../source/desk.js";
import { attempt, closeMenus, el, named, notice, set } from "../../host/elements.js";
import { isSnake } from "../screen/game.js";
import { setPins } from "../../host/pins.js";
import { names } from "../../host/names.js";
import { isPage } from "./projectfile.js";
import { examples } from "../../host/packed.js";
import { clearRefusal, showRefusal } from "../screen/refusal.js";
import { Refusal } from "../../host/requests.js";
import { setRun } from "../timeline/running.js";
import { endPreview, preview } from "../screen/screen.js";
import { falseClaim, isPast, nowCount } from "../../host/shown.js";
import { beginGame } from "../screen/snake.js";
import { isSourceName, showSources, tieSources } from "../source/source.js";
import { beginSource } from "../source/sourceautosave.js";
import { MEMORY_BYTES } from "../../formats/states.js";
import { dropNames, editedText, isSource, isSymbols, openSource, openSymbols } from "../code/symbolfiles.js";
import { grouped, plainName } from "../../formats/texts.js";
import { drawLanes } from "../timeline/drawing.js";
import { showSent } from "../screen/status.js";
import { leaveVerdicts, verdicts } from "../screen/verdicts.js";
import { isNoteUnsafe, openWork, Work } from "../../host/work.js";

const LONGEST_READ = LONGEST_RECORDING + 1, LONGEST_FILE = 67108865;
// What a text is called that may be a source.
const IS_TEXT = /\.(?:asm|s|inc|mod|txt|c|h|oberon)$/i;
// Files of other programs, by how they begin.
/** @type {[string, string][]} */
const OTHERS = [["PK\x03\x04", "a ZIP archive"], ["\x89PNG", "a PNG picture"], ["%PDF", "a PDF document"], ["\xff\xd8\xff", "a JPEG picture"], ["GIF8", "a GIF picture"], ["\x1f\x8b", "packed by gzip"]];
// How often something was chosen to be opened.
let chosen = 0;

/** Opens the files that were chosen, if any. The choice is cleared at once: the browser reports no choice of the file that is chosen
 * already, and a user may choose a file again while it is still being checked.
 * @param {HTMLInputElement} chooser */
export async function openChosen(chooser) {
  const files = [...(chooser.files ?? [])];
  chooser.value = "";
  await openFiles(files);
}

/** Opens files that came together: a machine first, then the names for it, then the sources of these. Of several machines the first one is opened.
 * @param {File[]} files */
export async function openFiles(files) {
  const number = ++chosen, all = await Promise.all(files.map(readFile));
  // What was chosen later counts, also if it was read sooner.
  if (number !== chosen) return;
  clearRefusal();
  const pages = all.filter(({ name, bytes }) => isPage(name, bytes)), read = all.filter((file) => !pages.includes(file));
  if (pages.length > 1) await commands.showBoard(pages);
  else if (pages.length) await refusing(pages[0].name, () => commands.openPage(pages[0].bytes));
  const symbols = read.filter(({ name, bytes }) => isSymbols(name, bytes)), others = read.filter((file) => !symbols.includes(file));
  const sources = others.filter(({ name }) => isSourceName(name) || isSource(name) || (symbols.length && others.length > 1 && IS_TEXT.test(name))), machines = others.filter((file) => !sources.includes(file));
  for (const file of [...machines.slice(0, 1), ...symbols.slice(0, 1)]) await openBytes(file.name, file.bytes);
  await openSources(sources);
  await attempt(tieSources);
  const [first] = machines.length > 1 ? machines : symbols;
  if (machines.length > 1 || symbols.length > 1) notice(`Opened the first of ${files.length} files: ${first.name}.`);
}

/** @param {File} file */
async function readFile(file) {
  const name = plainName(file.name), most = /\.orsr$/i.test(name) ? LONGEST_READ : LONGEST_FILE;
  return { name, bytes: new Uint8Array(await file.slice(0, most).arrayBuffer()) };
}

/** Opens a file: a recording or a session by its name or its first bytes, or names; anything else is a memory image.
 * If it is refused, what is open stays.
 * @param {string} name
 * @param {Bytes} bytes */
function openBytes(name, bytes) {
  return refusing(name, async () => {
    if (isSymbols(name, bytes)) return await openSymbols(name, bytes);
    const first = String.fromCharCode(...bytes.subarray(0, 64)).trimStart();
    if (/\.orsr$/i.test(name) || first.startsWith("ORSR")) await openRecording(name, bytes);
    else if (/\.json$/i.test(name) || first.startsWith("{")) await openSession(name, bytes);
    else offerImage(name, bytes, first);
  });
}

/** Does what opens a file. If it is refused, the page says so, and what is open stays.
 * @param {string} name
 * @param {() => Promise<void>} open */
export async function refusing(name, open) {
  try {
    await open();
  } catch (error) {
    if (!(error instanceof Refusal)) throw error;
    showRefusal(name, error.message);
  }
}

/** Opens sources that came together: those that the page assembles as one program in their tab, unless the names say that some of its sources are not
 * there; the lines of others in the listing.
 * @param {{ name: string, bytes: Bytes }[]} files */
export async function openSources(files) {
  const own = files.filter(({ name }) => isSourceName(name)), { files: known } = names.symbols, isPart = own.some(({ name }) => known.has(name)) &&
    [...known].some((file) => isSourceName(file) && !own.some(({ name }) => name === file));
  for (const { name, bytes } of files) if (isPart || !own.some((file) => file.name === name)) await refusing(name, async () => openSource(name, bytes));
  if (own.length && !isPart) await refusing(own[0].name, () => openAssembly(own));
}

/** Opens the sources of a program in their tab. What was there stays among what is kept.
 * @param {{ name: string, bytes: Bytes }[]} files */
export async function openAssembly(files) {
  if (files.some(({ bytes }) => bytes.length > LONGEST_SOURCE)) throw new Refusal(`a source has at most ${grouped(LONGEST_SOURCE)} bytes`);
  const sources = files.map(({ name, bytes }) => ({ name, text: textOf(bytes) }));
  await beginSource();
  showSources(sources);
  for (const { name, bytes } of files) if (editedText(name, bytes)) notice(`${name} is open.${editedText(name, bytes)}`);
}

/** Returns the text of a source.
 * @param {Bytes} bytes */
function textOf(bytes) {
  try {
    return new TextDecoder("utf-8", { fatal: true }).decode(bytes);
  } catch {
    throw new Refusal("not a text in UTF-8");
  }
}

/** Opens something in place of what is open, after the browser has kept that; or leaves it open, if the user says so.
 * @template {"openRecording" | "openSession" | "openImage"} Name
 * @param {string} name
 * @param {Name} ask
 * @param {Requests[Name][0]} given */
export async function replaced(name, ask, given) {
  if (!mayLeave()) return null;
  const answer = /** @type {Opened} */ (await app.live.ask(ask, given));
  showOpened(answer, new Work(nameOf(name), answer));
  return answer;
}

/** @param {string} name */
const nameOf = (name) => name.replace(/\.[^.]*$/, "") || "live";

/** Whether what is open may be left: it is kept, but for notes in a replay that is not over, of which the user decides. */
export const mayLeave = () => !isNoteUnsafe() || confirm(`The replay of ${app.work.name} is not over, so your notes in it are not kept. Discard them and open another machine?`);

/** Opens a recording at its beginning, and checks it unless that was done. Returns whether it is open.
 * @param {string} name
 * @param {Bytes} bytes
 * @param {Verdicted | null} verdict */
export async function openRecording(name, bytes, verdict = null) {
  if (!(await replaced(name, "openRecording", { bytes, checkpoint: 0 }))) return false;
  nameFile(name, bytes);
  await attempt(previewLast);
  await attempt(() => checkFile(verdict));
  return true;
}

/**
 * @param {string} name
 * @param {Bytes} bytes
 */
async function openSession(name, bytes) {
  await replaced(name, "openSession", { bytes });
}

/** Shows the screen that the last checkpoint of the file claims, with a button that plays it. */
async function previewLast() {
  const { file, work: { generation } } = app, shown = file && (await app.live.ask("claimed", { number: file.checkpoints, of: generation }));
  if (shown && generation === app.work.generation && isAtStart()) preview(shown.dots);
}

/** Whether the file that was opened was not run yet, and now is looked at. */
const isAtStart = () => Boolean(app.latest && !app.latest.on && !nowCount() && !isPast());

/** Checks the open file, unless its verdict is known, and shows the checkpoint that its line is about.
 * @param {Verdicted | null} verdict */
async function checkFile(verdict) {
  const { file } = app;
  set("show-false", { hidden: true });
  await showClaim(0);
  if (!file || file !== app.file) return;
  const answer = verdict ? verdicts.file.take(file.name, verdict) : await verdicts.file.check(file.name, file.bytes);
  if (answer) await showVerdict(file, answer);
}

/** Shows what the verdict of a file says about its checkpoints, if it is open.
 * @param {OpenFile} file
 * @param {Judged} answer */
export async function showVerdict(file, answer) {
  file.verdict = answer;
  if (file !== app.file) return;
  set("show-false", { hidden: !answer.wrong });
  showOf(file);
  attempt(showFalse);
  drawLanes();
  const { wrong, accepted } = answer;
  if (wrong || accepted) await showClaim(wrong?.number ?? accepted?.checkpoints ?? 0);
}

/** @param {string} name @param {Bytes} bytes @param {string} first how the file begins */
function offerImage(name, bytes, first) {
  const [, other] = OTHERS.find(([begin]) => first.startsWith(begin)) ?? [];
  if (!bytes.length) throw new Refusal("an empty file has nothing to open");
  if (other) throw new Refusal(`it is ${other}, and not a recording, a session or an image of memory`);
  if (bytes.length > MEMORY_BYTES)
    throw new Refusal(`${grouped(bytes.length)} bytes are not a recording, not a session and not an image of memory`);
  setImage({ name, bytes });
  el("image-name").replaceChildren(named(name), `, ${grouped(bytes.length)} bytes,`);
  el("image").hidden = false;
  el("image-address").focus();
}

/** @param {Event} event */
export async function openImage(event) {
  event.preventDefault();
  clearRefusal();
  if (!app.image) return;
  const { name, bytes } = app.image;
  await replaced(name, "openImage", { image: bytes, address: el("image-address").value, registers: el("image-registers").value });
}

export function cancelImage() {
  setImage(null);
  el("image").hidden = true;
  el("file").focus();
}

/** Opens an example, of which some members may be changed, and runs it.
 * @param {string} name
 * @param {{}} changes */
export async function openExample(name, changes = {}) {
  clearRefusal();
  chosen++;
  const bytes = new TextEncoder().encode(JSON.stringify({ ...examples()[name], ...changes }));
  if (await replaced(`${name}.json`, "openSession", { bytes })) await setRun(true);
}

/** Whether the names that came while another machine was open are of this one: the symbol file has its name.
 * @param {Work} work
 * @param {Work} before */
const isNamedFor = (work, before) => work.name !== before.name && !isSourceName(names.from) && nameOf(names.from) === work.name;

/** Puts a work in place of the one before, which is kept; so is a branch that is beside it from then on. The others are given free.
 * @param {Work} work
 * @param {Opened} opened
 * @param {Branches} others */
function replaceWork(work, { left, begun }, others = NO_BRANCHES) {
  const before = app.work, dropped = branches.list.filter((one) => one !== work && !others.list.includes(one));
  openWork(work);
  setBranches(others);
  for (const branch of dropped) branch.drop();
  Object.assign(before, { end: left?.count ?? before.end }).leave(before.recordsLeft(left), others.list.includes(before));
  attempt(() => work.follow(begun));
  return before;
}

/** Shows a machine that was opened in place of the one before, whose recording is kept.
 * @param {Opened} opened
 * @param {Work} work
 * @param {Branches} [others] */
export function showOpened(opened, work, others) {
  const before = replaceWork(work, opened, others), { claims, version, inputs, checkpoints } = opened;
  setFile(claims ? { name: "", bytes: new Uint8Array(), claims, version, inputs, checkpoints, verdict: null } : null);
  setImage(null);
  if (work.name !== before.name) forgetBreaks();
  if (work.family === undefined || work.family !== before.family) setPins();
  if (before.generation && work.program !== before.program && !isNamedFor(work, before)) dropNames();
  forgetCounts();
  set("follow", { checked: true });
  beginShowing();
  showBranches();
  closeCard();
  verdicts.file.clear();
  verdicts.own.clear();
  set("show-false", { hidden: true });
  clearRefusal();
  for (const name of ["claim", "passed"]) el(name).textContent = "";
  endPreview();
  showSent(work.sent);
  el("image").hidden = true;
  closeMenus();
  el("claims").hidden = !claims;
  el("pad").hidden = !isSnake();
  beginGame();
  for (const name of ["run", "step", "line-over", "line-out", "save-recording", "save-screen", "find-before", "find-next", "writer-leds"]) set(name, { disabled: false });
  if (claims) el("claim-number").max = `${checkpoints}`;
  else el("screen").focus({ preventScroll: true });
}

/** Goes on from what a checkpoint of the file claims, with a recording that begins with the file's up to there.
 * @param {number} number */
export async function runOnFrom(number) {
  const { file } = app, wrong = falseClaim()?.number ?? Infinity;
  if (!file || !mayLeave()) return;
  const answer = await app.live.ask("openRecording", { bytes: file.bytes, checkpoint: number });
  replaceWork(new Work(nameOf(file.name), answer), answer);
  showBranches();
  leaveVerdicts(file.claims[number]);
  showSent("");
  el("passed").textContent = "";
  beginShowing();
  notice(number >= wrong ? `Checkpoint ${wrong} is false, and a recording that you save from here contains it.` : "");
  el("screen").scrollIntoView({ block: "nearest" });
  el("screen").focus({ preventScroll: true });
}

offer({ openExample, replaced });
