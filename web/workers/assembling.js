// @ts-check
/* What the worker that assembles does: it makes a program of a source, judges it, and finds where two runs part. */
import { firstLine } from "../engine/aligning.js";
import { assembled } from "../assembler/assembly.js";
import { Emulator } from "../engine/emulator.js";
import { readSession } from "../formats/sessions.js";
import { judgedByModel, runTo } from "../engine/handins.js";
import { judged } from "../engine/judging.js";
import { matchedStatements } from "../assembler/matching.js";
import { partingOf } from "../engine/parting.js";
import { linesOfParts } from "../assembler/parts.js";
import { Refused } from "../formats/refused.js";
import { settingsOf } from "../assembler/settings.js";
import { library, machine } from "./context.js";
import { DISPLAY_AT, DISPLAY_BYTES, equal, last, MEMORY_BYTES } from "../formats/states.js";
import { Ended, nextTask, unlessEnded } from "../engine/tasks.js";
import { linesOf, writtenSession, writtenSymbols } from "../assembler/written.js";

// How many problems are posted at most.
const MOST_PROBLEMS = 1000, STEP_MS = 20, PARTING_SECONDS = 120, POST_MS = 500;
// The number of the newest request: it ends the ones before.
let newest = 0;

/** @typedef {import("../assembler/assembly.js").Problem} Problem */
/** @typedef {import("../assembler/assembly.js").Assembly} Assembly */

/** Returns the lines of what is assembled: of several sources, or of one.
 * @param {{ source: string, file?: string, parts?: [string, string][] }} given */
const linesGiven = ({ source, file = "", parts = [[file, source]] }) => linesOfParts(parts);

/** Returns problems in the order of their places, each once, with how many there are.
 * @param {Assembly} made */
function sorted({ problems, places }) {
  const order = (/** @type {Problem} */ one, /** @type {Problem} */ other) =>
    one.line - other.line || one.column - other.column || (one.text < other.text ? -1 : Number(one.text > other.text));
  const all = [...problems].sort(order).filter((one, at, them) => at === 0 || order(them[at - 1], one) !== 0);
  return { problems: all.slice(0, MOST_PROBLEMS).map((one) => placed(one, places)), number: all.length };
}

/** Returns a problem or a note with the file of its line, and its number there.
 * @template {{ line: number }} Item
 * @param {Item} item
 * @param {import("../assembler/parts.js").SourceLine[]} places */
const placed = (item, places) => ({ ...item, line: places[item.line - 1].line, file: places[item.line - 1].file });

/** Assembles a program. The session of its program has its inputs and no checkpoints: it is for a live machine.
 * @param {Requests["assemble"][0]} given
 * @returns {Assembled} */
function assemble(given) {
  const made = assembled(linesGiven(given)), settings = settingsOf(made);
  if (made.problems.length) return { ...sorted(made), program: null };
  const filled = made.filledRegions().reduce((bytes, { start, end }) => bytes + end - start, 0), { session } = settings;
  const program = {
    memory: made.memory, session: writtenSession(session, made.memory), words: Math.ceil(filled / 4),
    symbols: writtenSymbols(made), lines: linesOf(made), inputs: session.inputs.length,
  };
  return { problems: [], number: 0, program };
}

/** Returns what is awaited between the pieces of something long: it lets others go first, and ends it after some seconds, unless it is not limited, or if something
 * newer is asked for.
 * @param {number} seconds */
function turnsOf(seconds) {
  const own = ++newest, begun = performance.now();
  let waited = begun;
  return async (isLimited = true) => {
    if (isLimited && performance.now() - begun > 1000 * seconds) throw new Refused(`no answer in ${seconds} s`);
    if (performance.now() - waited > STEP_MS) await nextTask(), (waited = performance.now());
    if (own !== newest) throw new Ended();
  };
}

// The machine of the second of two runs.
/** @type {Emulator | null} */
let second = null;

/** Finds where two sessions part, which have the same inputs; and, if both have a program, the first line that both sources have which does something else in the one
 * than in the other, until `isLate` says that this takes too long.
 * @param {Session[]} sessions
 * @param {(Assembly | null)[]} programs
 * @param {number} to
 * @param {(isLimited?: boolean) => Promise<void>} turn
 * @param {(upTo: [number, number]) => boolean} isLate
 * @returns {Promise<Parting>} */
async function partingBy([one, other], [before, now], to, turn, isLate) {
  second ??= new Emulator(machine.library);
  const { at, upTo, both } = await partingOf([machine, second], one, other, to, turn);
  if (at === null || !before || !now) return { at, upTo, lines: null };
  const given = { inputs: one.inputs, to, matched: matchedStatements(before, now), ends: /** @type {[number, number]} */ ([before.memory.length, now.memory.length]), isLate };
  const found = await firstLine([machine, second], both, given, () => turn(false));
  /** @type {(line: number, of: Assembly) => LinePlace | null} */
  const placeOf = (line, { places }) => (line ? { file: places[line - 1].file, line: places[line - 1].line } : null);
  const line = found.first && { ...found.first, place: placeOf(found.first.line, now), goes: found.first.goes.map((to, which) => placeOf(to, which ? now : before)) };
  return { at, upTo, lines: { ...found, first: line } };
}

/** Finds where the runs of two sources part, each as its session has it. Their lines are compared for some seconds at most.
 * @param {Requests["parting"][0]} given */
function parting({ one, other, to, sources, seconds }) {
  const sessions = [one, other].map((session) => readSession(new TextEncoder().encode(session))), programs = sources.map((parts) => assembled(linesOfParts(parts)));
  let end = 0;
  return partingBy(sessions, programs, to, turnsOf(PARTING_SECONDS), () => performance.now() > (end ||= performance.now() + 1000 * seconds));
}

/** Judges a program by what a lesson wants: the verdict line of a recording that claims it, what differs, and after which line of the source.
 * @param {Requests["judge"][0]} given
 * @returns {Promise<Requests["judge"][1]>} */
async function judge({ claim, seconds, ...given }) {
  const made = assembled(linesGiven(given)), { session } = settingsOf(made);
  if (made.problems.length) return { line: null, number: sorted(made).number, differing: [], after: null };
  const text = writtenSession(session, made.memory), { line, differing, pc } = await judged(machine, readSession(new TextEncoder().encode(text)), claim, turnsOf(seconds));
  return { line, number: 0, differing, after: linesOf(made).find(([address]) => address === 4 * pc)?.[1] ?? null };
}

/** Judges what was handed in by the run of a model: what is seen of it at the model's checkpoints.
 * @param {Requests["handIn"][0]} given */
const handIn = ({ model, own, seconds }) => judgedByModel(machine, machine.firstOf(own), machine.lawful(model), turnsOf(seconds));

/** Finds where what was handed in parts from a model: by the lines of their sources, if both recordings begin with the programs of these; else at a count, with the line
 * of the instruction before that. Up to which count both are the same so far is posted by time.
 * @param {Requests["handInParting"][0]} given
 * @returns {Promise<Requests["handInParting"][1]>} */
async function handInParting({ model, own, sources, seconds }) {
  const turn = turnsOf(seconds), end = performance.now() + 1000 * seconds, { inputs, claims } = machine.lawful(model), to = last(claims).count;
  const sessions = [model, own].map((bytes) => ({ ...machine.firstOf(bytes), inputs, checkpoints: [] })), programs = sources.map((parts, at) => programOf(parts, sessions[at]));
  let posted = performance.now();
  const isLate = (/** @type {number} */ sameUpTo) => {
    const now = performance.now();
    if (now - posted > POST_MS) postMessage({ sameUpTo }), (posted = now);
    return now > end;
  };
  const heard = (isLimited = true) => (isLimited && isLate(machine.count), turn(isLimited));
  const { at, lines } = await partingBy(sessions, programs, to, heard, ([, sameUpTo]) => isLate(sameUpTo)), [, program] = programs;
  if (lines || !at || !program) return { at, lines, where: null };
  machine.put(machine.address, sessions[1]);
  await runTo(machine, inputs, at - 1, turn);
  const pc = 4 * machine.part("PC"), place = linesOf(program).find(([address]) => address === pc);
  return { at, lines, where: place ? { file: place[2], line: place[1] } : null };
}

/** Returns the program of sources, if a memory is that; else null.
 * @param {[string, string][]} parts
 * @param {Memory} memory */
function programOf(parts, { words }) {
  const made = parts.length ? assembled(linesOfParts(parts)) : null, whole = new Uint8Array(MEMORY_BYTES);
  if (!made || made.problems.length) return null;
  whole.set(made.memory);
  return equal(whole, words) ? made : null;
}

/** Returns the screen that the last checkpoint of a recording claims, and the verdict of one call over all of it.
 * @param {{ bytes: Bytes }} given */
function seen({ bytes }) {
  const { words } = machine.claimOf(bytes, machine.lawful(bytes).claims.length - 1);
  return { dots: words.slice(DISPLAY_AT, DISPLAY_AT + DISPLAY_BYTES), ...library.check(bytes) };
}

export const ASSEMBLER = {
  assemble,
  parting: (/** @type {Requests["parting"][0]} */ given) => parting(given).catch(unlessEnded(null)),
  seen,
  handIn: (/** @type {Requests["handIn"][0]} */ given) => handIn(given).catch(unlessEnded(null)),
  handInParting: (/** @type {Requests["handInParting"][0]} */ given) => handInParting(given).catch(unlessEnded(null)),
  judge: (/** @type {Requests["judge"][0]} */ given) => judge(given).catch(unlessEnded(null)),
};
