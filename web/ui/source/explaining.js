// @ts-check
/* Explains a stop where it happened: which address, divisor or instruction was wrong, and which line set the register that it came from. */
import { app } from "../../host/app.js";
import { moveCursor } from "../timeline/cursormoves.js";
import { lineOfWord, sourceEditor } from "./desk.js";
import { button, el, paragraph } from "../../host/elements.js";
import { instruction } from "../../formats/instructions.js";
import { COUNTER } from "../../formats/conditions.js";
import { runningProgram } from "./sourceprogram.js";
import { AT, field, hex, last } from "../../formats/states.js";

const FLOAT = 1, DIVISOR = 2, ADDRESS = 4, NO_REGISTER = -1;

/** Forgets what was explained. */
export const forgetExplained = () => el("source-stop").replaceChildren();

/** Explains the stop at an instruction.
 * @param {Written} found
 * @param {number} stop */
export async function explainStop({ at = 0, pc = 0, word, state }, stop) {
  if (!state) return;
  const { fork } = app.work, [text, register] = whyStopped(stop, word, state), line = paragraph("", "false");
  line.append(`${text}, `, instructionButton(at, pc));
  el("source-stop").replaceChildren(line);
  const found = register === NO_REGISTER ? await cameFrom(at) : await app.past.lastWriter({ register, before: at, request: app.past.numbered() });
  if (app.work.fork !== fork || !found || found.stopped) return;
  const setter = found.stored ?? found;
  if (setter.at === undefined) line.append(`; R${register} was never written since the start`);
  else line.append(register !== NO_REGISTER ? `; R${register} was set by ` : found.sure === false ? "; it left the program after " : "; it came from ", instructionButton(setter.at, setter.pc ?? 0));
  line.append(".");
}

/** Returns the instruction before one; if that is no longer of the program, the last one of the program, which is not `sure`.
 * @param {number} at
 * @returns {Promise<Written | null>} */
async function cameFrom(at) {
  const words = [...(runningProgram()?.parts.values() ?? [])].flatMap(({ lines }) => [...lines.keys()]).sort((one, other) => one - other), end = words.length ? last(words) + 1 : 0;
  const [row] = at ? (await app.past.around(at, 1, 0)) ?? [] : [], isOut = row !== undefined && (row.pc >= end || row.pc < words[0]);
  if (!row || !end || !isOut) return row ? { at: row.count, pc: row.pc } : null;
  const hit = await app.past.find({ to: at, last: true, conditions: [{ kind: COUNTER, from: words[0], end, value: 0 }], request: app.past.numbered() });
  return hit?.at === undefined ? { at: row.count, pc: row.pc } : { at: hit.at, pc: (await app.past.around(hit.at, 0, 1))?.[0]?.pc, sure: false };
}

/** Returns why the machine stopped, and the number of the register that led to it.
 * @param {number} stop
 * @param {number | undefined} word
 * @param {Bytes} state
 * @returns {[string, number]} */
function whyStopped(stop, word, state) {
  /** @param {number} register */
  const value = (register) => field(state, AT.R + 4 * register);
  if (word === undefined) return [`fetch: PC = ${hex(4 * field(state, AT.PC), 6)} is outside memory`, NO_REGISTER];
  const b = word >>> 20 & 15, c = word & 15, offset = word << 12 >> 12, sign = offset < 0 ? "-" : "+";
  if (stop === ADDRESS) return [`address: R${b} ${sign} ${Math.abs(offset)} = ${hex((value(b) + offset) >>> 0 & 0xffffff, 8)} is neither memory nor a device`, b];
  if (stop === DIVISOR && word >>> 30 & 1) return ["divisor: the number that it divides by is below 1", NO_REGISTER];
  if (stop === DIVISOR) return [`divisor: R${c} = ${hex(value(c), 8)} is below 1`, c];
  return [stop === FLOAT ? `float: there is no ${instruction(word, 0)[0].slice(0, 3)} in this machine` : "stopped", NO_REGISTER];
}

/** A button that goes to an instruction, by its line if that is known.
 * @param {number} at
 * @param {number} pc */
function instructionButton(at, pc) {
  const line = lineOfWord(pc);
  return button(line === null ? `PC ${pc}` : `line ${line + 1}`, async () => {
    await moveCursor(at);
    if (line !== null) sourceEditor().goTo(line);
  });
}
