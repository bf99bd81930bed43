// @ts-check
/* Judges what a lesson wants by the proved check: a recording of the program claims it in a checkpoint, and its verdict line says whether the program
 * did it. */
import { copied, Pace } from "./emulator.js";
import { INPUT_BYTES } from "../formats/layout.js";
import { Refused } from "../formats/refused.js";
import { AT, field, hex, joined, partsOf, sentText, STATE_BYTES } from "../formats/states.js";

const CALL_MS = 10, FIRST_CALL = 200000;

/** Returns the verdict line of a recording of a session up to a count, whose checkpoint there claims what is wanted, and else what the machine has; with
 * what differs, as it was found and as it is wanted, and PC at the last instruction before that count.
 * @param {import("./emulator.js").Emulator} machine
 * @param {Session} session
 * @param {Wanted} claim
 * @param {() => Promise<void>} turn
 * @returns {Promise<Verdicted & { differing: [string, string, string][], pc: number }>} */
export async function judged(machine, { state, words, inputs }, { at, sent: text, memory = {}, ...parts }, turn) {
  const { library, address } = machine, pace = new Pace(CALL_MS, FIRST_CALL), sent = [];
  machine.put(address, { state, words });
  const begun = library.begin(address);
  let pc = machine.part("PC");
  while (machine.count < at) {
    const { count } = machine, ms = performance.now();
    // The last instruction is done by itself, so that it is known which it was.
    sent.push(machine.run(inputs, inputs.from(count), Math.max(count + 1, Math.min(at - 1, count + pace.steps))));
    pace.took(machine.count - count, performance.now() - ms);
    if (machine.count === at - 1) pc = machine.part("PC");
    await turn();
  }
  const found = copied(machine.at(address)), claimed = copied(machine.at(address)), view = new DataView(claimed.state.buffer), store = new DataView(claimed.words.buffer);
  for (const [name, value] of Object.entries(parts)) view.setUint32(offsetOf(name), value, true);
  for (const [place, value] of Object.entries(memory)) store.setUint32(Number(place), value, true);
  const held = library.hold(new Uint8Array(STATE_BYTES + claimed.words.length));
  try {
    library.bytes(held, STATE_BYTES).set(claimed.state);
    library.bytes(held + STATE_BYTES, claimed.words.length).set(claimed.words);
    const output = text === undefined ? joined(sent) : new TextEncoder().encode(text), differing = differences(found, claimed, { parts: Object.keys(parts), words: Object.keys(memory).map(Number) });
    const verdict = library.check(library.extend(begun, inputs.bytes.slice(0, INPUT_BYTES * inputs.from(at)), held, output)), was = sentText(joined(sent));
    return { ...verdict, differing: [...differing, ...(text === undefined || was === text ? [] : [triple("sent", `"${was}"`, `"${text}"`)])], pc };
  } finally {
    library.leave(held);
  }
}

/** @type {(name: string, found: string, wanted: string) => [string, string, string]} */
const triple = (name, found, wanted) => [name, found, wanted];

/** Returns the parts and the words of memory in which a machine differs from what is claimed, as it was found and as it is wanted.
 * @param {Memory} found
 * @param {Memory} claimed
 * @param {{ parts: string[], words: number[] }} asked
 * @returns {[string, string, string][]} */
function differences(found, claimed, { parts, words }) {
  const [before, after] = [found, claimed].map(({ state }) => new Map(partsOf(state))), [had, wants] = [found, claimed].map((one) => one.words);
  const named = parts.map((name) => triple(name, before.get(name) ?? "", after.get(name) ?? ""));
  const stored = words.map((at) => triple(`memory at ${hex(at, 4)}`, hex(field(had, at), 8), hex(field(wants, at), 8)));
  return [...named, ...stored].filter(([, was, wanted]) => was !== wanted);
}

/** Returns where a part of a state is, by its name.
 * @param {string} name */
function offsetOf(name) {
  const register = /^R(\d+)$/.exec(name);
  if (register) return AT.R + 4 * Number(register[1]);
  if (!Object.hasOwn(AT, name)) throw new Refused(`${name} is no part of a state`);
  return AT[/** @type {keyof typeof AT} */ (name)];
}
