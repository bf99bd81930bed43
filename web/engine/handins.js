// @ts-check
/* Judges a program that was handed in by the run of a model: a recording of the program, with the model's inputs, claims at the model's checkpoints what is seen of
 * the model there, and the proved check judges it. */
import { Claims } from "./claims.js";
import { Pace } from "./emulator.js";
import { INPUT_BYTES } from "../formats/layout.js";
import { AT, DISPLAY_AT, DISPLAY_BYTES, field, joined } from "../formats/states.js";

// The library reads and writes all that it extends, so not every checkpoint of a long model is claimed.
const MOST_CLAIMS = 32, CALL_MS = 10, FIRST_CALL = 200000;

/** Returns the numbers of the checkpoints that are claimed, at equal distances, with the last one.
 * @param {number} number */
function chosen(number) {
  const size = Math.min(MOST_CLAIMS, number);
  return Array.from({ length: size }, (_, at) => Math.round(((at + 1) * number) / size));
}

/** Returns the verdict on a recording of a program that claims, at checkpoints of a model, the screen, the LEDs and the sent bytes of the model, and else what the
 * program has; with the counts of these checkpoints.
 * @param {import("./machine.js").Machine} machine
 * @param {Memory} program
 * @param {Recording} model
 * @param {() => Promise<void>} turn
 * @returns {Promise<Verdicted & { counts: number[] }>} */
export async function judgedByModel(machine, program, model, turn) {
  const { library, address, other } = machine, { inputs, claims } = model, held = new Claims(library, model), counts = [];
  machine.put(address, program);
  let made = library.begin(address), before = 0, taken = 0;
  for (const number of chosen(claims.length - 1)) {
    const { count } = claims[number], next = inputs.from(count);
    await runTo(machine, inputs, count, turn);
    held.load(number, other);
    showAs(machine.at(address), machine.at(other));
    made = library.extend(made, inputs.bytes.slice(INPUT_BYTES * taken, INPUT_BYTES * next), other, joined(claims.slice(before + 1, number + 1).map(({ sent }) => sent)));
    [before, taken] = [number, next];
    counts.push(count);
  }
  return { ...library.check(made), counts };
}

/** Runs a machine up to a count.
 * @param {import("./emulator.js").Emulator} machine
 * @param {Inputs} inputs
 * @param {number} to
 * @param {() => Promise<void>} turn */
export async function runTo(machine, inputs, to, turn) {
  const pace = new Pace(CALL_MS, FIRST_CALL);
  while (machine.count < to) {
    const { count } = machine, begun = performance.now();
    machine.run(inputs, inputs.from(count), Math.min(to, count + pace.steps));
    pace.took(machine.count - count, performance.now() - begun);
    await turn();
  }
}

/** Gives a claim of a model all that a program has, but for what is seen: the screen and the LEDs.
 * @param {Memory} own
 * @param {Memory} claimed */
function showAs(own, claimed) {
  const dots = claimed.words.slice(DISPLAY_AT, DISPLAY_AT + DISPLAY_BYTES), lit = field(claimed.state, AT.LEDs);
  claimed.state.set(own.state);
  claimed.words.set(own.words);
  claimed.words.set(dots, DISPLAY_AT);
  new DataView(claimed.state.buffer, claimed.state.byteOffset).setUint32(AT.LEDs, lit, true);
}
