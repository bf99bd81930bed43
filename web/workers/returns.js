// @ts-check
/* Where a run of the live machine ends that goes on until a call is over: the library follows the calls on a copy of the machine, before that runs. */
import { CallLog } from "../engine/calllog.js";
import { COUNTER } from "../formats/conditions.js";
import { Emulator } from "../engine/emulator.js";
import { INPUT_BYTES } from "../formats/layout.js";

// The machine sends a byte with each instruction at most, and so many have room in one call of it: so it comes to where its calls were followed.
const MOST_STEPS = 1 << 20;

export class Return {
  /** @type {{ copy: Emulator, log: CallLog } | null} */
  static spare = null;

  /**
   * @param {Library} library
   * @param {Returning} wanted */
  constructor(library, wanted) {
    const { copy, log } = (Return.spare ??= { copy: new Emulator(library), log: new CallLog(library) });
    this.copy = copy;
    this.log = log;
    this.pc = "pc" in wanted ? wanted.pc : null;
    this.open = "pc" in wanted ? null : wanted.open;
    if ("calls" in wanted) log.put(wanted.calls);
  }

  /** Returns up to where the machine may run, a count at most, and whether the run is over there. At first it does one instruction by itself.
   * @param {import("../engine/machine.js").Machine} machine
   * @param {number} stop
   * @param {boolean} isFirst
   * @returns {{ to: number, isOver: boolean }} */
  next(machine, stop, isFirst) {
    const { count, next } = machine, to = isFirst ? count + 1 : Math.min(stop, count + MOST_STEPS);
    const inputs = machine.inputs.bytes.subarray(INPUT_BYTES * next, INPUT_BYTES * machine.inputs.from(to, next));
    return this.pc === null ? this.nextEnd(machine, inputs, to) : this.nextWord(machine, inputs, to, isFirst);
  }

  /**
   * @param {import("../engine/machine.js").Machine} machine
   * @param {Bytes} inputs
   * @param {number} to
   * @param {boolean} isFirst */
  nextWord({ library, address }, inputs, to, isFirst) {
    const from = this.pc ?? 0, hit = isFirst ? null : library.find(address, inputs, to, [{ kind: COUNTER, from, end: from + 1 }], false);
    return { to: hit?.at ?? to, isOver: hit !== null };
  }

  /**
   * @param {import("../engine/machine.js").Machine} machine
   * @param {Bytes} inputs
   * @param {number} to */
  nextEnd(machine, inputs, to) {
    const { copy, log } = this, { count } = machine;
    copy.put(copy.address, machine.at(machine.address));
    while (copy.count < to) {
      log.follow(copy.address, inputs, to);
      for (const turn of log.listed()) {
        if (this.open === null && turn.to >= 0) this.open = turn.stay + 1;
        else if (turn.stay < (this.open ?? 0)) return { to: turn.count + 1, isOver: true };
      }
      // The first instruction called nothing.
      this.open ??= Infinity;
      if (this.open === Infinity) return { to: count + 1, isOver: true };
    }
    return { to, isOver: false };
  }
}
