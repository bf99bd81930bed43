// @ts-check
/* The worker that checks recordings, so that a long check can be cancelled without touching the live machine. */
import { library, machine } from "./context.js";
import { LONGEST_RECORDING } from "../formats/limits.js";
import { unlessRefused } from "../formats/refused.js";
import { Checker } from "../engine/slices.js";
import { last } from "../formats/states.js";

// A recording of up to one second of the machine's time is checked by one call.
const WHOLE_STEPS = 25000000;

export const CHECKING = {
  /** Returns the line of one call over the whole. For a long recording it first posts its progress slice by slice, and their
   * joined line.
   * @param {Requests["check"][0]} given */
  check({ bytes, whole = WHOLE_STEPS, size }) {
    const recording = bytes.length <= LONGEST_RECORDING ? unlessRefused(() => machine.lawful(bytes)) : null;
    if (recording && last(recording.claims).count > whole) unlessRefused(() => checkSlices(recording, size));
    return library.check(bytes);
  },
};

/**
 * @param {Recording} recording
 * @param {number} [size]
 */
function checkSlices(recording, size) {
  const { claims } = recording, steps = last(claims).count, begun = performance.now();
  let done = 0;
  /**
   * @param {number} now
   * @param {number} judged
   */
  const report = (now, judged) => postMessage({ done: (done = now), steps, judged, checkpoints: claims.length - 1 });
  report(0, 0);
  const slices = new Checker(machine, size).line(recording, report);
  postMessage({ slices, estimate: performance.now() - begun, steps: done });
}
