// @ts-check
/* What each worker has: the library, and a machine. */
import { Library } from "../engine/library.js";
import { Machine } from "../engine/machine.js";
import { inflated } from "../formats/inflating.js";
import { Refused } from "../formats/refused.js";

/** @type {Library} */
export let library;
/** @type {Machine} */
export let machine;

/** Makes the machine of this worker.
 * @param {Requests["start"][0]} given */
export function start({ module }) {
  library = new Library(module);
  machine = new Machine(library);
  return true;
}

/** Unpacks the module, and makes the machine of this worker. Returns the module, for other workers.
 * @param {Requests["startPacked"][0]} given */
export async function startPacked({ packed }) {
  const module = await compiled(packed).catch((error) => {
    throw new Refused(error.message);
  });
  start({ module });
  return module;
}

/** @param {string} packed */
const compiled = async (packed) => WebAssembly.compile(await inflated(packed));

/** Returns what is posted of an error: a line for the user, or that there is a bug in this script.
 * @param {any} error
 * @returns {Failure} */
export function faultOf(error) {
  if (error instanceof Refused) return { refused: error.message };
  if (error instanceof WebAssembly.RuntimeError || error instanceof RangeError) return { refused: `the module failed: ${error.message}` };
  return { broken: `${error.message}\n${error.stack}` };
}
