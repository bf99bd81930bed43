// @ts-check
/* What the page contains in a packed form. The page of web/serve has the addresses of these parts instead. */
import { inflated } from "../formats/inflating.js";

/** The address of a script, and a worker that runs it, which is dropped if it fails before it is taken; and what that answers, which unpacks the module and starts with it.
 * @typedef {{ address: string, worker: Worker | null, started: Promise<Started> | null }} Begun */
/** @typedef {{ answer: WebAssembly.Module } | Failure} Started */
/** An element whose content is packed, and what was begun with it ahead of the page's own script.
 * @typedef {HTMLElement & { begun?: Promise<Begun> }} Packed */

// The number of the first request to a worker that is begun ahead; those of the page's own script are higher.
const FIRST = 0;

/** Returns an element with a packed content by its name.
 * @param {string} name */
const packedPart = (name) => /** @type {Packed} */ (document.getElementById(`g-${name}`));

/** Returns the sessions that the page contains, by their names. */
export const examples = () => JSON.parse(packedPart("sessions").textContent ?? "{}");

/** Begins to start a worker with a packed script, and gives it the packed module: that takes longer than all else that the page needs. What is returned waits until the
 * worker is made.
 * @param {string} name
 * @param {string} module
 * @returns {Promise<unknown>} */
export function beginWorker(name, module) {
  const part = packedPart(name);
  part.begun = contentOf(part).then(addressOf).then((address) => begunWith(address, packedPart(module).textContent ?? ""));
  // Callers receive the rejection.
  return part.begun.catch(() => {});
}

/** Makes a worker, and has it start with a packed module.
 * @param {string} address
 * @param {string} packed
 * @returns {Begun} */
function begunWith(address, packed) {
  const worker = new Worker(address), begun = { address, worker: /** @type {Worker | null} */ (worker), started: /** @type {Promise<Started> | null} */ (null) };
  begun.started = new Promise((resolve) => {
    worker.addEventListener("message", ({ data }) => data.id === FIRST && resolve(data));
    worker.addEventListener("error", ({ message }) => ((begun.worker = null), resolve({ broken: message })));
  });
  worker.postMessage({ id: FIRST, ask: "startPacked", packed });
  return begun;
}

/** Returns the address of a packed script, and a worker that runs it, if one was begun.
 * @param {string} name
 * @returns {Promise<Begun>} */
export async function begunWorker(name) {
  return packedPart(name).begun ?? { address: addressOf(await unpacked(name)), worker: null, started: null };
}

/** @param {Bytes} script */
const addressOf = (script) => URL.createObjectURL(new Blob([script], { type: "text/javascript" }));

/** Unpacks what the page contains: its scripts, its module, the sources that it offers, or a project.
 * @param {string} name
 * @returns {Promise<Bytes>} */
export async function unpacked(name) {
  return contentOf(packedPart(name));
}

/** @param {Packed} part */
async function contentOf({ textContent, dataset }) {
  return dataset.source ? new Uint8Array(await (await fetch(dataset.source)).arrayBuffer()) : inflated(textContent ?? "");
}
