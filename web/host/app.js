// @ts-check
/* What the page knows of the machine that is open. Others read it, and change it by the functions below. */
import { attempt } from "./elements.js";

// Fields that are set at start-up.
const NOT_STARTED = /** @type {{ module: WebAssembly.Module, live: Helper, past: Past, work: Work }} */ ({});
// `work` is the recording in progress with the name of the machine; `file` is the recording that is open, with its name, its claims
// and its verdict. `latest` is the last frame of the live machine, and `dots` its screen. `image` is the memory image that is offered.
/** @type {{ module: WebAssembly.Module, live: Helper, past: Past, work: Work, file: OpenFile | null, latest: Frame | null, dots: Bytes | null,
 *   image: { name: string, bytes: Bytes } | null }} */
export const app = { ...NOT_STARTED, file: null, latest: null, dots: null, image: null };

/** Takes the module, and the ways to the live machine and to its past.
 * @param {WebAssembly.Module} module
 * @param {Helper} live
 * @param {Past} past */
export function setMachine(module, live, past) {
  Object.assign(app, { module, live, past });
}

/** @param {Work} work */
export function setWork(work) {
  app.work = work;
}

/** The branches beside the run that is open, and how many the family has had, for their names. It is replaced whole.
 * @type {Branches} */
export const NO_BRANCHES = { list: [], made: 1 };
export let branches = NO_BRANCHES;

/** @param {Branches} others */
export function setBranches(others) {
  branches = others;
}

/** Takes the recording that is open, or null.
 * @param {OpenFile | null} file */
export function setFile(file) {
  app.file = file;
}

/** Says which file is open.
 * @param {string} name
 * @param {Bytes} bytes */
export function nameFile(name, bytes) {
  if (app.file) Object.assign(app.file, { name, bytes });
}

/** @param {{ name: string, bytes: Bytes } | null} image */
export function setImage(image) {
  app.image = image;
}

/** Takes a frame of the live machine. It has dots only if they changed.
 * @param {Frame} frame */
export function setFrame(frame) {
  app.latest = frame;
  if (frame.dots) app.dots = frame.dots;
}

/** Asks the live machine for something whose answer nothing waits for.
 * @template {RequestName} Name
 * @param {Name} ask
 * @param {Requests[Name][0]} given */
export function send(ask, given) {
  attempt(() => app.live.ask(ask, given));
}

/** Returns what a file is called that is saved: once more saved, it has the same name.
 * @param {string} ending */
export const savedName = (ending) => `${app.work.name.replace(/(-live)+$/, "")}-live.${ending}`;
