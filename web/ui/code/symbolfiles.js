// @ts-check
/* Symbol files and sources that are opened in the page: read, refused, and kept with the machine. */
import { app } from "../../host/app.js";
import { isEdited, misfit } from "../../formats/builds.js";
import { attempt, button, el, named, notice, write } from "../../host/elements.js";
import { forgetNames, names, namesText, onNames, setNames, setSource } from "../../host/names.js";
import { Refusal } from "../../host/requests.js";
import { MEMORY_BYTES } from "../../formats/states.js";
import { isSymbolFile, Mistaken, MOST_SYMBOL_BYTES, readSymbols } from "../../formats/symbolreader.js";
import { many } from "../../formats/texts.js";

const LONGEST_SOURCE = 4_000_000;

/** Whether a file is a symbol file, by its name or its first bytes.
 * @param {string} name
 * @param {Bytes} bytes */
export const isSymbols = (name, bytes) => /\.sym$/i.test(name) || isSymbolFile(bytes);

/** Whether a file is a source that the names are of.
 * @param {string} name */
export const isSource = (name) => names.symbols.files.has(name);

// How many symbol files were opened: of two at a time the later one counts.
let opened = 0;

/** Opens a symbol file: its names are those of the machine that is open from now on. A file with a mistake is refused, and the names before stay.
 * @param {string} name
 * @param {Bytes} bytes */
export async function openSymbols(name, bytes) {
  const number = ++opened, symbols = await readNames(bytes);
  if (number !== opened) return;
  setNames(symbols, name, bytes);
  const memory = app.latest && (await attempt(() => app.past.memory(0, 0, MEMORY_BYTES)));
  if (number !== opened) return;
  const told = memory ? misfit(symbols, name, bytes, memory.bytes) : "";
  notice(`${namesText()}.${told && ` ${told}.`}`);
  attempt(() => app.work.keepAnew());
}

/** @param {Bytes} bytes */
async function readNames(bytes) {
  try {
    return await readSymbols(bytes.subarray(0, MOST_SYMBOL_BYTES + 1));
  } catch (error) {
    if (!(error instanceof Mistaken)) throw error;
    throw new Refusal(error.line ? `line ${error.line}: ${error.message}` : error.message);
  }
}

/** Says that a source was edited since the symbol file was made, if that has another sum of it; else nothing.
 * @param {string} name
 * @param {Bytes} bytes */
export const editedText = (name, bytes) => (isEdited(names.bytes, name, bytes) ? ` It was edited since ${names.from} was made: lines may be others.` : "");

/** Opens the text of a source, which the listing shows beside its instructions.
 * @param {string} name
 * @param {Bytes} bytes */
export function openSource(name, bytes) {
  if (bytes.length > LONGEST_SOURCE) throw new Refusal("a source has at most 4,000,000 bytes");
  setSource(name, new TextDecoder().decode(bytes));
  notice(`The lines of ${name} are shown in Code.${editedText(name, bytes)}`);
}

/** Takes the names that were kept with a machine. What cannot be read gives none.
 * @param {SymbolFile | undefined} kept */
export async function resumeNames(kept) {
  if (!kept || names.bytes) return;
  const number = ++opened, symbols = await attempt(() => readNames(kept.bytes));
  if (symbols && number === opened) setNames(symbols, kept.from, kept.bytes);
}

/** Drops the names when another program is opened. */
export function dropNames() {
  opened++;
  forgetNames();
}

/** Shows how many names there are and from where, with a button that drops them. */
function showNames() {
  const { from } = names, drop = button("Remove", () => {
    dropNames();
    return app.work.keepAnew();
  });
  el("names-of").hidden = !from;
  if (from) el("names-of").replaceChildren(`${many(names.symbols.size, "name")} from `, named(from), " ", drop);
  else write("names-of", "");
}

export function listenToNames() {
  onNames(showNames);
}
