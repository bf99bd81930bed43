// @ts-check
/* The names that the page has for addresses, and where they are from: a symbol file, or a source that was assembled here. They belong to the
 * machine that is open. Names are claims of whoever made them; nothing is decided by them.
 *
 * `setNames(symbols, from)` takes them (symbols.js makes `Symbols`), `forgetNames()` drops them, and `onNames(task)` runs a task at each change.
 * `nameOf`, `placeText`, `lineOf` and `valueName` say what an address or a number is called, `addressOf` reads a name. All addresses are byte
 * addresses. `setSource(file, text)` takes the text of a source; `sourceLine(line)` returns a line of it. */
import { Refusal } from "./requests.js";
import { shown, sourceText } from "../formats/shownnames.js";
import { NO_SYMBOLS } from "../formats/symbols.js";
import { grouped, many } from "../formats/texts.js";

/** @typedef {import("../formats/symbols.js").Symbols} Symbols */
/** @typedef {import("../formats/symbols.js").SourceLine} SourceLine */

// The names, what they are from as the page says it (a file's name), and the bytes of the file, if they are from one. It is replaced whole.
/** @type {{ symbols: Symbols, from: string, bytes: Bytes | null }} */
const NO_NAMES = { symbols: NO_SYMBOLS, from: "", bytes: null };
export let names = NO_NAMES;
/** @type {(() => void)[]} */
const listeners = [];
/** The lines of the sources whose text is known, by the names of their files. It has as many files as were given.
 * @type {Map<string, string[]>} */
let sources = new Map();

/** Runs a task after each change of the names or of the sources.
 * @param {() => void} task */
export function onNames(task) {
  listeners.push(task);
}

function changed() {
  for (const task of listeners) task();
}

/** Takes names, and where they are from. `bytes` is the symbol file, which is kept with the machine.
 * @param {Symbols} symbols
 * @param {string} from
 * @param {Bytes | null} bytes */
export function setNames(symbols, from, bytes = null) {
  names = { symbols, from, bytes };
  changed();
}

/** Drops the names, and the texts of sources: another machine is open. */
export function forgetNames() {
  if (names === NO_NAMES && !sources.size) return;
  names = NO_NAMES;
  sources = new Map();
  changed();
}

/** Returns the symbol file that the names are from, if they are from one.
 * @returns {SymbolFile | null} */
export function symbolFile() {
  const { from, bytes } = names;
  return bytes && { from, bytes };
}

/** Takes the text of a source by the name of its file.
 * @param {string} file
 * @param {string} text */
export function setSource(file, text) {
  sources.set(lastPart(file), text.split(/\r?\n/));
  changed();
}

/** @param {string} file */
const lastPart = (file) => file.slice(file.lastIndexOf("/") + 1);

/** Returns the text of a line of a source, if it is known.
 * @param {SourceLine | null} line */
export function sourceLine(line) {
  return line ? sources.get(lastPart(line.file))?.[line.line - 1] : undefined;
}

/** Says how many names there are, and from where; nothing if there are none.
 * @returns {string} */
export const namesText = () => (names.from ? `${many(names.symbols.size, "name")} from ${names.from}` : "");

/** Returns the name that an address is shown with, and how many bytes it is after it; or null.
 * @param {number} address
 * @returns {{ name: string, offset: number, start: number, kind: string } | null} */
export function nameOf(address) {
  const place = names.symbols.nameOf(address);
  return place && { name: place.names, offset: place.offset, start: place.start, kind: place.kind };
}

/** Returns an address as `NAME` or `NAME + 0x3C`; nothing if no name reaches it.
 * @param {number} address */
export const placeText = (address) => names.symbols.text(address);

/** Returns an address as a place in a procedure, which begins where a call went to, as in `Display.Dot + 0x3C`: by the name of that, if it has one and is
 * not after the address; else by the last name before the address, or as a number. What goes on after a call is `named` by the call: another procedure
 * may begin right after it.
 * @param {number} address
 * @param {number} entry
 * @param {number} named */
export function placeIn(address, entry, named = address) {
  const { symbols } = names, hexadecimal = (/** @type {number} */ value) => `0x${value.toString(16).toUpperCase()}`;
  const begin = named >= entry && symbols.startOf(entry) === entry ? entry : symbols.startOf(named);
  if (begin < 0) return hexadecimal(address);
  return symbols.text(begin) + (address > begin ? ` + ${hexadecimal(address - begin)}` : "");
}

/** Returns the name of the procedure at a word to which a call went; at -1 is what runs under no call, which has the name of the `first` word.
 * @param {number} word
 * @param {number} first */
export function procedureText(word, first) {
  const entry = 4 * (word < 0 ? first : word);
  return placeIn(entry, entry);
}

/** Returns the line of the source that an instruction is of, or null.
 * @param {number} address
 * @returns {SourceLine | null} */
export const lineOf = (address) => names.symbols.lineAt(address);

/** Returns where an instruction is, by name and line, as in `Display.Dot + 0x3C, Display.Mod:214`; nothing if neither is known.
 * @param {number} address */
export function whereText(address) {
  const line = lineOf(address);
  return [placeText(address), line ? sourceText(line) : ""].filter(Boolean).join(", ");
}

/** Returns the names of constants and of data that are exactly this number, if it may be meant as one of them; or nothing.
 * @param {number} value */
export const valueName = (value) => (value >>> 0 >= 0x100 ? names.symbols.value(value) : "");

const SUM = /^(.+?)\s*([+-])\s*(?:0x([0-9a-f]{1,8})|(\d{1,9}))$/i;

/** Returns the address that a name stands for, perhaps with a number of bytes added, as in `Texts.buf + 0x8`; or null, if there is no such name.
 * A name with several addresses is refused.
 * @param {string} text
 * @returns {number | null} */
export function addressOf(text) {
  const name = text.trim(), places = names.symbols.places(name);
  if (!places.length) {
    const [, before = "", sign, digits, decimal] = SUM.exec(name) ?? [], from = placeOf(before, names.symbols.places(before));
    return from === null ? null : from + (sign === "-" ? -1 : 1) * (digits ? parseInt(digits, 16) : Number(decimal));
  }
  return placeOf(name, places);
}

/** Returns the one place of a name, or null. Several are refused.
 * @param {string} name
 * @param {number[]} places */
function placeOf(name, places) {
  if (places.length > 1) throw new Refusal(`${shown(name)} stands for ${grouped(places.length)} addresses, ${listed(places)}: write the one that is meant.`);
  return places[0] ?? null;
}

/** @param {number[]} places */
const listed = (places) => places.slice(0, 3).map((place) => `0x${place.toString(16).toUpperCase()}`).join(", ") + (places.length > 3 ? " .." : "");
