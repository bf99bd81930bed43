// @ts-check
/* The variables of the program at the cursor: the names of data in memory, with what they have there. A symbol file has the size of each, and no type: so a value is
 * shown as a number in hexadecimal and decimal. */
import { address } from "../../host/addresses.js";
import { app } from "../../host/app.js";
import { button, el, made } from "../../host/elements.js";
import { names } from "../../host/names.js";
import { isTab, shownCount } from "../../host/shown.js";
import { hex, MEMORY_BYTES } from "../../formats/states.js";
import { DATA } from "../../formats/symbols.js";
import { grouped, many } from "../../formats/texts.js";

const MOST_VARIABLES = 200, WORD_BYTES = 4;
/** What was shown last of each, by its address, to mark what has changed.
 * @type {Map<number, string>} */
let before = new Map();

/** Returns the variables in memory, by rising addresses. */
const variables = () => names.symbols.placed.filter(({ kind, address: at }) => kind === DATA && at < MEMORY_BYTES).slice(0, MOST_VARIABLES);

/** Shows the variables at the cursor, if the tab of the memory is in sight; `show` shows the memory at an address.
 * @param {(at: number) => void} show */
export async function showVariables(show) {
  const all = app.latest && !app.latest.on && isTab("memory") ? variables() : [], at = shownCount();
  if (!all.length) return el("variables").replaceChildren();
  const from = all[0].address, end = Math.min(MEMORY_BYTES, all[all.length - 1].address + WORD_BYTES), found = await app.past.memory(at, from, end - from);
  if (!found || at !== shownCount()) return;
  const texts = new Map(all.map((one) => [one.address, valueText(one.size, found.bytes.subarray(one.address - from))]));
  el("variables").replaceChildren(...all.map(({ name, address: place, size }) => {
    const row = made("tr", ""), cell = made("td", ""), value = made("td", texts.get(place) ?? "");
    cell.append(button(name, () => show(place)));
    value.classList.toggle("changed", before.has(place) && before.get(place) !== texts.get(place));
    row.append(cell, made("td", address(place)), made("td", size ? many(size, "byte") : ""), value);
    return row;
  }));
  before = texts;
}

/** Returns what a variable of a size has, which is 0 if it is not known: a number, or the first word of something longer.
 * @param {number} size
 * @param {Bytes} bytes */
function valueText(size, bytes) {
  const wide = Math.min(size || WORD_BYTES, WORD_BYTES, bytes.length), value = Array.from(bytes.subarray(0, wide)).reduceRight((sum, byte) => sum * 256 + byte, 0);
  return `${hex(value, 2 * wide)} ${size > WORD_BYTES ? ".." : grouped(value)}`;
}
