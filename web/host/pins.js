// @ts-check
/* The notes that are pinned to counts of the run that is open. They are kept with it, and exported with its project. */
import { publish } from "./events.js";
import { LONGEST_NOTE, MOST_NOTES } from "../formats/pinned.js";
import { Refusal } from "./requests.js";
import { grouped } from "../formats/texts.js";

/** The notes by their counts, in the order of these.
 * @type {ReadonlyMap<number, string>} */
export let pins = new Map();

/** Takes notes in place of those that are there.
 * @param {import("../formats/pinned.js").PinnedNote[]} notes */
export function setPins(notes = []) {
  pins = new Map([...notes].sort(([one], [other]) => one - other));
  publish("pins");
}

/** Pins a note to a count, in place of the one that is there; an empty text takes that away.
 * @param {number} count
 * @param {string} text */
export function pin(count, text) {
  if (text.length > LONGEST_NOTE) throw new Refusal(`A note has at most ${grouped(LONGEST_NOTE)} characters.`);
  const others = [...pins].filter(([other]) => other !== count);
  if (text && others.length >= MOST_NOTES) throw new Refusal(`There are ${grouped(MOST_NOTES)} notes at most.`);
  setPins(text ? [...others, [count, text]] : others);
}
