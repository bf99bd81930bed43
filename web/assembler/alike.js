// @ts-check
/* Names that are alike, so that a message says which one may be meant. */
import { most } from "../../tools/galluspa/formats/assembler.json";

const LETTERS = "ABCDEFGHIJKLMNOPQRSTUVWXYZ0123456789_";

/** Whether two names differ in the case of letters alone; or, if both have three or more, by a letter that is left out, is another
 * one, or has changed places with the next.
 * @param {string} name
 * @param {string} other */
export function areAlike(name, other) {
  const [one, two] = name.length <= other.length ? [name.toUpperCase(), other.toUpperCase()] : [other.toUpperCase(), name.toUpperCase()];
  if (one === two) return true;
  let at = 0;
  while (at < one.length && one[at] === two[at]) at++;
  const rest = one.slice(at), otherRest = two.slice(at), swapped = rest.slice(1, 2) + rest.slice(0, 1) + rest.slice(2);
  return one.length > 2 && (rest === otherRest.slice(1) || rest.slice(1) === otherRest.slice(1) || swapped === otherRest);
}

/** Returns the first of known names that is like a name; nothing, if none is. Each is known by itself in capital letters, with its
 * place among them. How long this takes depends on the name, and not on how many there are.
 * @param {string} name
 * @param {Map<string, [number, string]>} known */
export function alikeOf(name, known) {
  /** @type {[number, string] | null} */
  let first = null;
  for (const alike of alikes(name.toUpperCase())) {
    const found = known.get(alike);
    if (found && (!first || found[0] < first[0])) first = found;
  }
  return first?.[1] ?? "";
}

/** All that is like a name in capital letters, as areAlike says, in capital letters too.
 * @param {string} name */
function* alikes(name) {
  yield name;
  if (name.length > most.alike) return;
  for (let at = 0; at <= name.length; at++) {
    const before = name.slice(0, at), after = name.slice(at);
    if (name.length > 3) yield before + after.slice(1);
    if (name.length <= 2) continue;
    yield before + after.slice(1, 2) + after.slice(0, 1) + after.slice(2);
    for (const letter of LETTERS) {
      yield before + letter + after;
      yield before + letter + after.slice(1);
    }
  }
}
