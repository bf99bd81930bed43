// @ts-check
/* The notes that are pinned to counts: their list, and how one is written. The lane has them, too. */
import { app } from "../../host/app.js";
import { button, el, listButton, made, notice, on } from "../../host/elements.js";
import { moveCursor } from "./cursormoves.js";
import { pin, pins } from "../../host/pins.js";
import { secondsOf, shownCount } from "../../host/shown.js";
import { grouped } from "../../formats/texts.js";
import { drawLanes } from "./drawing.js";

/** Shows the notes, each with a button that goes to its count. */
export function showPins() {
  el("notes").replaceChildren(...[...pins].map(([count, text]) => noteRow(count, text)));
  if (app.latest) drawLanes();
}

/** @param {number} count
 * @param {string} text */
function noteRow(count, text) {
  const row = made("li", ""), drop = listButton("×", () => pin(count, ""));
  drop.setAttribute("aria-label", `Delete the note at ${grouped(count)}`);
  row.append(button(`${grouped(count)} · ${secondsOf(count)}`, () => moveCursor(count)), " ", made("bdi", text), " ", drop);
  return row;
}

/** Pins what was written to the count that is looked at. A run of which nothing was kept, since it was only opened, is kept from then on.
 * @param {Event} event */
async function pinNote(event) {
  event.preventDefault();
  notice();
  if (!app.work.generation) return notice("There is no run yet to whose counts a note could be pinned.");
  const text = el("note").value.trim();
  el("note").value = "";
  if (!text) return;
  pin(shownCount(), text);
  if (app.latest?.isReplay) {
    app.work.isNoted = true;
    notice("The note is kept once the replay is over, or you continue from here.");
  }
  if (!app.latest?.hasOwn) await app.live.ask("keepToo");
}

export const listenToPins = () => on("note-form", "submit", pinNote);
