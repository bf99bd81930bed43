// @ts-check
/* The instructions that were done before the cursor and come after it, and who called them. */
import { bothOf } from "../../host/addresses.js";
import { app } from "../../host/app.js";
import { showCalls } from "./calls.js";
import { moveCursor } from "../timeline/cursormoves.js";
import { attempt, button, el, made, write } from "../../host/elements.js";
import { instruction } from "../../formats/instructions.js";
import { countCode } from "./listing.js";
import { placeText } from "../../host/names.js";
import { isTab, shownCount, shownState, stoppedAt } from "../../host/shown.js";
import { grouped } from "../../formats/texts.js";

// How many instructions before the cursor are shown, and after it.
export const DONE_BEFORE = 12, DONE_AFTER = 6;

/** Shows what the instructions around the cursor did, if that is to be seen. */
export async function showAround() {
  if (app.latest?.on) return write("calls", ""), write("trace", "Pause the machine to see what it did.");
  if (!app.latest || !isTab("code")) return;
  const now = shownCount(), at = Math.min(now, stoppedAt() ?? now);
  const done = await app.past.around(at, Math.min(DONE_BEFORE, at), DONE_AFTER);
  if (done && now === shownCount() && !app.latest.on) el("trace").replaceChildren(...done.map((one) => doneLine(one, at)));
  attempt(() => showCalls("calls", now, shownState(), () => now === shownCount() && !app.latest?.on));
  countCode();
}

/**
 * @param {Done} done
 * @param {number} at
 */
function doneLine({ count, pc, word, changes }, at) {
  const line = made("div", "", count === at ? "here" : ""), go = button(grouped(count), () => moveCursor(count));
  const changed = changes.map(([name, old, now]) => `${name} ${old} → ${now}`).join("; "), name = placeText(4 * pc);
  line.append(go, ` ${bothOf(4 * pc).padStart(13)}  ${(word === null ? "outside memory" : instruction(word, pc)[0]).padEnd(20)} ${changed}`);
  if (name) line.append(made("bdi", `  ; ${name}`, "remark"));
  return line;
}
