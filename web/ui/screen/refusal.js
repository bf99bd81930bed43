// @ts-check
/* What is said of a file that is refused. */
import { app } from "../../host/app.js";
import { el, named, notice, write } from "../../host/elements.js";
import { faultText } from "../../formats/lines.js";

/** Says that a file is refused, and what is open still.
 * @param {string} name
 * @param {string} line */
export function showRefusal(name, line) {
  el("refused-name").replaceChildren("The file ", named(name), " is refused:");
  write("refused", line);
  write("refused-how", [faultText(line), app.latest ? `${app.work.name} is still open.` : ""].filter(Boolean).join(" "));
}

export function clearRefusal() {
  notice();
  for (const part of ["refused-name", "refused", "refused-how"]) write(part, "");
}
