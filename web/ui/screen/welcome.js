// @ts-check
/* The first screen of an empty page: cards that say what one can do. */
import { endDemo } from "./demo.js";
import { attempt, el, named, set } from "../../host/elements.js";
import { headOf, isSource, nameOf, textOf } from "../../host/projects.js";

/** Takes the cards away, and what is played behind them. */
export function endWelcome() {
  endDemo();
  el("welcome").hidden = true;
}

/** Shows the card that continues the project that was worked on last, if there is one.
 * @param {import("../../host/projects.js").Project[]} projects
 * @param {(chosen: Head) => Promise<void>} goOnWith */
export function offerToContinue([newest], goOnWith) {
  set("continue", { hidden: !newest, disabled: !newest, onclick: () => attempt(() => goOnWith(headOf(newest))) });
  if (newest) el("continue-what").replaceChildren(isSource(headOf(newest)) ? "Source " : "", named(nameOf(newest)), textOf(headOf(newest)));
}
