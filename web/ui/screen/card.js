// @ts-check
/* The card beside the screen, which has an answer, or the end of a game. */
import { closer, el, isNarrow, made } from "../../host/elements.js";

// What is done when the card is closed.
let whenClosed = () => {};

/** Shows a card. `closed` is called when it is closed, or another one takes its place.
 * @param {string} title
 * @param {(Node | string)[]} parts
 * @param {() => void} closed */
export function showCard(title, parts, closed = () => {}) {
  if (closed !== whenClosed) whenClosed();
  whenClosed = closed;
  el("card").replaceChildren(made("h2", title), closer("Close", closeCard), ...parts);
  if (!el("card").hidden) return;
  el("card").hidden = false;
  if (!isNarrow()) el("card").scrollIntoView({ block: "nearest" });
}

/** Closes the card. */
export function closeCard() {
  whenClosed();
  whenClosed = () => {};
  el("card").hidden = true;
}
