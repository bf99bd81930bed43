// @ts-check
/* The tabs beside the screen: the parts of the machine, of which one is shown. */
import { el } from "../../host/elements.js";
import { publish } from "../../host/events.js";
import { fitScreen } from "./screen.js";
import { isTab } from "../../host/shown.js";

export const TABS = ["state", "source", "code", "memory", "devices", "log"];

/** @param {string} name */
export function showTab(name) {
  for (const tab of TABS) {
    const isShown = tab === name;
    el(`tab-${tab}`).setAttribute("aria-selected", `${isShown}`);
    // All tabs are one stop of the key Tab.
    el(`tab-${tab}`).tabIndex = isShown ? 0 : -1;
    el(`panel-${tab}`).hidden = !isShown;
  }
  const { classList } = /** @type {HTMLElement} */ (document.getElementById("galluspa"));
  classList.toggle("sourcing", name === "source");
  classList.toggle("coding", name === "source" || name === "code");
  fitScreen();
  publish("tab", name);
}

/** Goes to the tab before or after by an arrow key, to the first one by Home, and to the last one by End.
 * @param {KeyboardEvent} event */
export function tabByKey(event) {
  const now = TABS.findIndex(isTab), to = { ArrowRight: now + 1, ArrowLeft: now - 1, Home: 0, End: -1 }[event.key];
  if (to === undefined) return;
  const next = TABS[(to + TABS.length) % TABS.length];
  event.preventDefault();
  showTab(next);
  el(`tab-${next}`).focus();
}
