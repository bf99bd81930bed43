// @ts-check
/* The elements of the page: finding and making them, writing to them, and tasks on their events, each of which says so if it fails. */
import { messageOf } from "../formats/texts.js";

// How many points are left beside the sheet of a menu.
const BESIDE = 8;

/** Returns an element of the page by its name.
 * @template {string} Name
 * @param {Name} name
 * @returns {Name extends keyof Elements ? Elements[Name] : HTMLElement} */
export const el = (name) => /** @type {any} */ (document.getElementById(`g-${name}`));

/** Says something, in place of what was said before, also of a search; or nothing.
 * @param {string} [text]
 * @param {boolean} isFailure whether something failed or was refused, which is shown in red */
export function notice(text, isFailure = false) {
  write("notice", text ?? "");
  set("notice", { className: isFailure ? "failed" : "" });
  if (text) write("found", "");
}

/** Sets a text, unless it is there already: the same text would force relayout, too.
 * @param {string} name
 * @param {string} text */
export function write(name, text) {
  if (el(name).textContent !== text) el(name).textContent = text;
}

/** Sets a text of which a part may be cut off: all of it is where the mouse rests.
 * @param {string} name
 * @param {string} text */
export function writeWhole(name, text) {
  write(name, text);
  set(name, { title: text });
}

/** Sets properties of an element, those that have another value: the browser would look at its style anew for the same value, too.
 * @param {string} name
 * @param {{ [property: string]: unknown }} properties */
export function set(name, properties) {
  const element = /** @type {{ [property: string]: unknown }} */ (/** @type {unknown} */ (el(name)));
  for (const [property, value] of Object.entries(properties)) if (element[property] !== value) element[property] = value;
}

/** Whether the window is narrow, as that of a phone. */
export const isNarrow = () => matchMedia("(max-width: 36rem)").matches;

/** Closes the menus that are open, but for the one that has an element.
 * @param {EventTarget | null} element */
export function closeMenus(element = null) {
  for (const menu of document.querySelectorAll("#galluspa .menu[open]")) if (!(element instanceof Node && menu.contains(element))) menu.removeAttribute("open");
}

/** Closes the menu that is open. The focus in it, or that of a button that is gone, goes to its name. Returns whether there is one. */
export function closeMenu() {
  const menu = document.querySelector("#galluspa .menu[open]"), { activeElement, body } = document;
  menu?.removeAttribute("open");
  if (activeElement === body || menu?.contains(activeElement)) menu?.querySelector("summary")?.focus();
  return menu !== null;
}

/** Makes a name, whose direction changes nothing around it.
 * @param {string} name */
export const named = (name) => made("bdi", name);

/** Makes an element of a text.
 * @template {keyof HTMLElementTagNameMap} Tag
 * @param {Tag} tag
 * @param {string} textContent
 * @param {string} className
 * @returns {HTMLElementTagNameMap[Tag]} */
export function made(tag, textContent, className = "") {
  return Object.assign(document.createElement(tag), { textContent, className });
}

/**
 * @param {string} text
 * @param {string} [name]
 */
export const paragraph = (text, name) => made("p", text, name);

/**
 * @param {string} text
 * @param {Task} task
 */
export function button(text, task) {
  return Object.assign(made("button", text), { type: "button", onclick: () => attempt(task) });
}

/** Makes a button of a list that its task changes. The second click of a double click does nothing, since another item may be there by then.
 * @param {string} text
 * @param {Task} task */
export function listButton(text, task) {
  return Object.assign(button(text, task), { onclick: (/** @type {MouseEvent} */ { detail }) => (detail === 2 ? undefined : attempt(task)) });
}

/** Makes a button that closes something.
 * @param {string} what
 * @param {Task} task */
export function closer(what, task) {
  return Object.assign(button("×", task), { className: "close", ariaLabel: what });
}

/** Moves the sheet of a menu sideways into the window.
 * @param {Element} sheet */
export function keepInWindow(sheet) {
  if (!(sheet instanceof HTMLElement)) return;
  sheet.style.translate = "";
  const { left, right } = sheet.getBoundingClientRect();
  sheet.style.translate = `${Math.max(BESIDE - left, Math.min(0, innerWidth - BESIDE - right))}px`;
}

/** Runs a task on an event of a control. If the task fails, the page says so.
 * @param {string} name
 * @param {string} event
 * @param {Task} task */
export function on(name, event, task) {
  el(name).addEventListener(event, (given) => attempt(() => task(given)));
}

/** Runs a task. If it fails, the page says so.
 * @template T
 * @param {() => T | Promise<T>} task
 * @returns {Promise<T | undefined>} */
export async function attempt(task) {
  try {
    return await task();
  } catch (error) {
    notice(messageOf(error), true);
  }
}

/**
 * @param {string} name
 * @param {BlobPart} content
 * @param {string} type
 */
export function download(name, content, type) {
  const link = document.createElement("a"), url = URL.createObjectURL(new Blob([content], { type }));
  Object.assign(link, { download: name, href: url });
  link.click();
  setTimeout(() => URL.revokeObjectURL(url), 10000);
}
