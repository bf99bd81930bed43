// @ts-check
/* The devices that the user works with: keys and composed text, the mouse, the switches and the serial line. What cannot be sent
 * stays where it is, or the page says so. */
import { app, send } from "../../host/app.js";
import { type } from "../../host/work.js";
import { commands } from "../../host/commands.js";
import { attempt, el, notice, on, set, write } from "../../host/elements.js";
import { ARROWS, isSnake } from "./game.js";
import { dotAt } from "./screen.js";
import { inputRefusalInPast, isPast, isStarting, isToGoOn, shownState } from "../../host/shown.js";
import { AT, field, last, MOUSE, SWITCHES } from "../../formats/states.js";
import { INPUT_LIMIT, SERIAL_LIMIT } from "../../formats/limits.js";
import { grouped } from "../../formats/texts.js";

/** @type {{ [key: string]: number }} */
const CHARACTERS = { Enter: 13, Backspace: 8, Tab: 9, Escape: 27, Delete: 127 };
// The codes of a PS/2 keyboard, set 2, as Oberon's own driver reads them: E0 before some, F0 before a key that is released.
/** @type {{ [code: string]: number }} */
const PS2 = Object.fromEntries(
  [...("KeyA 1c KeyB 32 KeyC 21 KeyD 23 KeyE 24 KeyF 2b KeyG 34 KeyH 33 KeyI 43 KeyJ 3b KeyK 42 KeyL 4b KeyM 3a KeyN 31 KeyO 44 KeyP 4d KeyQ 15 " +
    "KeyR 2d KeyS 1b KeyT 2c KeyU 3c KeyV 2a KeyW 1d KeyX 22 KeyY 35 KeyZ 1a Digit0 45 Digit1 16 Digit2 1e Digit3 26 Digit4 25 Digit5 2e " +
    "Digit6 36 Digit7 3d Digit8 3e Digit9 46 Minus 4e Equal 55 BracketLeft 54 BracketRight 5b Backslash 5d Semicolon 4c Quote 52 " +
    "Backquote 0e Comma 41 Period 49 Slash 4a Space 29 Enter 5a Backspace 66 Tab 0d Escape 76 ShiftLeft 12 ShiftRight 59 " +
    "ControlLeft 14 AltLeft 11 F1 05 F2 06 F3 04 F4 0c ArrowUp e075 ArrowDown e072 ArrowLeft e06b ArrowRight e074 Delete e071")
    .matchAll(/(\w+) (\w+)/g)].map(([, key, code]) => [key, parseInt(code, 16)]),
);
/** @type {Set<string>} */
const held = new Set();

// Keys

const isPs2 = () => el("keys").value === "ps2";

/** Returns the codes of a key that is pressed or released: its PS/2 codes, or its character.
 * @param {Pick<KeyboardEvent, "type" | "code" | "key"> & { ctrlKey?: boolean, metaKey?: boolean }} event */
function codesOf({ type, code, key, ctrlKey, metaKey }) {
  if (isPs2()) {
    const number = PS2[code];
    if (!number || (type === "keyup" && !held.delete(code))) return [];
    if (type === "keydown") held.add(code);
    return [...(number > 255 ? [number >> 8] : []), ...(type === "keyup" ? [0xf0] : []), number & 255];
  }
  if (type === "keyup" || ctrlKey || metaKey) return [];
  const character = CHARACTERS[key] ?? (key.length === 1 ? key.charCodeAt(0) : 0);
  return character && character < 256 ? [character] : [];
}

/** Whether a key that is pressed is for the machine: a key of a PS/2 keyboard, or a character.
 * @param {KeyboardEvent} event */
function isForMachine({ code, key, ctrlKey, metaKey }) {
  if (isPs2()) return code in PS2;
  return !ctrlKey && !metaKey && (key in CHARACTERS || [...key].length === 1);
}

/** Whether a key is part of a character that the browser composes.
 * @param {KeyboardEvent} event */
function isComposed({ isComposing, key }) {
  return !isPs2() && (isComposing || key === "Dead" || key === "Process");
}

/** @param {KeyboardEvent} event */
export function pressed(event) {
  const isDown = event.type === "keydown", isToLeave = event.key === "Tab" && (event.shiftKey || !app.latest?.on);
  if (isToLeave || (event.key === "Enter" && event.ctrlKey && event.shiftKey)) return;
  if (event.key === "Enter" && event.ctrlKey) return leaveScreen(event);
  if (isArrow(event)) return isDown ? arrowPressed(event) : undefined;
  if (isComposed(event)) return isDown ? sayIfUncomposed() : undefined;
  if (isDown && (!isForMachine(event) || !isRunning())) return;
  const codes = codesOf(event);
  if (codes.length) {
    event.preventDefault();
    sendCodes(codes);
  } else if (isDown) sendText(event.key);
}

/** Whether a key is an arrow that goes to a machine that runs, which has no character for it.
 * @param {KeyboardEvent} event */
function isArrow({ key, ctrlKey, metaKey, altKey }) {
  return key in ARROWS && !isPs2() && !ctrlKey && !metaKey && !altKey && (app.latest?.on || isStarting || isToGoOn);
}

/** Sends an arrow as the key that Snake has for it; else says that it is dropped.
 * @param {KeyboardEvent} event */
function arrowPressed(event) {
  event.preventDefault();
  if (!isRunning()) return;
  if (isSnake()) sendCodes([ARROWS[event.key].charCodeAt(0)]);
  else notice("Arrow keys need PS/2 mode: choose keys as PS/2 codes among the devices.");
}

/** Says so where the browser composes no characters on the screen. */
function sayIfUncomposed() {
  if (!el("screen").editContext && isRunning()) notice("This browser composes no characters here: send them over the serial line.");
}

/** Whether keys and the mouse go to the machine now; if not, the page says why. One that was taken over goes on first. */
export function isRunning() {
  if (!app.latest) return false;
  const { on, inputRefusal } = app.latest;
  if (isPast()) return notice(`${inputRefusalInPast()}.`), false;
  if (isToGoOn && !on && !inputRefusal) attempt(() => commands.setRun(true));
  else if (!(on || isStarting) || inputRefusal) return notice(`${inputRefusal ?? "The machine is paused: keys and the mouse go to it while it runs"}.`), false;
  return true;
}

/** @param {number[]} codes */
export function sendCodes(codes) {
  attempt(() => type({ keys: codes }));
}

/** Sends a text that was composed as if it were typed, each character by its Latin-1 code.
 * @param {string} text */
function sendText(text) {
  if (!isRunning()) return;
  const characters = [...text].map((character) => (character === "\n" ? "\r" : character));
  const unsent = isPs2() ? characters : characters.filter((character) => Number(character.codePointAt(0)) > 255);
  const why = isPs2() ? "PS/2 codes have no composed text" : "keys send the characters of Latin-1 only";
  if (unsent.length) return notice(`${unsent.join("")}: ${why}.`);
  sendCodes(characters.map((character) => character.charCodeAt(0)));
}

/** Lets the browser compose characters of several keys on the screen, where it can: by dead keys, or by an input method. */
export function compose() {
  if (typeof EditContext === "undefined") return;
  const context = new EditContext();
  let isComposing = false;
  /** @param {string} text */
  const send = (text) => {
    context.updateText(0, context.text.length, "");
    context.updateSelection(0, 0);
    if (text) sendText(text);
  };
  context.addEventListener("compositionstart", () => (isComposing = true));
  context.addEventListener("textupdate", ({ text }) => isComposing || send(text));
  context.addEventListener("compositionend", ({ data }) => {
    isComposing = false;
    send(data);
  });
  el("screen").editContext = context;
  // A tap on the screen is the mouse's, and brings up no keyboard.
  el("screen").virtualKeyboardPolicy = "manual";
}

// What the hidden field holds, so that a key that deletes has something to delete.
const FILLING = "  ";

/** Sends what is typed into the hidden field, which brings up the keyboard of a phone. */
function typed() {
  const { value } = el("phone-keys");
  el("phone-keys").value = FILLING;
  if (value.length < FILLING.length) {
    if (isRunning()) sendCodes([CHARACTERS.Backspace]);
  } else sendText(value.slice(FILLING.length));
}

export function listenToKeyboard() {
  el("phone-keys").value = FILLING;
  on("keyboard", "click", () => el("phone-keys").focus());
  on("phone-keys", "input", ({ isComposing }) => isComposing || typed());
  on("phone-keys", "compositionend", typed);
  for (const type of ["keydown", "keyup"]) on("phone-keys", type, pressed);
}

/** Goes from the screen to the next control, since Tab goes to the machine.
 * @param {KeyboardEvent} event */
function leaveScreen(event) {
  event.preventDefault();
  if (event.type === "keydown") el("make-checkpoint").focus();
}

/** Releases all PS/2 keys when the screen loses the focus. */
export function letGo() {
  for (const code of [...held]) sendCodes(codesOf({ type: "keyup", code, key: "" }));
}

// The mouse

const pointer = { word: 0, sent: 0 };
// The boxes of the mouse's keys.
const KEY_BOXES = /** @type {const} */ (["left-key", "middle-key", "right-key"]);

/** Returns the mouse word: x in bits 0 to 9, y from the bottom in bits 12 to 21, the left key in bit 26, the middle one in 25, the
 * right one in 24.
 * @param {number} x
 * @param {number} y
 * @param {number} left
 * @param {number} middle
 * @param {number} right */
function mouseWord(x, y, left, middle, right) {
  return (x | (y << 12) | (left << 26) | (middle << 25) | (right << 24)) >>> 0;
}

/** Returns the mouse word of an event over the screen, which is in a box of the window.
 * @param {PointerEvent} event
 * @param {DOMRect} box */
function wordOf(event, box) {
  const [x, y] = dotAt(event, box), first = event.buttons & 1, [isMiddle, isRight] = [first && event.altKey, first && event.ctrlKey];
  const keys = [first && !isMiddle && !isRight, event.buttons & 4 || isMiddle, event.buttons & 2 || isRight].map((is) => (is ? 1 : 0));
  return mouseWord(x, y, keys[0], keys[1], keys[2]);
}

/** Takes a movement or a key of the mouse, with all the positions that the browser has put into one event.
 * @param {PointerEvent} event */
export function pointed(event) {
  const box = el("screen").getBoundingClientRect();
  const between = event.type === "pointermove" ? event.getCoalescedEvents?.() ?? [] : [];
  /** @type {Change[]} */
  const changes = (between.length ? between : [event]).map((one) => [wordOf(one, box), performance.timeOrigin + one.timeStamp]);
  if (!app.latest?.inputRefusal && !isPast()) showMouse((pointer.word = last(changes)[0]));
  if (event.type === "pointerdown") {
    el("screen").setPointerCapture(event.pointerId);
    el("screen").focus({ preventScroll: true });
    if (app.latest && !app.latest.on) return commands.askDot(event);
    isRunning();
  }
  sendPointer(changes);
}

/** Sends the mouse words that differ from the one before, if the machine takes them.
 * @param {Change[]} changes */
function sendPointer(changes) {
  const { on, inputRefusal } = app.latest ?? {};
  if (!on || inputRefusal) return;
  /** @param {Change} change */
  const isNew = ([word]) => word !== pointer.sent && ((pointer.sent = word), true);
  const sent = changes.filter(isNew);
  if (sent.length) send("change", { kind: MOUSE, changes: sent });
}

/** Sends where the mouse is now, after it was moved while the machine did not run. */
export function catchUp() {
  sendPointer([[pointer.word, performance.timeOrigin + performance.now()]]);
}

/** @param {number} word */
function showMouse(word) {
  [el("mouse-x").value, el("mouse-y").value] = [`${word & 0x3ff}`, `${word >> 12 & 0x3ff}`];
  KEY_BOXES.forEach((name, at) => (el(name).checked = (word >> (26 - at) & 1) === 1));
}

/** @param {Event} event */
export function mouseByFields(event) {
  /**
   * @param {"mouse-x" | "mouse-y"} name
   * @param {number} most
   */
  const inside = (name, most) => Math.max(0, Math.min(most, Math.floor(Number(el(name).value)) || 0));
  const [left, middle, right] = KEY_BOXES.map((name) => Number(el(name).checked));
  pointer.word = mouseWord(inside("mouse-x", 1023), inside("mouse-y", 767), left, middle, right);
  return changeByHand(MOUSE, (pointer.sent = pointer.word), event);
}

// The switches

/** @param {Event} event */
export function switched(event) {
  const boxes = [...el("switches").querySelectorAll("input")];
  return changeByHand(SWITCHES, boxes.reduce((sum, it) => sum | (Number(it.checked) << Number(it.value)), 0), event);
}

/** Sends what was set by a control. If it has no effect, the page says why, and the controls show the machine's own again.
 * @param {number} kind
 * @param {number} value
 * @param {Event} event */
async function changeByHand(kind, value, { timeStamp }) {
  if (!app.latest) return;
  /** @type {Change[]} */
  const changes = [[value, performance.timeOrigin + timeStamp]];
  const inputRefusal = inputRefusalInPast() ?? (await app.live.ask("change", { kind, changes }));
  if (!inputRefusal) return;
  notice(`${inputRefusal}.`);
  showDevices(shownState());
}

/** Makes the controls follow a replay. */
let devicesShown = "";
/** @param {Bytes} state */
export function followDevices(state) {
  const now = `${field(state, AT.switches)} ${field(state, AT.mouse)}`;
  if (now !== devicesShown) showDevices(state);
  devicesShown = now;
}

/** Shows the switches and the mouse of a state in the controls.
 * @param {Bytes} state */
export function showDevices(state) {
  const switches = field(state, AT.switches);
  for (const box of el("switches").querySelectorAll("input")) box.checked = (switches >> Number(box.value) & 1) === 1;
  pointer.word = pointer.sent = field(state, AT.mouse);
  showMouse(pointer.word);
}

export function makeDevices() {
  for (const lamps of document.querySelectorAll("#galluspa .lamps")) lamps.replaceChildren(...Array.from({ length: 8 }, () => document.createElement("i")));
  for (let at = 11; at >= 0; at--) {
    const label = document.createElement("label"), box = document.createElement("input");
    Object.assign(box, { type: "checkbox", value: at });
    label.append(box, at > 7 ? ` button ${at - 8} ` : ` ${at} `);
    el("switches").append(label);
  }
}

// The serial line

/** Sends the text of the field, each line break as a return, as a typed Enter is. If the machine takes none, the text stays.
 * @param {Event} event */
export async function sendSerial(event) {
  event.preventDefault();
  const text = el("serial").value, lines = text.replaceAll("\n", "\r") + (el("serial-return").checked ? "\r" : "");
  if (!app.latest || !lines) return;
  const inputRefusal = inputRefusalInPast() ?? (await sendBytes(new TextEncoder().encode(lines)));
  if (inputRefusal) return notice(`${inputRefusal}. The text stays here.`);
  notice();
  if (el("serial").value === text) el("serial").value = "";
}

/** Sends the bytes of a file, as they are.
 * @param {HTMLInputElement} chooser */
export async function sendFile(chooser) {
  const [file] = chooser.files ?? [];
  chooser.value = "";
  if (!app.latest || !file) return;
  const why = inputRefusalInPast() ?? (await sendBytes(new Uint8Array(await file.arrayBuffer())));
  notice(why ? `${why}. The file is not sent.` : "");
}

// How many serial bytes wait at most, of those that were sent together; the progress of fewer is not shown.
let serialOf = 0;
const FEW = 100;

/** Sends serial bytes. Returns why they have no effect, or null.
 * @param {Bytes} serial */
async function sendBytes(serial) {
  const of = serial.length + (app.latest?.serial ? serialOf : 0), why = await type({ serial });
  if (!why) serialOf = of;
  return why;
}

/** Shows how many serial bytes wait, and why they do if the recording has no room for them.
 * @param {Frame} frame */
export function showSerial({ serial: left, inputs }) {
  serialOf = left ? Math.max(serialOf, left) : 0;
  const isFull = left > 0 && inputs >= SERIAL_LIMIT, hidden = serialOf < FEW && !isFull;
  set("serial-progress", { hidden });
  if (hidden) return;
  set("serial-bar", { max: serialOf, value: serialOf - left });
  const why = isFull ? `: the last ${grouped(INPUT_LIMIT - SERIAL_LIMIT)} inputs of a recording are for keys and the mouse` : "";
  write("serial-left", `${grouped(left)} of ${grouped(serialOf)} bytes wait${why}`);
}

/** Drops the serial bytes that the machine has not taken yet. */
export function cancelSerial() {
  return app.live.ask("cancelSerial");
}

/** Enter sends the text; Shift+Enter makes a new line.
 * @param {KeyboardEvent} event */
export function enterSends(event) {
  if (event.key !== "Enter" || event.shiftKey || event.isComposing) return;
  event.preventDefault();
  el("serial-form").requestSubmit();
}
