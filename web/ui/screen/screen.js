// @ts-check
/* The screen: its dots, its size in the window, full screen, and its picture as a file. */
import { app } from "../../host/app.js";
import { DOTS_WIDE, LINE_BYTES, LINES, SHADES, SMALL_HIGH, SMALL_WIDE } from "../../formats/dots.js";
import { download, el, isNarrow } from "../../host/elements.js";
import { shownCount } from "../../host/shown.js";

// In CSS pixels: the width that a screen in a wide window leaves to icons and tabs, its least height, the room around it with its frame, and that of the line
// below it.
const SIDE_ROOM = 478, LEAST_HEIGHT = 340, MARGIN = 7, OUTPUT_ROOM = 24, WHOLE_SHARE = 0.7;
// Beside a source the screen has at most this share of the width, and leaves this height to an answer below it.
const SOURCE_SHARE = 0.31, UNDER_ROOM = 148, LEAST_BESIDE = 200;
/** A canvas, and the dots that it shows.
 * @typedef {{ image: ImageData, dots: Bytes | null }} Painted
 * @type {{ dots: Bytes, isDue: boolean, images: WeakMap<HTMLCanvasElement, Painted> }} */
const screens = { dots: new Uint8Array(), isDue: false, images: new WeakMap() };

/** Draws dots on a canvas, and repaints only the lines that changed. Line 0 is the lowest, and bit 0 of a byte is its leftmost
 * dot.
 * @param {HTMLCanvasElement} canvas
 * @param {Bytes} dots */
export function paint(canvas, dots) {
  const context = /** @type {CanvasRenderingContext2D} */ (canvas.getContext("2d"));
  const shown = screens.images.get(canvas) ?? { image: context.createImageData(DOTS_WIDE, LINES), dots: null };
  const pixels = new Uint32Array(shown.image.data.buffer);
  screens.images.set(canvas, shown);
  let [top, bottom] = [LINES, -1];
  for (let y = 0; y < LINES; y++) {
    const from = LINE_BYTES * (LINES - 1 - y);
    if (shown.dots && isSameLine(shown.dots, dots, from)) continue;
    [top, bottom] = [Math.min(top, y), y];
    for (let at = from, to = DOTS_WIDE * y; at < from + LINE_BYTES; at++)
      for (let bits = dots[at], k = 0; k < 8; k++, bits >>= 1) pixels[to++] = bits & 1 ? 0xff000000 : 0xffffffff;
  }
  shown.dots = dots;
  if (bottom >= top) context.putImageData(shown.image, 0, 0, 0, top, DOTS_WIDE, bottom - top + 1);
}

/**
 * @param {Bytes} some
 * @param {Bytes} others
 * @param {number} from
 */
function isSameLine(some, others, from) {
  for (let at = from; at < from + LINE_BYTES; at++) if (some[at] !== others[at]) return false;
  return true;
}

/** Shows what the end of a file claims, until the machine is run or looked at.
 * @param {Bytes} dots */
export function preview(dots) {
  drawSoon(dots);
  el("big-run").hidden = false;
}

/** Shows what the machine has, in place of what a file claims. */
export function endPreview() {
  if (el("big-run").hidden) return;
  el("big-run").hidden = true;
  if (app.dots) drawSoon(app.dots);
}

/** Draws dots on the screen with the browser's next frame.
 * @param {Bytes} dots */
export function drawSoon(dots) {
  screens.dots = dots;
  if (screens.isDue) return;
  screens.isDue = true;
  requestAnimationFrame(() => {
    screens.isDue = false;
    paint(el("screen"), screens.dots);
  });
}

/** Returns the room for the screen: its width, and its height so that the timeline below it is in the window, too. */
function roomForScreen() {
  if (document.fullscreenElement === el("stage")) return [innerWidth, innerHeight];
  const isWide = matchMedia("(min-width: 64rem)").matches, all = el("desk").parentElement?.clientWidth ?? innerWidth;
  if (isNarrow()) return [all - MARGIN, Infinity];
  const above = el("stage").getBoundingClientRect().top + scrollY, room = innerHeight - above - el("stay").offsetHeight - MARGIN - OUTPUT_ROOM;
  if (isWide && !el("panel-source").hidden) return [all * SOURCE_SHARE, Math.max(LEAST_BESIDE, room - UNDER_ROOM)];
  return [all - (isWide ? SIDE_ROOM : MARGIN), Math.max(LEAST_HEIGHT, room)];
}

/** Gives the screen the largest size that fits; or a whole factor of its dots, if that fills most of the room. All is measured before anything changes, so that the
 * browser lays the page out once. */
export function fitScreen() {
  const [wide, high] = roomForScreen(), stay = el("stay").offsetHeight, most = Math.min(wide, high * 4 / 3);
  const whole = Math.floor(most * devicePixelRatio / DOTS_WIDE) * DOTS_WIDE / devicePixelRatio, isWhole = whole > WHOLE_SHARE * most;
  const { style } = /** @type {HTMLElement} */ (document.getElementById("galluspa"));
  style.setProperty("--screen", `${isWhole ? whole : most}px`);
  document.documentElement.style.setProperty("--stay", `${stay}px`);
  el("screen").style.imageRendering = isWhole ? "pixelated" : "auto";
}

export async function showFull() {
  if (document.fullscreenElement) await document.exitFullscreen();
  else await el("stage").requestFullscreen();
}

/** Makes a small picture of its shades.
 * @param {Bytes} shades */
export function smallPicture(shades) {
  const canvas = Object.assign(document.createElement("canvas"), { width: SMALL_WIDE, height: SMALL_HIGH, role: "img", ariaLabel: "Its screen" });
  const image = new ImageData(SMALL_WIDE, SMALL_HIGH), pixels = new Uint32Array(image.data.buffer);
  for (let at = 0; at < SHADES; at++) pixels[at] = 0xff000000 + 0x010101 * shades[at];
  canvas.getContext("2d")?.putImageData(image, 0, 0);
  return canvas;
}

/** Saves the screen that is shown as a PNG. */
export async function savePicture() {
  /** @type {Blob} */
  const content = await new Promise((resolve) => el("screen").toBlob((blob) => resolve(blob ?? new Blob()), "image/png"));
  download(`${app.work.name}-${shownCount()}.png`, content, "image/png");
}

/** Returns the dot under an event over the screen, which is in a box of the window: its x, and its y from the bottom.
 * @param {MouseEvent} event
 * @param {DOMRect} box */
export function dotAt({ clientX, clientY }, { left, top, width, height }) {
  /**
   * @param {number} value
   * @param {number} most
   */
  const inside = (value, most) => Math.max(0, Math.min(most, Math.floor(value)));
  return [inside(((clientX - left) * DOTS_WIDE) / width, DOTS_WIDE - 1), LINES - 1 - inside(((clientY - top) * LINES) / height, LINES - 1)];
}
