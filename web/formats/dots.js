// @ts-check
/* The dots of the screen: where they are in the memory of the display, and the shades of a small picture of them. */

export const LINE_BYTES = 128, LINES = 768, DOTS_WIDE = 1024;
export const SMALL_WIDE = 128, SMALL_HIGH = 96;
const INK = 10;
// How many bytes the shades of a small picture are.
export const SHADES = SMALL_WIDE * SMALL_HIGH;

/** Returns whether a dot is set, as 1 or 0, by its place from the left and from the top.
 * @param {Bytes} dots
 * @param {number} x
 * @param {number} y */
export const isSet = (dots, x, y) => (dots[LINE_BYTES * (LINES - 1 - y) + (x >> 3)] >> (x & 7)) & 1;

/** Returns the shades of a small picture of dots: a byte for 8 by 8 of them, 255 for none.
 * @param {Bytes} dots */
export function shadesOf(dots) {
  const shades = new Uint8Array(SHADES);
  for (let at = 0; at < SHADES; at++) {
    let dark = 0;
    for (let line = 0; line < 8; line++) for (let bits = dots[LINE_BYTES * (LINES - 1 - 8 * Math.floor(at / SMALL_WIDE) - line) + at % SMALL_WIDE]; bits; bits &= bits - 1) dark += INK;
    shades[at] = Math.max(0, 255 - dark);
  }
  return shades;
}
