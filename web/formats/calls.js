// @ts-check
/* Open calls as the library writes them: 24 bytes each, oldest first. The workers pass them on so, and the page reads them. */

export const CALL_BYTES = 24;

/** Returns how many calls are in some bytes.
 * @param {Bytes} bytes */
export const callsIn = (bytes) => bytes.length / CALL_BYTES;

/** Returns a call of a list, by its number.
 * @param {Bytes} bytes
 * @param {number} number
 * @returns {Call} */
export function callAt(bytes, number) {
  const view = new DataView(bytes.buffer, bytes.byteOffset + CALL_BYTES * number, CALL_BYTES), word = (/** @type {number} */ at) => view.getUint32(at, true);
  return { count: Number(view.getBigUint64(0, true)), at: word(8), to: word(12), back: word(16), sp: word(20) };
}
