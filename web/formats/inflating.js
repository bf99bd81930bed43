// @ts-check
/* How what the page contains in a packed form is unpacked, by the page and by its workers. */
import { joined } from "./states.js";

/** Unpacks a text: base64 of what is compressed as gzip. It fails if that is not so; of more than `most` bytes the rest is left packed.
 * @param {string} base64
 * @param {number} most */
export async function inflated(base64, most = Infinity) {
  const packed = Uint8Array.fromBase64?.(base64) ?? bytesOf(atob(base64));
  const { readable, writable } = new DecompressionStream("gzip"), writer = writable.getWriter(), reader = readable.getReader();
  // What is wrong with the bytes is said by the end that is read.
  for (const written of [writer.write(packed), writer.close()]) written.catch(() => {});
  /** @type {Bytes[]} */
  const pieces = [];
  let length = 0;
  for (let read; length <= most && !(read = await reader.read()).done; length += read.value.length) pieces.push(read.value);
  if (length > most) reader.cancel().catch(() => {});
  return joined(pieces);
}

/** Returns the characters of a text as bytes.
 * @param {string} text */
function bytesOf(text) {
  const bytes = new Uint8Array(text.length);
  for (let at = 0; at < text.length; at++) bytes[at] = text.charCodeAt(at);
  return bytes;
}
