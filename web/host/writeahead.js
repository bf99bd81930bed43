// @ts-check
/* The write-ahead log of what is written while the page is being left. A browser drops a transaction that waits for another one once its page is gone;
 * what local storage was given is kept when the call returns. The next page writes to the database what is still logged. */

const PREFIX = "galluspa-log ", AT_ONCE = 1 << 15;

/** Records that are written together; the first one says when they were made.
 * @typedef {{ id: string, at?: number }[]} Group */

/** Logs records by the id of the first one. Returns how to take them out of the log. A browser that has no local storage, or no room in it, logs nothing.
 * @param {Group} records */
export function logged(records) {
  const key = `${PREFIX}${records[0].id}`;
  try {
    const text = textOf(records);
    localStorage.setItem(key, text);
    return () => localStorage.getItem(key) === text && localStorage.removeItem(key);
  } catch {
    return () => {};
  }
}

/** Returns the groups that are logged, each with how to take it out of the log. Other pages may have written them: what is no group is taken out.
 * @returns {{ records: any[], forget: () => void }[]} */
export function loggedGroups() {
  try {
    return Object.keys(localStorage).filter((key) => key.startsWith(PREFIX)).flatMap((key) => {
      const records = recordsIn(localStorage.getItem(key)), forget = () => localStorage.removeItem(key);
      if (!records) forget();
      return records ? [{ records, forget }] : [];
    });
  } catch {
    return [];
  }
}

/** Takes all out of the log. */
export function clearLog() {
  for (const { forget } of loggedGroups()) forget();
}

/** @param {string | null} text
 * @returns {Group | null} */
function recordsIn(text) {
  try {
    const records = JSON.parse(text ?? "", unpacked);
    return Number.isFinite(records[0].at) && records.every((/** @type {any} */ record) => typeof record.id === "string") ? records : null;
  } catch {
    return null;
  }
}

/** Returns a value as JSON, with bytes as base64.
 * @param {unknown} value */
export const textOf = (value) => JSON.stringify(value, packed);

/** @param {string} _
 * @param {any} value */
function packed(_, value) {
  if (!ArrayBuffer.isView(value)) return value;
  const bytes = new Uint8Array(value.buffer, value.byteOffset, value.byteLength);
  let text = "";
  for (let at = 0; at < bytes.length; at += AT_ONCE) text += String.fromCharCode(...bytes.subarray(at, at + AT_ONCE));
  return { base64: btoa(text) };
}

/** @param {string} _
 * @param {any} value */
function unpacked(_, value) {
  return typeof value?.base64 === "string" ? Uint8Array.from(atob(value.base64), (character) => character.charCodeAt(0)) : value;
}
