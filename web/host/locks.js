// @ts-check
/* The locks of what the browser keeps: one page writes an item, and another one that opens it has a copy. A browser without Web Locks, as for a page that is
 * served over plain http, has none that another page could have: there the last write counts. */

// What is being done here, by the id of an item or by a name.
/** @type {Set<string>} */
const underWay = new Set();

/** Does something with an item, or something that has a name, unless that is under way: of two clicks the first one counts, and the second one is not of another page.
 * Returns what was done; undefined if it is under way.
 * @template T
 * @param {string} name
 * @param {() => Promise<T>} task
 * @returns {Promise<T | undefined>} */
export async function oneAtATime(name, task) {
  if (underWay.has(name)) return undefined;
  underWay.add(name);
  try {
    return await task();
  } finally {
    underWay.delete(name);
  }
}

/** Takes the lock of an item: returns how to release it, or null if another page has it, or this one.
 * @param {string} id
 * @returns {Promise<(() => void) | null>} */
export function locked(id) {
  return new Promise((resolve) => {
    const free = () => resolve(() => {});
    /** @param {Lock | null} lock */
    const held = (lock) => (lock ? new Promise((release) => resolve(() => release(null))) : resolve(null));
    if (navigator.locks) navigator.locks.request(`galluspa-${id}`, { ifAvailable: true }, held).catch(free);
    else free();
  });
}
