// @ts-check
/* What is refused. */

/** Bad input, or a request that cannot be met. Its message is one line for the user. */
export class Refused extends Error {}

/** Does a task that may be refused, and returns null if it is: the proved function that comes after it reports why.
 * @template T
 * @param {() => T} task
 * @returns {T | null} */
export function unlessRefused(task) {
  try {
    return task();
  } catch (error) {
    if (!(error instanceof Refused)) throw error;
    return null;
  }
}
