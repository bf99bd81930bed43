// @ts-check
/* What one panel asks of another: commands, by their names, which types.d.ts lists. The panel that does one offers it; who asks imports no panel. */

export const commands = /** @type {Commands} */ ({});

/** Says how some commands are done.
 * @param {Partial<Commands>} some */
export function offer(some) {
  Object.assign(commands, some);
}
