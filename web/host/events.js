// @ts-check
/* Events: the publisher of one does not know the panels that show it. The panels' tasks are listed in ui/panels.js. */

/** @type {{ [Name in keyof Events]?: ((given: Events[Name]) => void)[] }} */
const subscribed = {};

/** Runs tasks at each event of a name, in their order.
 * @template {keyof Events} Name
 * @param {Name} name
 * @param {((given: Events[Name]) => void)[]} tasks */
export function subscribe(name, ...tasks) {
  subscribed[name] = /** @type {any} */ ([...(subscribed[name] ?? []), ...tasks]);
}

/** Does the tasks of an event. It may have no news, as that something is kept.
 * @template {keyof Events} Name
 * @param {Name} name
 * @param {Events[Name]} [given] */
export function publish(name, given) {
  for (const task of subscribed[name] ?? []) task(/** @type {Events[Name]} */ (given));
}
