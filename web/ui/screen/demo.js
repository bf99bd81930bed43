// @ts-check
/* First sight: until a machine is opened, a recorded game is played on the screen, behind the cards. It runs in a worker that nothing else asks, so it is
 * neither recorded nor kept. */
import { app } from "../../host/app.js";
import { el, write } from "../../host/elements.js";
import { examples } from "../../host/packed.js";
import { SNAKE } from "./game.js";
import { Helper } from "../../host/requests.js";
import { drawSoon } from "./screen.js";

/** The worker that plays, or null.
 * @type {Helper | null} */
let demo = null;

/** Plays the game until a key or the mouse is pressed. Readers who want less motion see where it ends. */
export async function playDemo() {
  if (el("welcome").hidden) return;
  demo = new Helper(app.module, heardDemo);
  for (const type of ["keydown", "pointerdown"]) addEventListener(type, endDemo, { once: true, capture: true });
  document.addEventListener("visibilitychange", () => demo?.ask("setRun", { on: !document.hidden }));
  write("mode-text", "A recorded game. Any key ends it.");
  await beginDemo(matchMedia("(prefers-reduced-motion: reduce)").matches);
}

/** @param {boolean} fast whether the game ends at once */
async function beginDemo(fast) {
  const bytes = new TextEncoder().encode(JSON.stringify(examples()[SNAKE])), own = demo;
  if (!(await own?.ask("openSession", { bytes })) || own !== demo) return;
  await own?.ask("setRun", { on: true, fast });
}

/** Shows a frame of the game, and plays it again once it is over.
 * @param {LiveNews} news */
function heardDemo({ dots, on, isReplay }) {
  if (!demo) return;
  if (dots) drawSoon(dots);
  if (on === false && isReplay === false && !matchMedia("(prefers-reduced-motion: reduce)").matches) beginDemo(false);
}

/** Ends the game. What it showed last stays, until a machine is opened. */
export function endDemo() {
  if (!demo) return;
  demo.end();
  demo = null;
  write("mode-text", "Open a file, or try an example.");
}
