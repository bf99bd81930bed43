// @ts-check
/* The page's first script: it unpacks the page's own one, and runs it. The policy of the page names the hashes of both. */
import { beginWorker, unpacked } from "./packed.js";

// A page that is exported has the machine as it is before anything changes it, and what follows up to this script, which ends it.
const script = document.currentScript, machine = document.getElementById("galluspa"), built = machine?.cloneNode(true);
Object.assign(globalThis, {
  machineAsBuilt: () => {
    const copy = document.createElement("div");
    for (let node = /** @type {Node | null} */ (machine); node; node = node === script ? null : node.nextSibling)
      copy.append((node === machine && built ? built : node).cloneNode(true));
    return `${copy.innerHTML}\n`;
  },
});

/** @param {Bytes} bytes */
function runScript(bytes) {
  document.head.append(Object.assign(document.createElement("script"), { textContent: new TextDecoder().decode(bytes) }));
}

/** @param {Error} error */
function showFailure(error) {
  const notice = document.getElementById("g-notice");
  if (notice) notice.textContent = `This browser cannot run the page: ${error.message}`;
}

/** Keeps the clicks on buttons that come before the page's script handles them. The returned function repeats them, and keeps no more.
 * @returns {() => void} */
function keepClicks() {
  /** @type {HTMLElement[]} */
  const clicked = [];
  /** @param {Event} event */
  const keep = ({ target }) => {
    const button = target instanceof Element ? target.closest("button") : null;
    if (button?.type === "button") clicked.push(button);
  };
  addEventListener("click", keep, true);
  return () => {
    removeEventListener("click", keep, true);
    for (const button of clicked) button.click();
  };
}

const wholePage = document.readyState === "loading" ? new Promise((goOn) => addEventListener("DOMContentLoaded", goOn)) : Promise.resolve();
const clickAgain = keepClicks();
Promise.all([unpacked("main"), beginWorker("worker", "module")]).then(([bytes]) => runScript(bytes)).then(() => wholePage).then(clickAgain).catch(showFailure);
