// @ts-check
/* Starts the page: its workers, and what its controls do. */
import { app, setMachine } from "../host/app.js";
import { askPart, makeRegisters, showClaim } from "./code/statetab.js";
import { showMe } from "./code/differences.js";
import {
  cancelSerial, compose, enterSends, letGo, listenToKeyboard, makeDevices, mouseByFields, pointed, pressed, sendFile, sendSerial, switched,
} from "./screen/devices.js";
import { playDemo } from "./screen/demo.js";
import { attempt, closeMenu, closeMenus, el, keepInWindow, notice, on } from "../host/elements.js";
import { heard } from "./frameupdates.js";
import { isUnsafe, KEEP_MS, keepAll } from "../host/keeping.js";
import "./files/board.js";
import { exportProject } from "./files/exporting.js";
import { forgetAll, pinOpen, renameOpen, showKept } from "./files/savedlist.js";
import { showFirst, showLessons } from "./source/lessons.js";
import { listenToListing } from "./code/listing.js";
import { heardPast } from "./timeline/cursormoves.js";
import { listenToMemory } from "./code/memory.js";
import { Past } from "../host/pastclient.js";
import { openOwn } from "./files/projects.js";
import { cancelImage, openChosen, openExample, openFiles, openImage, runOnFrom } from "./files/opening.js";
import { unpacked } from "../host/packed.js";
import { subscribePanels } from "./panels.js";
import { clearRefusal } from "./screen/refusal.js";
import { Helper, placeWorker } from "../host/requests.js";
import { listenToPins } from "./timeline/pinned.js";
import { mark, setRun, takeOver } from "./timeline/running.js";
import { saveRecording, saveToCursor } from "./files/saving.js";
import { fitScreen, savePicture, showFull } from "./screen/screen.js";
import { listenToSearch } from "./code/search.js";
import { everySeconds, isFast } from "../host/shown.js";
import { padPressed, playSnake } from "./screen/snake.js";
import { keepLineInSight, listenToSource } from "./source/source.js";
import { listenToNames } from "./code/symbolfiles.js";
import { showTab, tabByKey, TABS } from "./screen/tabs.js";
import { messageOf } from "../formats/texts.js";
import { drawLanes } from "./timeline/drawing.js";
import { freshen } from "./timeline/loading.js";
import { makeTimeline, measureTrack } from "./timeline/timeline.js";
import { listenToTime } from "./transport.js";
import { verdicts } from "./screen/verdicts.js";
import { isNoteUnsafe } from "../host/work.js";

function listen() {
  listenToFiles();
  listenToDevices();
  on("notice", "click", () => notice());
  on("full-screen", "click", showFull);
  el("full-screen").hidden = !document.fullscreenEnabled;
  on("save-screen", "click", savePicture);
  for (const name of TABS) on(`tab-${name}`, "click", () => showTab(name));
  for (const name of TABS) on(`tab-${name}`, "keydown", tabByKey);
  on("next", "click", () => app.live.ask("toCheckpoint", { fast: isFast(), seconds: everySeconds() }));
  on("take-over", "click", takeOver);
  for (const name of ["speed", "each"]) on(name, "change", () => app.live.ask("setPace", { fast: isFast(), seconds: everySeconds() }));
  on("make-checkpoint", "click", mark);
  listenToTime();
  listenToMemory();
  listenToSearch();
  listenToSource();
  on("lessons", "toggle", showLessons);
  listenToListing();
  listenToNames();
  listenToPins();
  listenToWindow();
}

/** Hears what opens, saves and checks, and the checkpoints of a file. */
function listenToFiles() {
  on("file", "change", ({ target }) => openChosen(target));
  on("draw", "click", () => openExample("draw"));
  on("face", "click", () => openExample("face"));
  for (const name of ["snake", "play"]) on(name, "click", playSnake);
  on("choose", "click", () => el("file").click());
  on("image", "submit", openImage);
  on("image-cancel", "click", cancelImage);
  on("save-recording", "click", saveRecording);
  on("save-cursor", "click", saveToCursor);
  on("show-false", "click", showMe);
  on("big-run", "click", () => setRun(true));
  on("forget-all", "click", forgetAll);
  on("project-name", "change", renameOpen);
  on("pin-run", "click", pinOpen);
  on("export", "click", exportProject);
  on("stop", "click", () => verdicts.file.stop());
  on("own-stop", "click", () => verdicts.own.stop());
  on("claim-number", "change", ({ target }) => showClaim(Number(target.value)));
  on("claim-before", "click", () => showClaim(Number(el("claim-number").value) - 1));
  on("claim-after", "click", () => showClaim(Number(el("claim-number").value) + 1));
  on("run-on", "click", () => runOnFrom(Number(el("claim-number").value)));
}

/** Hears keys, the mouse and the other devices. */
function listenToDevices() {
  listenToKeyboard();
  on("pad", "click", padPressed);
  on("switches", "change", switched);
  on("writer-leds", "click", () => askPart("LEDs"));
  on("mouse", "change", mouseByFields);
  on("serial-form", "submit", sendSerial);
  on("serial", "keydown", enterSends);
  on("serial-file", "change", ({ target }) => sendFile(target));
  on("serial-cancel", "click", cancelSerial);
  for (const type of ["keydown", "keyup"]) on("screen", type, pressed);
  on("screen", "blur", letGo);
  for (const type of ["pointermove", "pointerdown", "pointerup", "pointercancel"]) on("screen", type, pointed);
  on("screen", "contextmenu", (event) => event.preventDefault());
  compose();
}

function listenToWindow() {
  addEventListener("pointerdown", ({ target }) => closeMenus(target));
  addEventListener("keydown", ({ key, defaultPrevented }) => key === "Escape" && !defaultPrevented && closeMenu());
  const sheets = new ResizeObserver((all) => all.forEach(({ target }) => keepInWindow(target)));
  addEventListener("toggle", ({ target }) => {
    const menu = target instanceof HTMLDetailsElement ? target : null, sheet = menu?.querySelector(".sheet");
    if (sheet) sheets[menu?.open ? "observe" : "unobserve"](sheet);
  }, { capture: true });
  document.querySelector(".refusal")?.addEventListener("click", clearRefusal);
  addEventListener("resize", showSized);
  addEventListener("fullscreenchange", showSized);
  const above = new ResizeObserver(fitScreen);
  for (const part of [el("stay"), document.querySelector("#galluspa .top")]) if (part) above.observe(part);
  const keepAtOnce = () => keepAll({ isLeaving: true });
  setInterval(() => keepAll({ isByTime: true }), KEEP_MS);
  document.addEventListener("visibilitychange", () => (keepAtOnce(), keepAll({ isSaidAgain: true })));
  addEventListener("pagehide", keepAtOnce);
  addEventListener("beforeunload", (event) => {
    if (isUnsafe() || isNoteUnsafe()) event.preventDefault();
    keepAtOnce();
  });
}

/** Fits the page to its window. */
function showSized() {
  fitScreen();
  measureTrack();
  drawLanes();
  freshen(true);
  keepLineInSight();
}

function dropFiles() {
  addEventListener("dragover", (event) => event.preventDefault());
  addEventListener("drop", (event) => {
    event.preventDefault();
    const files = [...(event.dataTransfer?.files ?? [])];
    if (files.length) attempt(() => openFiles(files));
  });
}

/** Starts the machine. Returns whether this browser can run it. */
async function started() {
  // The worker starts while the page makes its parts. What fails is said after that.
  const begun = startLive();
  begun.catch(() => {});
  makeDevices();
  makeRegisters();
  makeTimeline();
  showSized();
  try {
    const { module, live } = await begun, past = new Past(module, heardPast);
    setMachine(module, live, past);
    past.connect(live);
  } catch (error) {
    notice(`This browser cannot run the module: ${messageOf(error)}`, true);
    return false;
  }
  subscribePanels();
  listen();
  dropFiles();
  return true;
}

/** Starts the worker of the live machine. One that was not begun with the module gets it from here. */
async function startLive() {
  await placeWorker();
  const live = new Helper(async () => WebAssembly.compile(await unpacked("module")), heard);
  return { module: await live.ready, live };
}

/** Starts the page. */
export async function begin() {
  if (!(await started())) return;
  document.body.dataset.ready = "yes";
  await openOwn();
  await showKept();
  await attempt(showFirst);
  await attempt(playDemo);
}
