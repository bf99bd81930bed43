// @ts-check
/* The verdict lines that the page shows, each in a place of its own: that of the file that is open, and that of the recording that
 * was saved. Each check has a worker of its own. */
import { app } from "../../host/app.js";
import { el, made, named, notice, set } from "../../host/elements.js";
import { faultText, readLine } from "../../formats/lines.js";
import { Helper } from "../../host/requests.js";
import { perSecond, secondsOf } from "../../host/shown.js";
import { countOf, PER_SECOND } from "../../formats/states.js";
import { grouped, many, timeText } from "../../formats/texts.js";

export const STATUSES = ["accepted", "false", "refused"];
const OF_ONE_CALL = "This line is that of one call of the proved check, over the whole recording.";

/** Returns a headline in parts: how much machine time was checked is left out in a narrow window.
 * @param {string} text */
function headlineParts(text) {
  const [, before, spare, after] = /^(.*?)(, [\d.]+ s of machine time)(.*)$/.exec(text) ?? [];
  return spare === undefined ? [text] : [before, made("span", spare, "spare"), after];
}

/** A check that is under way: when it began, and what was heard of it.
 * @typedef {{ begun: number, done: number } & CheckNews} CheckWork */

/** A place for a verdict: the name of what is judged, its line, how that was computed, and during a check its progress. */
class Verdict {
  /** @type {Helper | null} */
  checker = null;
  /** @type {CheckWork | null} */
  work = null;
  timer = 0;
  // The line that is shown, its status, and what it says.
  /** @type {string | null} */
  line = null;
  /** @type {number | null} */
  status = null;
  read = readLine("");
  // How many inputs the machine had as it was saved, from which count on another run is open than what is judged, and what is said of what is not saved.
  inputs = Infinity;
  left = Infinity;
  unsaved = "";

  /** `place` begins the names of its elements, and `what` says what is judged.
   * @param {string} place
   * @param {string} what */
  constructor(place, what) {
    this.place = place;
    this.what = what;
  }

  /** @param {string} name */
  part(name) {
    return el(this.place + name);
  }

  /** Shows a line and how it was computed.
   * @param {string | null} line
   * @param {number | null} status
   * @param {string} how */
  show(line, status = null, how = "") {
    Object.assign(this, { line, status, read: readLine(line ?? ""), unsaved: "" });
    this.part("line").textContent = line ?? "";
    const isEmpty = this.read.accepted?.checkpoints === 0;
    this.part("line").className = `line ${status === null || isEmpty ? "note" : STATUSES[status]}`;
    this.showHeadline(headlineOf(this.read) || (line ?? ""));
    this.part("headline").className = this.part("line").className;
    this.part("how").textContent = how;
  }

  /** @param {string} text */
  showHeadline(text) {
    this.part("headline").replaceChildren(...headlineParts(text));
    this.part("headline").title = text;
  }

  /** Clears the place, and ends its check. */
  clear() {
    this.end();
    Object.assign(this, { work: null, inputs: Infinity, left: Infinity });
    this.show(null);
    this.part("judged").textContent = "";
  }

  /** Lets a worker check a recording. For a long one the joined line of its slices comes first. Returns the line of one call over
   * the whole, with its status and what it says; or null if the check is ended before.
   * @param {string} name
   * @param {Bytes} bytes */
  async check(name, bytes) {
    this.clear();
    this.part("judged").replaceChildren(`${this.what} `, named(name));
    const work = { begun: performance.now(), done: 0 };
    const checker = (this.checker = new Helper(app.module, (news) => this.heard(work, news)));
    this.timer = setInterval(() => this.progress(work, performance.now() - work.begun), 100);
    this.work = work;
    try {
      const answer = await checker.ask("check", { bytes });
      return answer && this.checker === checker ? this.judged(answer) : null;
    } finally {
      if (this.checker === checker) this.end();
    }
  }

  /** Shows a line that one call of the check gave.
   * @param {string} name
   * @param {Verdicted} verdicted */
  take(name, verdicted) {
    this.clear();
    this.part("judged").replaceChildren(`${this.what} `, named(name));
    return this.judged(verdicted);
  }

  /**
   * @param {Verdicted} verdicted
   * @returns {Judged}
   */
  judged({ line, status }) {
    const other = this.line;
    this.show(line, status, `${faultText(line)} ${OF_ONE_CALL}`.trim());
    if (other && other !== line) notice(`The slices came to another line, which this page's script or the browser got wrong: ${other}`, true);
    const { read } = this;
    if (this.upTo > this.left) this.clear();
    if (app.latest) showUnsaved(app.latest);
    return { line, status, ...read };
  }

  /** The count up to which the verdict is known. */
  get upTo() {
    return this.read.accepted?.steps ?? this.read.wrong?.count ?? -1;
  }

  /** Another run goes on from a count: a verdict on what came after that is not its.
   * @param {number} at */
  leave(at) {
    this.left = Math.min(this.left, at);
    if (this.upTo > at) this.clear();
  }

  /** Says how much of the run that is open came after what was judged; of two verdicts the later one says how much is not saved.
   * @param {Frame} frame
   * @param {boolean} isLater */
  follow({ state, inputs }, isLater) {
    const { accepted } = this.read, over = countOf(state) - this.upTo, more = inputs - this.inputs;
    if (!accepted?.checkpoints) return;
    const rest = over > 0 ? secondsOf(over, over < perSecond() ? 1 : 0) : more > 0 ? many(more, "input") : "";
    const unsaved = rest && `Verified to ${secondsOf(this.upTo, 1)}${isLater ? `, ${rest} not saved` : ""}`;
    if (unsaved === this.unsaved) return;
    this.unsaved = unsaved;
    this.showHeadline(unsaved || headlineOf(this.read));
  }

  /** Takes a report of the worker: the steps done; or the joined line of the slices, and about how long the whole will take.
   * @param {CheckWork} work
   * @param {CheckNews} news */
  heard(work, news) {
    if (!("steps" in news)) return notice(news.refused ?? news.broken, true);
    Object.assign(work, news);
    if (!news.slices) return;
    work.begun = performance.now();
    const { line, status, slices } = news.slices;
    this.show(line, status, `The proved check of ${grouped(slices)} slices gave this line, put together by this page's script.`);
  }

  /**
   * @param {CheckWork} work
   * @param {number} ms
   */
  progress({ done, steps, slices, estimate }, ms) {
    this.part("progress").hidden = ms < 300;
    const share = slices ? Math.min(0.97, ms / (estimate ?? 0)) : done / (steps ?? 0), bar = this.part("bar");
    if (share >= 0) bar.setAttribute("value", `${share}`);
    else bar.removeAttribute("value");
    const left = share ? `, about ${Math.max(1, Math.ceil((ms / share - ms) / 1000))} s left` : "";
    const what = slices ? `now the whole in one call, ${grouped(steps ?? 0)} steps` : steps ? `${grouped(done)} of ${grouped(steps)} steps` : "";
    this.part("left").textContent = what + left;
    if (!this.line) this.part("headline").textContent = `checking${share ? `, ${Math.floor(100 * share)} %` : " .."}`;
  }

  /** Ends the check, if there is one. */
  end() {
    clearInterval(this.timer);
    this.part("progress").hidden = true;
    this.checker?.end();
    this.checker = null;
  }

  /** Cancels the check by hand, and says what is known so far. */
  stop() {
    if (!this.checker || !this.work) return;
    this.end();
    if (this.line) this.part("how").textContent += " The check of the whole was cancelled.";
    else this.show("cancelled: no verdict", null, knownSoFar(this.work));
  }
}

/** Says in words what a verdict line says.
 * @param {ReadLine} read */
export function headlineOf({ accepted, wrong }) {
  if (wrong) return `False at checkpoint ${grouped(wrong.number)}: ${wrong.part}`;
  if (!accepted) return "";
  const { checkpoints, steps } = accepted, seconds = steps / PER_SECOND, time = seconds < 100 ? `${Number(seconds.toFixed(3))} s` : timeText(seconds);
  if (!checkpoints) return "Valid, claims nothing";
  return `Verified: ${many(checkpoints, "checkpoint")}, ${time} of machine time`;
}

/** Says what a check has found that was cancelled before it had a line.
 * @param {CheckWork} work */
function knownSoFar({ done, steps, judged, checkpoints }) {
  if (!steps) return "Nothing is known of it yet.";
  const found = judged ? `Up to checkpoint ${grouped(judged)} of ${grouped(checkpoints ?? 0)} all are true` : "No checkpoint was judged";
  return `${found}; ${grouped(done)} of ${grouped(steps)} steps were checked.`;
}

/** Another run goes on from a count.
 * @param {number} at */
export function leaveVerdicts(at) {
  verdicts.file.leave(at);
  verdicts.own.leave(at);
  if (!verdicts.file.line) set("show-false", { hidden: true });
}

/** Says how much of the run that is open is not saved.
 * @param {Frame} frame */
export function showUnsaved(frame) {
  const { file, own } = verdicts;
  file.follow(frame, file.upTo > own.upTo);
  own.follow(frame, own.upTo >= file.upTo);
}

export const verdicts = { file: new Verdict("", "The file"), own: new Verdict("own-", "The recording that you saved,") };
