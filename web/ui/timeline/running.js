// @ts-check
/* Runs the machine, and what is done with a machine that runs. */
import { app } from "../../host/app.js";
import { branchOff } from "./branches.js";
import { leaveVerdicts } from "../screen/verdicts.js";
import { offer } from "../../host/commands.js";
import { catchUp } from "../screen/devices.js";
import { el, notice } from "../../host/elements.js";
import { publish } from "../../host/events.js";
import { everySeconds, isFast, nowCount, setGoal, setStarting, setToGoOn } from "../../host/shown.js";

/** Runs or pauses the machine. A run goes up to a goal, if there is one, and may go on live from there.
 * @param {boolean} isOn
 * @param {{ fast?: boolean, goal?: number | null, then?: { fast: boolean } | null }} how */
export async function setRun(isOn, how = {}) {
  notice();
  setToGoOn(false);
  publish("running");
  setGoal(-1);
  setStarting(isOn);
  if (isOn) el("screen").focus({ preventScroll: true });
  try {
    await app.live.ask("setRun", { on: isOn, fast: isFast(), seconds: everySeconds(), ...how });
  } finally {
    setStarting(false);
  }
  if (isOn) catchUp();
}

/** Makes a checkpoint, or says why there is none. */
export async function mark() {
  const why = await app.live.ask("mark");
  notice(why ? `No new checkpoint: ${why}.` : "");
}

/** Ends a replay where it is. What is kept already stays as it is, as a branch. */
export async function takeOver() {
  notice();
  setToGoOn(!app.latest?.on);
  const answer = await app.live.ask("takeOver");
  if (!answer) return;
  if (app.work.head) branchOff(nowCount(), answer);
  else leaveVerdicts(nowCount()), await Object.assign(app.work, { fork: answer.fork, base: null }).follow(answer.begun);
  el("screen").focus({ preventScroll: true });
}

offer({ setRun });
