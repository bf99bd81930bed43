/* Which calls are open, where they are over, and in which procedure the machine is: against the definition of calls, which is followed naively over single steps. */
"use strict";

const {
  AT, Desk, Fresh, callAt, chance, example, expect, fail, field, labels, readRecording, withNumbers,
} = require("./workers.js");

const COUNTS = 400, CODE = 64, NO_CALL = -1, STACK = 0x400;

/** A run of a session by single steps, from a state with no open calls: the stack at each count, the turns, and up to where the machine did instructions. */
function followed({ machine, inputs }, end) {
  const first = machine.count, stacks = [[]], turns = [];
  let stop = end;
  for (let count = first; count < end; count++) {
    const before = machine.state.slice(), pc = field(before, AT.PC), word = pc < 262144 ? machine.word(pc) : 0, isOn = !field(before, AT.stop), open = stacks[count - first];
    machine.advance(inputs, count + 1);
    const to = machine.part("PC"), isDone = isOn && !machine.part("stop");
    if (isOn && !isDone) stop = count + (pc < 262144 ? 1 : 0);
    const turn = isDone && word >>> 30 === 3 && to !== pc + 1 ? turnOf(open, { count, at: pc, to, back: pc + 1, sp: field(before, AT.R + 56) }, word >>> 28 & 1) : null;
    stacks.push(turn ? [...open.slice(0, turn.stay), ...(turn.call ? [turn.call] : [])] : open);
    if (turn && (turn.call || turn.stay < open.length)) turns.push(turn);
  }
  return { first, stacks, turns, stop, at: (count) => stacks[count - first] };
}

/** What a branch that is taken makes of the open calls, oldest first: how many stay, and the call that it is, if it is one. */
function turnOf(open, branch, links) {
  const returns = (call) => call.back === branch.to && call.sp === branch.sp, again = (call) => links && call.at === branch.at && call.sp === branch.sp;
  const over = open.findIndex((call) => returns(call) || again(call) || branch.sp > call.sp);
  return { count: branch.count, stay: over < 0 ? open.length : over, call: links && !open.some(returns) ? branch : null };
}

const top = (stack) => stack.at(-1)?.to ?? NO_CALL;
const callsOf = ({ calls }) => Array.from({ length: calls.length / 24 }, (_, number) => callAt(calls, number));

/** Programs that call, return, jump, move R14, write their code, wait for keys, and sometimes stop. */
function drawn(random) {
  const length = 4 + random(28), jump = (kind, from, to) => ((kind << 24) | ((to - from - 1) & 0x3fffff)) >>> 0;
  const wordAt = (at) => {
    const to = random(length), step = 4 * random(3);
    const of = [
      jump(0xf7, at, to), jump(0xf7, at, to), jump(0xf7, at, to), jump(0xf9, at, to), 0xc700000f, 0xc700000f, 0xc700000f, 0xd700000f, jump(0xe7, at, to),
      jump(0xe1, at, to), 0x4ee90000 + step, 0x4ee90000 + step, 0x4ee80000 + step, 0xafe00000, 0x8fe00000, 0x4e000000 + STACK, 0x41000000 + to, 0xa1200000 + 4 * to,
      0xd7000003, 0x43000000 + 4 * to, 0x40090001, 0x0c00000e, 0x0e00000c, 0x84500018, jump(0xe7, at, at), jump(0xe7, at, at + 1), 0x84600000,
    ];
    return of[random(of.length - (random(8) ? 1 : 0))] >>> 0;
  };
  const words = Array.from({ length: CODE }, (_, at) => (at < length ? wordAt(at) : jump(0xe7, at, 0))), r = Array(16).fill(0);
  Object.assign(r, { 0: 5, 5: 0xffffffc0, 6: 0x800000, 12: STACK, 14: STACK });
  const inputs = Array.from({ length: 6 }, () => [random(COUNTS), random(2) ? "key" : "switches", random(200)]).sort(([one], [other]) => one - other);
  return sessionOf(words, { start: { R: r, H: 0, PC: 0, flags: 0 }, inputs });
}

const sessionOf = (words, more = {}) => ({
  ...example("counts"), inputs: [], checkpoints: [], pages: [{ at: 0, hex: Buffer.from(new Uint32Array(words).buffer).toString("hex") }], ...more,
});

/** The calls of random programs, at counts in random order, with little room and with many keyframes, as the definition has them. */
async function follow() {
  const desk = new Desk(withNumbers({ KEYFRAME_STEPS: 60, KEYFRAME_MS: 0, TURNS: 5, FIRST_ROOM: 2 })), random = chance(23);
  let asked = 0, most = 0, ended = 0;
  for (let program = 0; program < 40; program++) {
    const session = drawn(random), run = followed(new Fresh(session), COUNTS), span = () => [random(COUNTS + 1), random(COUNTS + 1)].sort((one, other) => one - other);
    await desk.openSession(session);
    await desk.run(COUNTS);
    for (const at of [0, COUNTS, ...Array.from({ length: 14 }, () => random(COUNTS + 1))]) {
      const found = await desk.past.calls(at, "test");
      expect(`the calls of program ${program} at ${at}`, [callsOf(found), found.at, found.first, found.since], [run.at(at), at, 0, 0]);
      [asked, most] = [asked + 1, Math.max(most, run.at(at).length)];
      if (run.at(at).length) ended += await end(desk, run, at, 1 + random(run.at(at).length));
    }
    const [from, to] = span(), width = [1, 3, 40][program % 3];
    if (from < to) expectFrames(`program ${program}`, await wholeOf(desk, { from, to, width }), run);
  }
  desk.end();
  if (most < 4 || ended < 100) fail(`too little was called: ${most} open at most, ${ended} ended`);
  console.log(`calls: ${asked} stacks of 40 random programs, up to ${most} open, ${ended} ends of them, and flame graphs as the definition has them`);
}

/** The calls of a span as the lane has them, once all of them are known. */
async function wholeOf(desk, span) {
  for (let found; ; ) if ((found = await desk.past.frames({ ...span, rows: 32 }))?.upTo === span.to) return found;
}

/** Each call in [from, to) by its depth, in the order in which they end: what runs under no call is at depth 0. And which was the last open one at each count. */
function framesOf(run, from, to) {
  const all = [], stack = [{ depth: 0, begin: 0, entry: NO_CALL }], inner = [];
  for (const { count, stay, call } of run.turns.filter(({ count }) => count < to)) {
    while (stack.length > stay + 1) all.push({ ...stack.pop(), end: count + 1 });
    if (call) stack.push({ depth: stack.length, begin: count + 1, entry: call.to });
  }
  while (stack.length) all.push({ ...stack.pop(), end: Infinity });
  for (let count = from, begin = from; count < to; count++) {
    const entry = top(run.at(count)), isOver = top(run.at(count + 1)) !== entry;
    if (!isOver && count < to - 1) continue;
    inner.push({ begin, end: isOver ? count + 1 : Infinity, entry });
    begin = count + 1;
  }
  return { frames: all.filter(({ begin, end }) => begin < to && end > from), inner };
}

/** Expects the calls of a span to be those of the definition: long ones by themselves, and the others in the sums of their columns. */
function expectFrames(what, { from, to, width, base, depth, rows, top: last }, run) {
  const { frames, inner } = framesOf(run, from, to), common = Math.min(run.at(from).length, ...run.turns.filter(({ count }) => count >= from && count < to).map(({ stay }) => stay));
  expect(`${what}: the calls that are open all the time`, base, common);
  expect(`${what}: the depths`, depth, Math.max(run.at(from).length, ...frames.map((one) => one.depth)) + 1 - base);
  [...rows, last].forEach((row, at) => {
    const own = at < rows.length ? frames.filter((one) => one.depth === base + at) : inner, isLong = ({ begin, end }) => end - begin >= 2 * width;
    const long = Array.from(row.begins, (begin, number) => ({ begin, end: row.ends[number], entry: row.entries[number] }));
    const wanted = own.filter(isLong).map(({ begin, end, entry }) => ({ begin, end, entry })), named = at < rows.length ? `depth ${base + at}` : "the last open call";
    expect(`${what} from ${from} to ${to}, ${named}`, long, wanted);
    const sums = new Map();
    for (const { begin, end, entry } of own.filter((one) => !isLong(one))) {
      for (let column = Math.floor((Math.max(begin, from) - from) / width); from + column * width < end; column++) {
        const sum = sums.get(column) ?? { calls: 0, counts: new Map() }, counts = Math.min(end, from + (column + 1) * width) - Math.max(begin, from + column * width, from);
        sums.set(column, { calls: sum.calls + 1, counts: sum.counts.set(entry, (sum.counts.get(entry) ?? 0) + counts) });
      }
    }
    const columns = [...sums.keys()].sort((one, other) => one - other), { sums: found } = row;
    expect(`${what}, ${named}: the columns of shorter calls, and how many`, [[...found.columns], [...found.calls]], [columns, columns.map((column) => sums.get(column).calls)]);
    const most = columns.map((column) => Math.max(...sums.get(column).counts.values()));
    expect(`${what}, ${named}: the procedures of the most counts`, columns.map((column, number) => sums.get(column).counts.get(found.entries[number])), most);
  });
}

/** A long span comes in slices, each exact as far as it goes; a newer question ends one that is under way; and what was known of a span is gone on from if it grows. */
async function followLong() {
  const desk = new Desk(withNumbers({ FRAMES_MS: 0 })), session = example("recursive"), run = followed(new Fresh(session), 3000);
  await desk.openSession(session);
  await desk.run(3000);
  const given = { from: 1000, to: 2000, width: 2, rows: 32 }, seen = [];
  for (let found; !found || found.upTo < 2000; seen.push(found.upTo)) {
    found = await desk.past.frames(given);
    if (found.upTo > 1000) expectFrames(`up to ${found.upTo}`, { ...found, to: found.upTo }, run);
    if (seen.length > 5000) fail("the calls of a span do not come to its end");
  }
  expect("that it comes in slices", seen.length > 1 && seen.every((upTo, at) => at === 0 || upTo >= seen[at - 1]), true);
  expectFrames("a span that has grown", await wholeOf(desk, { ...given, to: 2600 }), run);
  // On a busy machine the older one may be answered before the newer one comes.
  let ended, other;
  for (let tries = 20; ended !== null && tries; tries--) [ended, other] = await Promise.all([desk.past.frames({ ...given, from: tries }), desk.past.frames({ ...given, to: 1500 })]);
  expect("the older of two questions", ended, null);
  if (other.upTo > 1000) expectFrames("the newer one", { ...other, to: other.upTo }, run);
  for (const [odd, why] of [[{ from: 5, to: 4 }, "a span goes from a count up to a count"], [{ width: 0 }, "a span goes from a count up to a count"], [{ to: 3001 }, "the machine has not come to 3001 yet"]])
    expect("a span that is refused", await desk.past.frames({ ...given, ...odd }).catch((error) => error.message), why);
  desk.end();
  console.log(`calls: a span of 1,000 counts came in ${seen.length} slices, each exact`);
}

/** Asks the past where fewer than `open` of the calls are open that are at a count. Returns whether there is such a place. */
async function end(desk, run, at, open) {
  const turn = run.turns.find(({ count, stay }) => count >= at && stay < open), { at: found } = await desk.past.ending({ place: "test", at, to: COUNTS, open });
  expect(`where fewer than ${open} calls are open that are at ${at}`, found, turn ? turn.count + 1 : null);
  return Boolean(turn);
}

/** The live machine runs to the end of a call, exactly there; a breakpoint on the way pauses it before. */
async function runToReturns() {
  const desk = new Desk(), session = example("recursive"), words = labels("recursive"), run = followed(new Fresh(session), 5000);
  await desk.openSession(session);
  const runBack = async (returns) => {
    const frames = desk.frames.length;
    await desk.live.ask("setRun", { on: true, fast: true, returns });
    while (!desk.frames.slice(frames).some((news) => news.state && !news.on)) await new Promise((resolve) => setTimeout(resolve, 5));
    return Number(new DataView(desk.frames.findLast((news) => news.state).state.buffer).getBigUint64(0, true));
  };
  const over = (at, open) => run.turns.find(({ count, stay }) => count >= at && stay < open).count + 1;
  let at = await runBack({ pc: words.sum });
  expect("where PC comes to a word", at, run.turns.find(({ call }) => call?.to === words.sum).count + 1);
  for (let steps = 0; steps < 12; steps++) {
    const { calls } = await desk.past.calls(at, "test"), open = run.at(at).length;
    expect(`the calls at ${at}`, callsOf({ calls }), run.at(at));
    const isOver = steps % 3 === 2 && open > 0, next = run.at(at + 1), isCall = next.at(-1)?.count === at;
    const wanted = isOver ? over(at, open) : isCall ? over(at + 1, next.length) : at + 1;
    at = await runBack({ calls, open: isOver ? open : null });
    expect(isOver ? "the end of the procedure" : "an instruction with what it calls", at, wanted);
    if (steps === 4) await desk.live.ask("step");
    if (steps === 4) at++;
  }
  const entered = run.turns.find(({ count, call }) => count > at && call?.to === words.sum).count;
  await desk.live.ask("setBreaks", { conditions: [{ kind: 1, from: words.leaf, end: words.leaf + 1 }] });
  while (at < entered) at = await runBack({ calls: (await desk.past.calls(at, "test")).calls, open: null });
  const { calls } = await desk.past.calls(at, "test"), leaf = run.turns.find(({ count, call }) => count >= at && call?.to === words.leaf).count + 1;
  expect("a breakpoint before the end of the call", await runBack({ calls, open: null }), leaf);
  expect("that the page hears of it", desk.frames.findLast((news) => news.met)?.met.at, leaf);
  desk.end();
  console.log("returns: a run goes exactly to where a call is over, or to a breakpoint before");
}

/** A machine that began at a checkpoint: its calls are those of the run from the beginning, unless the checkpoint claims another state. */
async function followFromCheckpoint() {
  const session = { ...example("recursive"), checkpoints: [300, 900] }, desk = new Desk(), run = followed(new Fresh(session), 1500), begun = new Fresh(session);
  begun.at(300);
  const since = followed(begun, 1500);
  await desk.openSession(session);
  await desk.run(1000);
  const { bytes } = await desk.live.ask("recording"), { claims } = readRecording(bytes), other = bytes.slice();
  // R9 of the first checkpoint.
  other[claims[1].at + AT.R + 36] ^= 1;
  for (const [given, isTrue] of [[bytes, true], [other, false]]) {
    await desk.open("openRecording", { bytes: given, checkpoint: 1 });
    await desk.run(1500);
    for (const at of [300, 1400, 777, 200]) {
      const found = await desk.past.calls(at, "test"), isSince = !isTrue && at >= 300;
      expect(`the calls at ${at} of a machine that began at 300`, [callsOf(found), found.since], [isSince ? since.at(at) : run.at(at), isSince ? 300 : 0]);
    }
  }
  desk.end();
  console.log("checkpoints: the calls of a machine that began at one are those of the run before it, and begin there if it is false");
}

module.exports = [follow, followLong, runToReturns, followFromCheckpoint];
