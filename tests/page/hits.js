/* Searches in the past, against a loop of single steps and against one search from the beginning; and how they end. */
"use strict";

const { readFileSync } = require("fs");
const { join } = require("path");
const {
  AT, FOLDER, Desk, Fresh, chance, example, expect, expectMoment, field, labels, sorted, stopped, withNumbers, COUNTER, STORE, CHANGE, LOAD, BECOMES, SENDS, SENDS_BYTE, TAKES, STOPS,
} = require("./workers.js");

const TIMER_ADDRESS = 0xffffc0;

/** What each instruction of a session does, in the words of the header, by single steps. */
function traced(session, end) {
  const fresh = new Fresh(session), { machine, inputs } = fresh, steps = [];
  for (let count = 0; count < end; count++) {
    const before = machine.state.slice(), sent = machine.sent, pc = field(before, AT.PC), word = pc < 262144 ? machine.word(pc) : 0, isOn = !field(before, AT.stop);
    const memory = word >>> 30 === 2, address = (field(before, AT.R + 4 * (word >>> 20 & 15)) + (word << 12 >> 12)) & 0xffffff, isByte = word >>> 28 & 1;
    const range = memory ? [isByte ? address : address & ~3, isByte ? address + 1 : (address & ~3) + 4] : [0, 0];
    const old = memory && address < 1048576 ? machine.word(address >> 2) : 0;
    const taken = Array.from({ length: inputs.from(count + 1) - inputs.from(count) }, (_, at) => inputs.kind(inputs.from(count) + at));
    machine.advance(inputs, count + 1);
    const after = machine.state.slice(), isDone = isOn && !field(after, AT.stop), byte = machine.sent > sent ? field(before, AT.R + 4 * (word >>> 24 & 15)) & 255 : null;
    steps.push({ pc, isOn, code: word, taken, before, after, byte, stops: isOn && !isDone, stored: isDone && word >>> 29 === 5 ? range : [0, 0],
                 loaded: isDone && word >>> 29 === 4 ? range : [0, 0], word: address >> 2, changed: memory && address < 1048576 ? old ^ machine.word(address >> 2) : 0 });
  }
  return steps;
}

const meet = ([from, end], one) => from < one.end && one.from < end;
const registerOf = (state, number) => field(state, number < 16 ? AT.R + 4 * number : number === 16 ? AT.H : AT.flags);
const HOLDS = {
  [COUNTER]: (step, { from, end }) => step.isOn && step.pc >= from && step.pc < end,
  [STORE]: (step, wanted) => meet(step.stored, wanted),
  [CHANGE]: (step, { from, end, value }) => [0, 1, 2, 3].some((at) => 4 * step.word + at >= from && 4 * step.word + at < end && (step.changed & value) >>> (8 * at) & 255),
  [LOAD]: (step, wanted) => meet(step.loaded, wanted),
  [BECOMES]: (step, { from, value }) => registerOf(step.before, from) !== value && registerOf(step.after, from) === value,
  [SENDS]: (step) => step.byte !== null,
  [SENDS_BYTE]: (step, { value }) => step.byte === value,
  [TAKES]: (step, { value }) => step.isOn && step.taken.includes(value),
  [STOPS]: (step) => step.stops,
};

// `data` is where mixed.asm has its words.
const wantedOf = (data) => [
  [{ kind: COUNTER, from: 7, end: 9 }], [{ kind: COUNTER, from: 4, end: 5 }], [{ kind: STORE, from: data, end: data + 1 }],
  [{ kind: STORE, from: TIMER_ADDRESS + 4, end: TIMER_ADDRESS + 8 }], [{ kind: CHANGE, from: data + 4, end: data + 8, value: 0x0800 }],
  [{ kind: CHANGE, from: data, end: data + 4, value: 0x80 }], [{ kind: CHANGE, from: data + 8, end: data + 12, value: 0xffffffff }],
  [{ kind: LOAD, from: TIMER_ADDRESS + 28, end: TIMER_ADDRESS + 29 }], [{ kind: LOAD, from: data + 6, end: data + 7 }],
  [{ kind: BECOMES, from: 5, value: 150 }], [{ kind: BECOMES, from: 17, value: 4 }], [{ kind: SENDS }], [{ kind: SENDS_BYTE, value: 98 }],
  [{ kind: TAKES, value: 4 }], [{ kind: TAKES, value: 3 }], [{ kind: STOPS }],
  [{ kind: SENDS_BYTE, value: 1 }, { kind: COUNTER, from: 9, end: 10 }, { kind: STORE, from: data, end: data + 8 }],
];

/** The first and the last hits of each condition are those of a loop of single steps, at borders of ranges and of keyframes. */
async function search() {
  const session = example("mixed"), end = 5000, steps = traced(session, end), random = chance(17);
  const desk = new Desk(withNumbers({ KEYFRAME_STEPS: 700, KEYFRAME_MS: 0, FIRST_PIECE: 70, MOST_PIECE: 1500 }));
  await desk.openSession(session);
  await desk.run(end);
  await desk.past.peek(end);
  const { counts } = await desk.past.keyframes(), border = () => counts[random(counts.length)] + random(3) - 1;
  let number = 0, found = 0;
  for (const conditions of wantedOf(4 * labels("mixed").data)) {
    const held = steps.map((step) => conditions.findIndex((wanted) => HOLDS[wanted.kind](step, wanted)));
    const hits = held.flatMap((which, at) => (which < 0 ? [] : [at]));
    const near = hits.length ? [hits[0], hits[0] + 1, hits.at(-1), hits.at(-1) + 1] : [0];
    const ranges = [[0, end], [near[0], near.at(-1)], [near[1] ?? 0, border()], [border(), border()]];
    for (const [from, to] of ranges.map(sorted).map((ends) => ends.map((at) => Math.max(0, Math.min(at, end))))) {
      for (const last of [false, true]) {
        const at = (last ? hits.findLast((hit) => hit >= from && hit < to) : hits.find((hit) => hit >= from && hit < to)) ?? null;
        const wanted = at === null ? { none: true } : { at, which: held[at] };
        expect(`the ${last ? "last" : "first"} hit of ${JSON.stringify(conditions)} from ${from} to ${to}`, await desk.past.find({ from, to, last, conditions }), wanted);
        number++;
        found += at !== null;
      }
    }
  }
  for (const [conditions, why] of [[[{ kind: 12 }], "a number is out of its range"], [[], "want 1 to 64 conditions"]])
    expect("a search that is refused", await desk.past.find({ to: end, conditions }).catch((error) => error.message), why);
  desk.end();
  console.log(`searches: ${found} hits and ${number - found} times none, first and last, as a loop of single steps has them`);
}

/** Who wrote a dot, a byte and a register is what one search from the beginning says. */
async function who() {
  await whoOfFace();
  const session = example("dots"), { clear, first, second } = labels("dots"), desk = new Desk(withNumbers({ KEYFRAME_STEPS: 2000, KEYFRAME_MS: 0 })), fresh = new Fresh(session), end = 20000;
  await desk.openSession(session);
  await desk.run(end);
  await desk.past.peek(end);
  const whole = (conditions) => fresh.find(end, conditions, true);
  const [byte, twice] = [950016 + 100, 950016 + 228];
  const again = await desk.past.lastWriter({ address: byte, bit: 3, before: end }), change = { kind: CHANGE, from: byte, end: byte + 1, value: 8 };
  expect("the dot that was cleared and drawn again", [again.at, again.sure, again.stored], [whole([change]).at, true, null]);
  const { counts } = await desk.past.keyframes(), gap = counts.findLast((count) => count <= again.at);
  expect("whether it was cleared in the same gap", whole([{ kind: COUNTER, from: clear, end: clear + 1 }]).at > gap, true);
  const earlier = await desk.past.lastWriter({ address: byte, bit: 3, before: again.at });
  expect("what cleared it", earlier.pc, clear);
  expect("the dot that was never written", await desk.past.lastWriter({ address: byte + 1, bit: 0, before: end }), { initial: true, stored: null, sure: true });
  const same = await desk.past.lastWriter({ address: twice, before: end });
  expect("the byte that got the same value again", [same.pc, same.stored.pc], [first, second]);
  for (const [asked, why] of [[{ register: 18 }, "18 is not a register: want 0 to 17"], [{ device: "rate" }, "rate is not a part of a device that something sets"], [{ address: 1048576 }, "want a byte of the memory, and a bit of it"]])
    expect("a question that is refused", await desk.past.lastWriter({ ...asked, before: end }).catch((error) => error.message), why);
  const { at } = await desk.past.lastWriter({ register: 6, before: end });
  expect("what set R6", at, whole([{ kind: BECOMES, from: 6, value: field(fresh.at(end).state, AT.R + 24) }]).at);
  expect("a register that nothing set", await desk.past.lastWriter({ register: 12, before: end }), { initial: true, sure: true });
  desk.end();
  console.log("who: a dot cleared and drawn again between two keyframes, one never written, a byte written twice, and registers");
}

/** What set a part of a device is the last access to its word, or the last input, as a search for each from the beginning says. */
async function whoSetDevices() {
  const session = example("mixed"), desk = new Desk(withNumbers({ KEYFRAME_STEPS: 700, KEYFRAME_MS: 0 })), fresh = new Fresh(session), end = 5000;
  await desk.openSession(session);
  await desk.run(end);
  const accessed = { LEDs: [STORE, 4], serial: [LOAD, 8], keys: [LOAD, 28] }, given = { mouse: 3, serial: 5, keys: 4, switches: 2 };
  for (const before of [30, 300, 301, 310, 1202, 2000, 2700, end]) {
    for (const device of ["LEDs", "mouse", "serial", "keys", "switches"]) {
      const [kind, offset] = accessed[device] ?? [], from = TIMER_ADDRESS + offset;
      const access = kind ? fresh.find(before, [{ kind, from, end: from + 4 }], true)?.at : undefined;
      const input = given[device] ? fresh.find(before, [{ kind: TAKES, value: given[device] }], true)?.at : undefined;
      const found = await desk.past.lastWriter({ device, before }), isAccess = access !== undefined && access >= (input ?? 0);
      expect(`what set ${device} before ${before}`, [found.at, Boolean(found.input), Boolean(found.initial)],
             [isAccess ? access : input, !isAccess && input !== undefined, access === undefined && input === undefined]);
      if (isAccess) expect("its instruction", [found.pc, found.state], [field(fresh.at(access).state, AT.PC), fresh.at(access).state]);
    }
  }
  desk.end();
  console.log("devices: what set LEDs, mouse, switches, the serial line and the keys, at 8 counts");
}

async function whoOfFace() {
  const desk = new Desk(), recording = readFileSync(join(FOLDER, "face.orsr")), session = example("face");
  await desk.open("openRecording", { bytes: new Uint8Array(recording), checkpoint: 1 });
  await desk.run(9000000);
  const [x, y] = [600, 219], address = 950016 + 128 * y + (x >> 3), fresh = new Fresh(session);
  const { at, pc, word, sure } = await desk.past.lastWriter({ address, bit: x & 7, before: 9000000 });
  expect("who drew a dot of the face", [at, sure], [fresh.find(9000000, [{ kind: CHANGE, from: address, end: address + 1, value: 1 << x % 8 << 8 * (address % 4) }], true).at, true]);
  expect("its instruction", [pc, word], [field(fresh.at(at).state, AT.PC), fresh.machine.word(pc)]);
  expect("what came first", desk.news.filter((news) => news.lastWriter).map((news) => [news.lastWriter.at, news.lastWriter.sure]), [[at, false]]);
  const claimed = await desk.past.peek(3000000);
  expectMoment("a look before the checkpoint at which the machine began", claimed, fresh.at(3000000));
  desk.end();
}

/** A search is ended at once, a look comes before it, and an answer about another machine is void. */
async function stop() {
  const session = example("counts"), desk = new Desk(), end = 150000000, none = [{ kind: STORE, from: 900000, end: 900001 }];
  await desk.openSession(session);
  await desk.run(end);
  const took = await stopped(desk, "a search", (k) => desk.past.find({ to: end, conditions: none, last: k === 1 }));
  let isOver = false;
  const searching = desk.past.find({ to: end, conditions: none, request: 5 }).finally(() => (isOver = true)), looks = [];
  for (const at of [end - 1000, 1000000, end / 2]) {
    const begun = performance.now();
    expect("a look during a search", [(await desk.past.peek(at)).count, isOver], [at, false]);
    looks.push(performance.now() - begun);
  }
  const isTold = () => desk.news.some((news) => news.searched?.of === end && news.searched.request === 5);
  while (!isTold() && !isOver) await new Promise((resolve) => setTimeout(resolve, 20));
  expect("that a search says how far it is", [isTold(), isOver], [true, false]);
  const other = desk.past.find({ to: 1000, conditions: none });
  expect("a search that a newer one ended, and that one", [await searching, await other], [{ stopped: true }, { none: true }]);
  const late = [desk.past.peek(end - 5), desk.past.memory(77, 0, 8), desk.past.find({ to: end, conditions: none })], mixed = desk.openSession(example("mixed"));
  desk.past.begin(2);
  expect("answers about another machine", await Promise.all(late), [null, null, null]);
  await mixed;
  expect("a look at the new machine", (await desk.past.peek(0)).count, 0);
  desk.end();
  console.log(`stops: a search ends in ${took} ms, looks during one take ${looks.map((ms) => ms.toFixed(0)).join(", ")} ms, and answers about another machine are void`);
}

module.exports = [search, who, whoSetDevices, stop];
