/* Types that several modules use: what workers and page send each other, and what the browser keeps. They are for the checker alone (tsc). */

type Bytes = Uint8Array;
/** A function that does something now or later. */
type Task<T = unknown> = (...given: any[]) => T | Promise<T>;

type Library = import("./engine/library.js").Library;
type Inputs = import("./formats/inputs.js").Inputs;
type Work = import("./host/work.js").Work;
type Helper = import("./host/requests.js").Helper;
type Past = import("./host/pastclient.js").Past;

// Machines

/** A state, as include/galluspa.h lays it out, with the machine's memory. */
interface Memory {
  state: Bytes;
  words: Bytes;
}

/** An input as a session writes it: its count, its kind and its value. */
type Input = [number, string, number];

/** A checkpoint in the bytes of a recording: where it is, its count, and what was sent since the one before. */
interface Claim {
  at: number;
  count: number;
  sent: Bytes;
}

interface Recording {
  bytes: Bytes;
  version: number;
  pages: number;
  claims: Claim[];
  inputs: Inputs;
}

interface Session extends Memory {
  inputs: Inputs;
  checkpoints: number[];
}

/** A condition of a search, as include/galluspa.h has it. */
interface Condition {
  kind: number;
  from?: number;
  end?: number;
  value?: number;
  least?: number;
  most?: number;
}

/** Where a condition holds, and which of several it is. */
interface Hit {
  at: number;
  which: number;
}

/** All hits up to a count. */
interface Hits {
  hits: Hit[];
  end: number;
}

/** Numbers of a key and of a serial byte, each in the sequence of a run (engine/arrivals.js). */
interface Numbers {
  keys: number;
  serial: number;
}

/** What was typed and sent, and waits for the machine; and the number of the first of each. */
interface Waiting {
  keys: ArrayLike<number>;
  serial: ArrayLike<number>;
  taken: Numbers;
}

/** A change of the mouse or of the switches: its value, and its time since 1970 in ms. */
type Change = [number, number];

/** Why a recording is full, whether it ends there, and at which count. */
interface Full {
  why: string;
  isEnd: boolean;
  count: number;
}

/** At which return a run ends: where fewer than `open` calls are open of those that are now, or of those that are after the first instruction if that calls;
 * or where PC comes to a word. */
type Returning = { calls: Bytes; open: number | null } | { pc: number };

// What is kept

/** All of a machine but its state, which follows from its last checkpoint and the inputs after it. */
interface Begun {
  recording: Bytes;
  sentSince: Bytes;
  count: number;
  inputs: Bytes;
  waiting: Waiting;
}

/** All of a machine. One without its state is at its last checkpoint, and is played back up to a count. */
interface Whole extends Begun {
  live: Memory | null;
  marks?: number[];
  until?: number;
}

/** What came since a machine was written: `from` is the number of the first input, `until` the count up to which it ran. */
interface Since {
  from: number;
  inputs: Bytes;
  marks: number[];
  until: number;
  waiting: Waiting;
}

/** A symbol file as it was given: what it is called, and its bytes. */
interface SymbolFile {
  from: string;
  bytes: Bytes;
}

/** The sources that a machine was run from: the id of what is kept of them, which file was shown, and the names and texts of all at that time. */
interface Ran {
  id: string;
  file: string;
  sources: [string, string][];
}

/** Bytes of memory that are watched: the first address, and the one after the last. */
interface Watch {
  first: number;
  end: number;
}

/** What was looked at in a run: the word numbers of the breakpoints, the count of the cursor or null for now, the id of the source, or an empty text; the bytes that
 * are watched; and the notes, each with its count. */
interface DeskState {
  breaks: number[];
  cursor: number | null;
  source: string;
  watches: Watch[];
  notes: [number, string][];
}

/** A machine with only those pages of its memory that are not zero. */
interface PackedMemory extends Memory {
  pages: number[];
}

/** What is kept beside a machine: what it sent, what it was run from, and its names. */
interface Beside {
  sent: string;
  ran?: Ran;
  symbols?: SymbolFile;
}

/** A run that is kept, as it is read: with what came since its body was written. */
interface Kept extends Beside, Whole {
  by: string;
}

/** The body of a run that is kept: who wrote it, and the machine, with its state or up to which count it is played back. */
interface KeptRun extends Beside, Begun {
  by: string;
  live?: PackedMemory;
  marks?: number[];
  until?: number;
}

/** The head of an item: whose head it is, when it was written (in ms since 1970), the name of its project, and the bytes of its body. */
interface AnyHead {
  id: string;
  of: string;
  at: number;
  name: string;
  size: number;
}

/** Of a run: who wrote its body, and what came since then; its family, if it is a branch; up to which count it goes, and its inputs; the shades of its picture, what
 * was looked at, and whether it is listed by itself. */
interface RunHead extends AnyHead {
  by: string;
  since?: Since;
  family?: number;
  number?: number;
  parent?: number;
  until: number;
  inputs: number;
  shades?: Bytes;
  desk: DeskState;
  pinned?: boolean;
}

/** Of a source: which file was shown, with its caret, and the lines of all files that have breakpoints; how many files and lines it has. */
interface SourceHead extends AnyHead {
  desk: { file: string; caret?: [number, number]; breaks: number[][] };
  files: number;
  lines: number;
}

type Head = RunHead | SourceHead;

/** The branches beside the run that is open, and how many the family has had. */
interface Branches {
  list: Work[];
  made: number;
}

// What the live worker posts

/** What the page shows of the live machine. */
interface Frame {
  state: Bytes;
  dots: Bytes | null;
  listing: [number, number][];
  sent: string;
  generation: number;
  fork: number;
  fresh: { inputs: Bytes; marks: number[]; taken: Numbers };
  memory: number;
  on: boolean;
  isQuiet: boolean;
  goal: number | null;
  speed: { perSecond: number; busy: number } | null;
  frames: number;
  inputs: number;
  ahead: number;
  marks: number;
  planned: number;
  typed: number;
  serial: number;
  hasOwn: boolean;
  inputRefusal: string | null;
  isReplay: boolean;
  isTrue: boolean;
  full: Full | null;
  isAtLastCount: boolean;
  hasLastRoom: boolean;
}

/** What a replay found of a claim that it passed. */
interface Passed {
  number: number;
  count: number;
  part: string | null;
}

interface Uint8ArrayConstructor {
  /** Not every browser has it. */
  fromBase64?: (text: string) => Bytes;
}

interface Failure {
  refused?: string;
  broken?: string;
}

interface LiveNews extends Partial<Frame>, Failure {
  passed?: Passed[];
  met?: { generation: number; at: number; condition: Condition };
}

/** A machine that was opened, with what the browser is to keep of the one before. */
interface Opened {
  kind: string;
  program: number;
  claims: number[] | null;
  version?: number;
  inputs: number;
  checkpoints: number;
  left: Whole | null;
  begun: Begun | null;
  generation: number;
  fork: number;
}

/** What was made to be saved, at which count it ends, and why, if that is before the machine's. */
interface Made {
  bytes: Bytes;
  count: number;
  full?: string;
  isWhole: boolean;
}

/** What a checkpoint claims, and what has changed since the one before. */
interface Claimed {
  number: number;
  count: number;
  state: Bytes;
  dots: Bytes;
  sent: string;
  sentLength: number;
  pages: number[];
  before: Bytes | null;
  steps?: number;
}

/** The inputs of a span by columns, the checkpoints, and the last count that is known of. */
interface Lanes {
  keys: [number, number][];
  mouse: Bytes;
  serial: Bytes;
  disk: Bytes;
  listed: { [lane: string]: Input[] };
  marks: number[];
  planned: number[];
  end: number;
  from?: number;
  to?: number;
}

// What a worker that checks posts

interface Verdicted {
  line: string;
  status: number;
}

interface CheckNews extends Failure {
  done?: number;
  steps?: number;
  judged?: number;
  checkpoints?: number;
  slices?: Verdicted & { slices: number };
  estimate?: number;
}

/** What a verdict line says. */
interface ReadLine {
  accepted: { checkpoints: number; steps: number } | null;
  wrong: Wrong | null;
}

/** The first false checkpoint, and its first false part. */
interface Wrong {
  number: number;
  count: number;
  part: string;
}

type Judged = Verdicted & ReadLine;

/** The recording that is open. */
interface OpenFile {
  name: string;
  bytes: Bytes;
  claims: number[];
  version?: number;
  inputs: number;
  checkpoints: number;
  verdict: Judged | null;
}

// What the worker of the past answers

/** What is shown of a machine at a count: exactly that, or a near one. */
interface Moment {
  at: number;
  exact: boolean;
  count: number;
  state: Bytes;
  dots: Bytes;
  sent: number;
  isClaimed: boolean;
  listing?: { pc: number; word: number }[] | null;
  // What words did last before that, by their numbers.
  effects?: [number, string][] | null;
}

/** What the live machine of a number needs to resume at a count. */
interface Start extends Memory {
  generation: number;
  at: number;
  sent: number;
}

/** An instruction that was done: its word is null if PC is outside memory. */
interface Done {
  count: number;
  pc: number;
  word: number | null;
  inputs: [string, number][];
  changes: [string, string, string][];
  did: string;
  // The address of the first byte that it loads, or null.
  loads: number | null;
}

interface Found {
  at?: number;
  which?: number;
  none?: boolean;
  stopped?: boolean;
}

/** What is asked about: bits of memory, a register, or a part of a device. */
interface About {
  address?: number;
  bit?: number;
  mask?: number;
  register?: number;
  device?: string;
}

/** What wrote something: an instruction, an input, or nothing since the beginning. */
interface Written {
  at?: number;
  pc?: number;
  word?: number;
  state?: Bytes;
  input?: Input;
  initial?: boolean;
  stored?: Written | null;
  sure?: boolean;
  stopped?: boolean;
  request?: number;
}

/** A part of a machine that has a value: a register or H, by its name; some of the flags, by their letters; bytes of a word of memory, or of the LEDs, where bit i of
 * the mask is byte i; a bit of a word of the screen; or what inputs set, by its name in a state. */
interface ValuePart {
  register?: string;
  flags?: string;
  address?: number;
  mask?: number;
  bit?: number;
  device?: string;
}

/** A value that a part has before a count, and where it comes from: the instruction that wrote it and the values that this used, or where that ends. A number of an
 * instruction has no part. `role` says what the value is to the instruction that uses it, if that is not plain. */
interface Origin {
  part: ValuePart | null;
  value: number;
  before: number;
  role: "" | "address" | "carry";
  step: { count: number; pc: number; word: number } | null;
  end: "" | "constant" | "initial" | "taken" | "elsewhere" | "unfollowed";
  input: Input | null;
  from: Origin[];
}

interface Extent {
  counts: number[];
  bytes: number;
  count: number;
  end: number;
  generation: number;
}

/** A part of the timeline: how many lines of the screen changed in it, how many bytes were sent, and of each count at which the queue dropped keys how many it took. */
interface Cell {
  from: number;
  end: number;
  lines: number;
  sent: number;
  dropped: [number, number][];
}

/** The cells that are known, and whether all of them are. */
interface Changes {
  cells: Cell[];
  isDone: boolean;
}

/** How often the machine executed each word in [from, to): the words that it executed, and how often. */
interface Visited {
  from: number;
  to: number;
  words: Uint32Array;
  times: Float64Array;
}

/** An open call, as include/galluspa.h has it. */
interface Call {
  count: number;
  at: number;
  to: number;
  back: number;
  sp: number;
}

/** The calls that are open at a count, oldest first, as the library writes them, and the state there; the word at which the machine was before its first
 * instruction; and the count from which on calls were followed. */
interface Called {
  at: number;
  state: Bytes;
  calls: Bytes;
  first: number;
  since: number;
}

/** Calls of one depth by rising ends: the first count at which each was open, the first one at which it is not, which is Infinity if it has not returned by the
 * end of what is known, and the word that it goes to, or -1 for what runs under no call. Those that are too short are in sums of columns: how many there are, and the
 * word of the most counts. */
interface FrameRow {
  begins: Float64Array;
  ends: Float64Array;
  entries: Int32Array;
  sums: { columns: Int32Array; calls: Float64Array; entries: Int32Array };
}

/** The calls of [from, upTo) in columns of `width` counts: `top` has the last open call at each count; `rows` begin with the deepest call that is open all the
 * time, which has `base` calls and what runs under none above it, and of which there are `depth`. `followed` is the count up to which calls were followed; before
 * the beginning of the span nothing is known of it. */
interface Framed {
  from: number;
  to: number;
  upTo: number;
  followed: number;
  width: number;
  first: number;
  base: number;
  depth: number;
  top: FrameRow;
  rows: FrameRow[];
}

interface PastNews extends Failure {
  peeked?: Moment & { generation: number };
  searched?: { generation: number; request: number; done: number; of: number };
  lastWriter?: Written & { generation?: number };
  why?: { generation?: number; request?: number; values: Origin[] };
  counted?: { generation: number; to: number; done: number; of: number };
  followed?: { generation: number; request?: number; done: number; of: number };
}

/** A piece of a run that the search pool searches. */
interface Piece extends Memory {
  inputs: Bytes;
  to: number;
  steps: number;
  conditions?: Condition[];
  isLast?: boolean;
}

// What the worker that assembles answers

/** What is wrong with a source, at a line and a column, both counted from 1. */
interface Problem {
  file: string;
  line: number;
  column: number;
  text: string;
}

/** A program: its memory, its session without checkpoints, how many words it fills, its symbol file, and the byte address of each instruction,
 * with its line and its file. */
interface AssembledProgram {
  memory: Bytes;
  session: string;
  words: number;
  symbols: string;
  lines: [number, number, string][];
  inputs: number;
}

/** A source that was assembled: the first of its problems, how many there are, and its program if there are none. */
interface Assembled {
  problems: Problem[];
  number: number;
  program: AssembledProgram | null;
}

/** Where a line is. */
interface LinePlace {
  file: string;
  line: number;
}

/** The first line that both of two programs have whose instruction does something else in the one run than in the other, at these counts, and what it did in each; or,
 * where that is null, the line after which they go to different lines: 0 if no line was before, and where a machine stops. Lines are counted from 1. */
interface FirstLine {
  line: number;
  counts: [number, number];
  did: [string, string] | null;
  goes: [number, number];
}

/** Where two runs with the same inputs part: at the same count, or null, and up to which count they are the same; and by the lines that both sources have, up to which
 * counts of each run these do the same, pairs of counts of the two, each where their distance changes, and whether the time was over before the runs were. */
interface Parting {
  at: number | null;
  upTo: number;
  lines: {
    first: (Omit<FirstLine, "goes"> & { place: LinePlace | null; goes: (LinePlace | null)[] }) | null;
    upTo: [number, number];
    shifts: [number, number][];
    isLate: boolean;
  } | null;
}

/** What a lesson wants of a program at a count: parts of the state by their names, words of memory by their addresses, and what was sent. */
interface Wanted {
  at: number;
  sent?: string;
  memory?: { [address: string]: number };
  [part: string]: any;
}

// Requests

/** What each request is given, and what its answer is. */
interface Requests {
  start: [{ module: WebAssembly.Module }, boolean];
  startPacked: [{ packed: string }, WebAssembly.Module];
  openRecording: [{ bytes: Bytes; checkpoint: number }, Opened];
  openSession: [{ bytes: Bytes; isAlwaysKept?: boolean }, Opened];
  openImage: [{ image: Bytes; address: string; registers: string }, Opened];
  resume: [{ kept: Whole & { ran?: Ran; family?: number }; isOfFile?: boolean; isKeptOn?: boolean }, Opened];
  setRun: [{ on: boolean; fast?: boolean; goal?: number | null; seconds?: number; then?: { fast: boolean } | null; returns?: Returning | null }, void];
  setPace: [{ fast: boolean; seconds: number }, void];
  step: [{}, void];
  toCheckpoint: [{ fast: boolean; seconds: number }, void];
  takeOver: [Start | {}, { left: Whole | null; begun: Begun | null; fork: number } | null];
  setBreaks: [{ conditions: Condition[] }, void];
  keepToo: [{}, void];
  change: [{ kind: number; changes: Change[] }, string | null];
  type: [Partial<Waiting>, { fork: number; first: Numbers } | string];
  cancelSerial: [{}, void];
  mark: [{}, string | null];
  claimed: [{ number: number; of: number }, Claimed | null];
  claimedWhole: [{ number: number; of: number }, (Memory & { sent: Bytes }) | null];
  recording: [{}, Made];
  recordingTo: [Start, Made | null];
  kept: [{}, (Whole & { fork: number }) | null];
  begun: [{}, Begun & { fork: number }];
  lanes: [{ from: number; to: number; columns: number; of: number }, Lanes | null];
  inputNear: [{ at: number; isBefore: boolean }, number | null];
  check: [{ bytes: Bytes; whole?: number; size?: number }, Verdicted];
  peek: [{ generation?: number; at: number; quick?: boolean; hasEffects?: boolean }, Moment | null];
  memory: [{ generation?: number; at: number; from: number; length: number }, { at: number; bytes: Bytes } | null];
  output: [{ generation?: number; at: number; from: number }, { bytes: Bytes } | null];
  moment: [{ generation?: number; at: number }, Start | null];
  around: [{ generation?: number; at: number; before: number; after: number }, Done[] | null];
  effects: [{ generation?: number; at: number; before: number }, [number, string][] | null];
  find: [{ generation?: number; request?: number; from?: number; to: number; last?: boolean; conditions: Condition[] }, Found];
  hits: [{ generation?: number; from: number; to: number; conditions: Condition[] }, Hits | null];
  lastWriter: [About & { generation?: number; request?: number; before: number }, Written];
  why: [About & { generation?: number; request?: number; before: number; links: number }, { values?: Origin[]; stopped?: boolean }];
  recheck: [{ generation?: number; at: number }, { at?: number; part?: string | null; stopped?: boolean }];
  stopSearch: [{}, boolean];
  keyframes: [{}, Extent];
  assemble: [{ source: string; file: string; parts?: [string, string][] }, Assembled];
  judge: [{ source: string; file?: string; parts?: [string, string][]; claim: Wanted; seconds: number },
          { line: string | null; number: number; differing: [string, string, string][]; after: number | null } | null];
  seen: [{ bytes: Bytes }, Verdicted & { dots: Bytes }];
  handIn: [{ model: Bytes; own: Bytes; seconds: number }, (Verdicted & { counts: number[] }) | null];
  handInParting: [{ model: Bytes; own: Bytes; sources: [string, string][][]; seconds: number },
                  { at: number | null; lines: Parting["lines"]; where: LinePlace | null } | null];
  parting: [{ one: string; other: string; to: number; sources: [string, string][][]; seconds: number }, Parting | null];
  inputs: [{}, { inputs: Input[]; count: number }];
  visits: [{ generation?: number; from: number; to: number }, Visited | null];
  calls: [{ generation?: number; request?: number; place: string; at: number }, Called | null];
  ending: [{ generation?: number; request?: number; place: string; at: number; to: number; open: number }, { at: number | null } | null];
  stopCalls: [{ place: string }, void];
  frames: [{ generation?: number; from: number; to: number; width: number; rows: number }, Framed | null];
  words: [{ from: number; length: number; of: number }, Bytes | null];
  changes: [{ generation?: number; from: number; to: number; size: number; now: number; isOn: boolean }, Changes | null];
}

type RequestName = keyof Requests;

// Elements

/** The elements of the page that are more than an HTMLElement, by their names. */
interface Elements {
  screen: HTMLCanvasElement & { editContext?: EditContext; virtualKeyboardPolicy?: string };
  lanes: HTMLCanvasElement;
  file: HTMLInputElement;
  image: HTMLFormElement;
  "image-address": HTMLInputElement;
  "image-registers": HTMLInputElement;
  kept: HTMLDetailsElement;
  "project-name": HTMLInputElement;
  board: HTMLDialogElement;
  note: HTMLInputElement;
  run: HTMLButtonElement;
  step: HTMLButtonElement;
  continue: HTMLButtonElement;
  wrote: HTMLButtonElement;
  watch: HTMLButtonElement;
  "run-on": HTMLButtonElement;
  speed: HTMLSelectElement;
  each: HTMLInputElement;
  goto: HTMLInputElement;
  keys: HTMLSelectElement;
  "phone-keys": HTMLInputElement;
  "mouse-x": HTMLInputElement;
  "mouse-y": HTMLInputElement;
  "left-key": HTMLInputElement;
  "middle-key": HTMLInputElement;
  "right-key": HTMLInputElement;
  serial: HTMLTextAreaElement;
  "serial-form": HTMLFormElement;
  "serial-return": HTMLInputElement;
  "serial-file": HTMLInputElement;
  "claim-number": HTMLInputElement;
  "memory-at": HTMLInputElement;
  "code-form": HTMLFormElement;
  "code-at": HTMLInputElement;
  follow: HTMLInputElement;
  search: HTMLFormElement;
  "search-kind": HTMLSelectElement;
  "search-range": HTMLInputElement;
  "search-value": HTMLInputElement;
  "input-kind": HTMLSelectElement;
}

// What the checker's library does not have.

declare class EditContext extends EventTarget {
  text: string;
  updateText(from: number, to: number, text: string): void;
  updateSelection(from: number, to: number): void;
  addEventListener(type: string, task: (event: any) => void): void;
}

declare class CompressionStream {
  constructor(format: string);
  readable: ReadableStream;
  writable: WritableStream;
}

declare class DecompressionStream {
  constructor(format: string);
  readable: ReadableStream;
  writable: WritableStream;
}

interface String {
  isWellFormed(): boolean;
}

interface Array<T> {
  findLast(test: (item: T, at: number) => unknown): T | undefined;
  findLastIndex(test: (item: T, at: number) => unknown): number;
}

interface Uint8Array {
  findLastIndex(test: (byte: number, at: number) => unknown): number;
}

// What is published, by the names of the events (host/events.js)

interface Events {
  // What the browser keeps is another; a tab is in sight; hits, breakpoints or watches are others.
  kept: void;
  tab: string;
  forgot: void;
  breaks: void;
  watches: void;
  // Notes are others; a run has ended.
  pins: void;
  ended: void;
  // The user has the machine run or pause, or goes to another count: what was found is no longer said.
  running: void;
  looking: void;
  // The registers of another state are shown.
  registers: void;
  // A moment is shown, with what is seen only where the cursor stays; or the machine as it is now.
  moment: Moment;
  settled: Moment;
  now: Frame;
  // What the past says between its answers.
  searched: NonNullable<PastNews["searched"]>;
  wrote: NonNullable<PastNews["lastWriter"]>;
  why: NonNullable<PastNews["why"]>;
  counted: NonNullable<PastNews["counted"]>;
  followed: NonNullable<PastNews["followed"]>;
}

// What one panel asks of another (host/commands.js)

interface Commands {
  // Moves the cursor to a count, or shows the machine as it is now; a cursor that has not settled has more looks to come.
  moveCursor(count: number, isSettled?: boolean): Promise<void>;
  backToNow(isSettled?: boolean): Promise<void>;
  // Runs or pauses the machine; a run may have a goal, and continue live from there.
  setRun(isOn: boolean, how?: { fast?: boolean; goal?: number | null; then?: { fast: boolean } | null }): Promise<void>;
  // Asks who drew the dot under the mouse.
  askDot(event: PointerEvent): unknown;
  // Opens an example with some members changed, and runs it.
  openExample(name: string, changes?: {}): Promise<void>;
  // Opens something in place of what is open, unless the user keeps that.
  replaced<Name extends "openRecording" | "openSession" | "openImage">(name: string, ask: Name, given: Requests[Name][0]): Promise<Opened | null>;
  // Shows the sources of a program in the tab, one of them in its field.
  showSources(sources: import("./ui/source/sourceautosave.js").KeptPart[], more?: { file?: string; isEdited?: boolean }): void;
  // Resumes an item, or a branch.
  resumed(work: Work, id: string, branchesOf: (head: RunHead) => Branches | Promise<Branches>): Promise<Kept>;
  // Shows a lesson beside the source that is open.
  showLesson(lesson: import("./formats/project.js").Lesson): void;
  // Opens a page that was exported; or shows several, which were handed in, on a board.
  openPage(bytes: Bytes): Promise<void>;
  showBoard(files: { name: string; bytes: Bytes }[]): Promise<void>;
  // Shows a word of the code in the listing.
  showWord(word: number): void;
}
