// @ts-check
/* The names and source lines of a program, looked up by address and by name. They are claims of whoever made the symbol file (symbolreader.js): they are shown
 * beside numbers, and decide nothing. All addresses are byte addresses:
 *   symbols.nameOf(address)  the names that reach an address: { start, offset, names, kind }, or null
 *   symbols.text(address)    the same as a text, as in `Texts.Write + 0x8`, or ""
 *   symbols.lineAt(address)  the line of the source that an instruction is of: { address, file, line }, or null
 *   symbols.places(name)     the addresses of a name, in rising order
 *   symbols.value(number)    the names of constants and of data that are exactly this number, as a text, or ""
 * `tests/page` compares them with tools/galluspa/formats/symbolfiles.py. */
import { Together, together, upper } from "./shownnames.js";

export const MOST_SYMBOL_LINES = 1 << 17;
/** The end of the values of constants. */
export const VALUES = 2 ** 32;
export const CODE = "t", DATA = "d", CONSTANT = "a", LINE = "l";
// How many bytes a name without a size reaches at most.
const REACH = 1 << 16;
// After about so many names the caller may rest.
const SLICE = 1024;

/** A name of an address, or of a constant: how many bytes it has, or 0 if that is not known, its kind, and the line of the source that defines
 * it, if that is known. `written` orders the names of one address: how the line of the file begins.
 * @typedef {{ address: number, size: number, kind: string, name: string, file: string, line: number, written: string[] }} Named */
/** A line of a source, of which the first instruction is at an address.
 * @typedef {{ address: number, file: string, line: number }} SourceLine */
/** The names that an address is shown with: the address at which they begin, how many bytes it is after that, what it is called there, and what
 * kind of name that is.
 * @typedef {{ start: number, offset: number, names: string, kind: string }} Place */

/** The names of a program and the lines of its source, which are looked up by address and by name. */
export class Symbols {
  // What is worked out once it is needed: the names by their spelling, and those that a number may mean.
  /** @type {Map<string, Named[]> | undefined} */
  byName = undefined;
  /** @type {Map<number, Named[]> | undefined} */
  values = undefined;
  /** @type {Set<string> | undefined} */
  allFiles = undefined;

  /** @type {Named[]} */
  all = [];
  /** @type {SourceLine[]} */
  lines = [];
  // The names of addresses, and the lines of sources by the different addresses at which they begin: of several the last one.
  /** @type {Named[]} */
  placed = [];
  /** @type {SourceLine[]} */
  lineStarts = [];
  /** @type {number[]} */
  lineAddresses = [];
  // The addresses that have names, where the names of each begin among all, and what they are called together, once that was asked.
  /** @type {number[]} */
  starts = [];
  firsts = [0];
  /** @type {Map<number, string>} */
  texts = new Map();
  /** @type {number[]} */
  bounds = [];
  /** @type {number[]} */
  owners = [];

  /** Takes names and lines, in pieces that the caller may rest between.
   * @param {Named[]} names
   * @param {SourceLine[]} lines */
  *filled(names, lines) {
    this.all = names;
    this.lines = lines;
    this.placed = byAddress(names.filter(({ kind }) => kind !== CONSTANT));
    yield;
    this.lineStarts = lastLines(byAddress(lines));
    this.lineAddresses = this.lineStarts.map(({ address }) => address);
    yield;
    Object.assign(this, groupsOf(this.placed));
    yield;
    Object.assign(this, stretchesOf(this.starts, this.starts.map((start, group) => this.endOf(start, group))));
    yield;
    // Names of one address that are very many take longer than one may wait when they are shown.
    for (let group = 0; group < this.starts.length; group++) {
      if (this.firsts[group + 1] - this.firsts[group] < SLICE) continue;
      const names = new Together();
      for (let at = this.firsts[group]; at < this.firsts[group + 1]; at++) {
        names.take(this.placed[at]);
        if (at % (8 * SLICE) === 0) yield;
      }
      this.texts.set(group, names.text);
    }
  }

  /** How many names there are. */
  get size() {
    return this.all.length;
  }

  /** The files of the sources that the names and lines are of, without their folders. */
  get files() {
    if (this.allFiles) return this.allFiles;
    const paths = new Set();
    for (const list of [this.lines, this.all]) for (const { file } of list) if (file) paths.add(file);
    return (this.allFiles = new Set([...paths].map((path) => path.slice(path.lastIndexOf("/") + 1))));
  }

  /** Returns the names of a group.
   * @param {number} group */
  ofGroup(group) {
    return this.placed.slice(this.firsts[group], this.firsts[group + 1]);
  }

  /** Returns up to where the names of an address reach.
   * @param {number} start
   * @param {number} group */
  endOf(start, group) {
    let size = 0;
    for (let at = this.firsts[group]; at < this.firsts[group + 1]; at++) size = Math.max(size, this.placed[at].size);
    return size ? start + size : Math.min(this.starts[group + 1] ?? VALUES, start + REACH);
  }

  /** Returns the number of the group of names that an address is shown with, or -1.
   * @param {number} address */
  groupOf(address) {
    const at = countUpTo(this.bounds, address) - 1;
    return at < 0 ? -1 : this.owners[at];
  }

  /** Returns the address of the names that an address is shown with, or -1.
   * @param {number} address */
  startOf(address) {
    const group = this.groupOf(address);
    return group < 0 ? -1 : this.starts[group];
  }

  /** Returns the names that an address is shown with, or null.
   * @param {number} address
   * @returns {Place | null} */
  nameOf(address) {
    const group = this.groupOf(address);
    if (group < 0) return null;
    const start = this.starts[group], names = this.texts.get(group) ?? together(this.ofGroup(group));
    this.texts.set(group, names);
    return { start, offset: address - start, names, kind: this.placed[this.firsts[group]].kind };
  }

  /** Returns an address as a name, perhaps with a number of bytes after it; nothing if no name reaches it.
   * @param {number} address */
  text(address) {
    const place = this.nameOf(address);
    return place ? place.names + (place.offset ? ` + 0x${upper(place.offset)}` : "") : "";
  }

  /** Returns the names of code and data at an address.
   * @param {number} address */
  exactly(address) {
    const group = countUpTo(this.starts, address) - 1;
    return group >= 0 && this.starts[group] === address ? this.ofGroup(group) : [];
  }

  /** Returns the names of constants and of data that are exactly this number, or nothing.
   * @param {number} value */
  value(value) {
    this.values ??= grouping(this.all.filter(({ kind }) => kind === CONSTANT || kind === DATA), ({ address }) => address);
    return together(this.values.get(value >>> 0) ?? []);
  }

  /** Returns the addresses of a name, or the values of a constant, in rising order.
   * @param {string} name */
  places(name) {
    this.byName ??= grouping(this.all, (one) => one.name);
    return [...new Set((this.byName.get(name) ?? []).map(({ address }) => address))].sort((one, other) => one - other);
  }

  /** Returns all different names. */
  names() {
    this.byName ??= grouping(this.all, (one) => one.name);
    return this.byName.keys();
  }

  /** Whether an address is shown with the name of data.
   * @param {number} address */
  isData(address) {
    return this.placed[this.firsts[this.groupOf(address)]]?.kind === DATA;
  }

  /** Returns the line of the source that an instruction is of, which goes on up to the next line or the next name; or null.
   * @param {number} address
   * @returns {SourceLine | null} */
  lineAt(address) {
    const line = this.lineStarts[countUpTo(this.lineAddresses, address) - 1], group = this.groupOf(address);
    if (line && (line.address === address || (group >= 0 && this.groupOf(line.address) === group))) return line;
    const own = this.exactly(address).find(({ file }) => file);
    return own ? { address, file: own.file, line: own.line } : null;
  }

  /** Returns the addresses in [from, end) that have names.
   * @param {number} from
   * @param {number} end */
  startsIn(from, end) {
    return this.starts.slice(countUpTo(this.starts, from - 1), countUpTo(this.starts, end - 1));
  }

  /** Returns the lines of sources that begin from an address on and before another.
   * @param {number} from
   * @param {number} end */
  linesIn(from, end) {
    return this.lineStarts.slice(countUpTo(this.lineAddresses, from - 1), countUpTo(this.lineAddresses, end - 1));
  }
}

export const NO_SYMBOLS = new Symbols();

/** Returns what has addresses by rising address. Keys are compared as numbers: that is several times as fast as a comparison of two objects.
 * @template {{ address: number }} Item
 * @param {Item[]} items */
function byAddress(items) {
  const keys = Float64Array.from(items, ({ address }, at) => address * MOST_SYMBOL_LINES + (at % MOST_SYMBOL_LINES)).sort();
  return items.length > MOST_SYMBOL_LINES ? [...items].sort((one, other) => one.address - other.address) : Array.from(keys, (key) => items[key % MOST_SYMBOL_LINES]);
}

/** Returns the last line at each address, by the name of its file and its number.
 * @param {SourceLine[]} sorted */
function lastLines(sorted) {
  /** @type {SourceLine[]} */
  const found = [];
  for (const line of sorted) {
    const before = found[found.length - 1];
    if (before?.address !== line.address) found.push(line);
    else if (line.file > before.file || (line.file === before.file && line.line > before.line)) found[found.length - 1] = line;
  }
  return found;
}

/** Returns the addresses of what is sorted, and where each of them begins; at the end how many there are.
 * @param {Named[]} placed */
function groupsOf(placed) {
  /** @type {[number[], number[]]} */
  const [starts, firsts] = [[], []];
  placed.forEach(({ address }, at) => {
    if (address === starts[starts.length - 1]) return;
    starts.push(address);
    firsts.push(at);
  });
  return { starts, firsts: [...firsts, placed.length] };
}

/** Returns where stretches of memory begin, and which group of names each has: the last one that begins there or before it and reaches as far;
 * -1 if none does.
 * @param {number[]} starts
 * @param {number[]} ends */
function stretchesOf(starts, ends) {
  /** @type {[number[], number[], number[]]} */
  const [bounds, owners, open] = [[], [], []];
  /** @param {number} at @param {number} owner */
  const begin = (at, owner) => {
    if (bounds[bounds.length - 1] === at) owners[owners.length - 1] = owner;
    else bounds.push(at), owners.push(owner);
  };
  /** @param {number} to */
  const close = (to) => {
    while (open.length && ends[open[open.length - 1]] <= to) {
      const end = ends[/** @type {number} */ (open.pop())];
      while (open.length && ends[open[open.length - 1]] <= end) open.pop();
      begin(end, open[open.length - 1] ?? -1);
    }
  };
  starts.forEach((start, group) => {
    close(start);
    begin(start, group);
    open.push(group);
  });
  close(2 * VALUES);
  return { bounds, owners };
}

/** Returns how many numbers of a sorted list are at most a number.
 * @param {ArrayLike<number>} list
 * @param {number} most */
export function countUpTo(list, most) {
  let from = 0, end = list.length;
  while (from < end) {
    const middle = (from + end) >> 1;
    if (list[middle] <= most) from = middle + 1;
    else end = middle;
  }
  return from;
}

/** Returns lists of items by a key.
 * @template Item, Key
 * @param {Item[]} items
 * @param {(item: Item) => Key} key */
function grouping(items, key) {
  /** @type {Map<Key, Item[]>} */
  const found = new Map();
  for (const item of items) {
    const list = found.get(key(item));
    if (list) list.push(item);
    else found.set(key(item), [item]);
  }
  return found;
}
