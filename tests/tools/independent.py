"""A machine after docs/machine.md that shares no code with the tools, and keeps all that happened: the state at each count, who wrote what
when, and from which values."""

from bisect import bisect_left
from collections import defaultdict
from dataclasses import dataclass, field

from galluspa.formats.recording import Event
from galluspa.formats.sessions import Session

WORD, RAM, DEVICES = 0xFFFFFFFF, 1 << 20, 0xFFFFC0
N, Z, C, V = "N", "Z", "C", "V"


def signed(value: int) -> int:
    """A word as a number with a sign."""
    return value - (1 << 32) if value >> 31 else value


@dataclass(frozen=True)
class Source:
    """A value that an instruction used: what has it, as the cells of the machine; the value; what it is for; and of a device the input that
    set it, if there is one."""

    cells: tuple[object, ...]
    value: int
    role: str = ""
    event: Event | None = None


@dataclass
class Done:
    """An instruction that was done: where, its word, the cells that it wrote, and the values that it used to make what it wrote."""

    count: int
    pc: int
    word: int
    wrote: tuple[object, ...] = ()
    sources: tuple[Source, ...] = ()
    sent: int | None = None
    loaded: tuple[int, ...] = ()
    stored: tuple[int, ...] = ()


@dataclass(frozen=True)
class State:
    """The processor and the LEDs at a count."""

    registers: tuple[int, ...]
    h: int
    pc: int
    flags: tuple[bool, bool, bool, bool]
    stop: int
    leds: int


@dataclass
class Independent:
    """The machine of a session, with its past. A cell is a register, H or a flag by its name, a byte of memory by its address, or LEDs."""

    session: Session
    states: list[State] = field(default_factory=list)
    done: list[Done | None] = field(default_factory=list)

    def __post_init__(self) -> None:
        self.memory = bytearray(self.session.memory.ljust(RAM, b"\0"))
        self.registers, self.h = list(self.session.registers), self.session.h
        self.pc, self.stop, self.leds = self.session.pc, 0, 0
        self.flags = {name: bool(self.session.flags >> 3 - at & 1) for at, name in enumerate("NZCV")}
        self.timer, self.phase = 0, self.session.phase
        self.switches, self.mouse, self.serial, self.disk, self.keys = 0, 0, 0, self.session.disk, list[Event]()
        # The last input of each kind.
        self.last: dict[int, Event] = {}
        self.writers: dict[object, list[int]] = defaultdict(list)
        self.bytes: dict[int, list[tuple[int, int]]] = defaultdict(list)
        self.inputs = sorted(self.session.inputs, key=lambda it: it.count)
        self.due = 0

    def run(self, to: int) -> "Independent":
        """Runs up to a count."""
        while len(self.states) <= to:
            flags = (self.flags[N], self.flags[Z], self.flags[C], self.flags[V])
            self.states.append(State(tuple(self.registers), self.h, self.pc, flags, self.stop, self.leds))
            if len(self.states) <= to:
                self.done.append(self._step(len(self.states) - 1))
        return self

    # What was so

    def writer(self, cell: object, before: int) -> int | None:
        """The count of the last instruction before a count that wrote a cell."""
        found = self.writers.get(cell, [])
        at = bisect_left(found, before)
        return found[at - 1] if at else None

    def byte_at(self, address: int, count: int) -> int:
        """A byte of memory at a count."""
        past = self.bytes.get(address, [])
        at = bisect_left(past, (count, -1))
        return past[at - 1][1] if at else self.session.memory[address] if address < len(self.session.memory) else 0

    def word_at(self, address: int, count: int) -> int:
        """A word of memory at a count."""
        return sum(self.byte_at((address & ~3) + at, count) << 8 * at for at in range(4))

    # How it runs

    def _take(self, count: int) -> None:
        while self.due < len(self.inputs) and self.inputs[self.due].count == count:
            it = self.inputs[self.due]
            self.due += 1
            self.last[it.kind] = it
            if name := {1: "timer", 2: "switches", 3: "mouse", 6: "disk"}.get(it.kind):
                setattr(self, name, it.value)
            elif it.kind == 4 and len(self.keys) < 16:
                self.keys.append(it)
            elif it.kind == 5:
                self.serial = 0x100 | it.value

    def _step(self, count: int) -> Done | None:
        if self.stop:
            return None
        self._take(count)
        if self.pc >= RAM // 4:
            self.stop = 3
            return None
        word = sum(self.memory[4 * self.pc + at] << 8 * at for at in range(4))
        done = Done(count, self.pc, word)
        if word >> 30 == 3:
            self._branch(word, done)
        elif word >> 30 == 2:
            self._access(word, done)
        else:
            self._operate(word, done)
        if self.stop:
            return Done(count, self.pc, word)
        for cell in done.wrote:
            self.writers[cell].append(count)
        if self.session.rate:
            self.phase += 1
            if self.phase == self.session.rate:
                self.phase, self.timer = 0, self.timer + 1 & WORD
        return done

    def _write(self, at: int, value: int, done: Done) -> None:
        self.registers[at] = value
        self.flags[N], self.flags[Z] = bool(value >> 31), not value
        done.wrote = (*done.wrote, f"R{at}", N, Z)

    def _branch(self, word: int, done: Done) -> None:
        following = (self.pc + 1) % (1 << 22)
        n, z, c, v = (self.flags[it] for it in "NZCV")
        holds = [n, z, c, v, c or z, n != v, n != v or z, True][word >> 24 & 7] != bool(word >> 27 & 1)
        if not holds:
            self.pc = following
            return
        offset = word & 0x3FFFFF
        to = following + (offset - (1 << 22) if offset >> 21 else offset) if word >> 29 & 1 else self.registers[word & 15] // 4
        if word >> 28 & 1:
            self._write(15, 4 * following, done)
        self.pc = to % (1 << 22)

    def _access(self, word: int, done: Done) -> None:
        a, b, offset = word >> 24 & 15, word >> 20 & 15, word & 0xFFFFF
        address = self.registers[b] + (offset - (1 << 20) if offset >> 19 else offset) & 0xFFFFFF
        if RAM <= address < DEVICES:
            self.stop = 4
            return
        is_store, is_byte = word >> 29 & 1, word >> 28 & 1
        places = (address,) if is_byte else tuple(range(address & ~3, (address & ~3) + 4))
        base = [Source((f"R{b}",), self.registers[b], "address")] * (b != 14)
        if is_store:
            done.stored = places
            done.sources = (Source((f"R{a}",), self.registers[a]), *base)
            if address >= DEVICES:
                self._pass(address, self.registers[a], done)
            for at, place in enumerate(places if address < RAM else ()):
                self.memory[place] = self.registers[a] >> 8 * at & 0xFF
                self.bytes[place].append((done.count, self.memory[place]))
            done.wrote = (*done.wrote, *(places if address < RAM else ()))
        else:
            done.loaded = places
            if address >= DEVICES:
                value, given = self._load((address - DEVICES) // 4, 8 * (address & 3) if is_byte else 0, 0xFF if is_byte else WORD)
                done.sources = (*given, *base)
            else:
                value = sum(self.memory[place] << 8 * at for at, place in enumerate(places))
                done.sources = (Source(places, value << 8 * (address & 3) if is_byte else value), *base)
            self._write(a, value, done)
        self.pc = (self.pc + 1) % (1 << 22)

    def _pass(self, address: int, value: int, done: Done) -> None:
        if address & ~3 == DEVICES + 4:
            self.leds = value & 0xFF
            done.wrote = ("LEDs",)
        elif address & ~3 == DEVICES + 8:
            done.sent = value & 0xFF

    def _load(self, place: int, shift: int, mask: int) -> tuple[int, list[Source]]:
        """Loads bits of a device word. Returns them, and who gives which of them."""
        kinds = {0: 0 if self.session.rate else 1, 1: 2, 2: 5, 3: 5, 4: 6, 6: 3}
        key = self.keys[0] if self.keys else None
        event = key if place == 7 else self.last.get(kinds.get(place, 0))
        value = self._device(place) >> shift & mask
        if place not in (*kinds, 7):
            return value, [Source((), value)]
        waits = (bool(self.keys) << 28) >> shift & mask if place == 6 else 0
        mouse = Source(("device",), value ^ waits, event=event)
        return value, [mouse, *[Source(("device",), waits, event=key)] * bool(waits)]

    def _device(self, place: int) -> int:
        """The word of a device, as a load takes it."""
        if place == 2:
            self.serial &= 0xFF
            return self.serial
        if place == 7:
            return self.keys.pop(0).value if self.keys else 0
        fixed = {4: self.disk, 5: 1, 0: self.timer, 1: self.switches, 3: 2 | self.serial >> 8}
        return self.mouse | bool(self.keys) << 28 if place == 6 else fixed.get(place, 0)

    def _operate(self, word: int, done: Done) -> None:
        u, v, a, b, op = word >> 29 & 1, word >> 28 & 1, word >> 24 & 15, word >> 20 & 15, word >> 16 & 15
        left, im = self.registers[b], word & 0xFFFF
        is_immediate = word >> 30 & 1
        right = (im | 0xFFFF0000 if v else im) if is_immediate else self.registers[word & 15]
        operand = Source(() if is_immediate else (f"R{word & 15}",), right)
        if op == 0:
            self._move(word, operand, done)
            return
        if op >= 12 or op == 11 and signed(right) < 1:
            self.stop = 1 if op >= 12 else 2
            return
        done.sources = (Source((f"R{b}",), left), *([operand] if is_immediate or word & 15 != b else []))
        carry = int(u and self.flags[C])
        if op in (8, 9) and u:
            used = Source((C,), 2 if self.flags[C] else 0, "carry")
            done.sources = (
                done.sources[0],
                *([] if is_immediate else done.sources[1:]),
                used,
                *(done.sources[1:] if is_immediate else ()),
            )
        self._write(a, self._result(op, u, left, right, carry, done), done)
        self.pc = (self.pc + 1) % (1 << 22)

    def _move(self, word: int, operand: Source, done: Done) -> None:
        u, v, is_immediate = word >> 29 & 1, word >> 28 & 1, word >> 30 & 1
        flags = sum(8 >> at for at, name in enumerate("NZCV") if self.flags[name])
        if not u:
            value, done.sources = operand.value, () if is_immediate else (operand,)
        elif is_immediate:
            value = (word & 0xFFFF) << 16
        elif v:
            value, done.sources = flags << 28 | 0x53, (Source((N, Z, C, V), flags),)
        else:
            value, done.sources = self.h, (Source(("H",), self.h),)
        self._write(word >> 24 & 15, value, done)
        self.pc = (self.pc + 1) % (1 << 22)

    def _result(self, op: int, u: int, left: int, right: int, carry: int, done: Done) -> int:
        by = right % 32
        if op == 1:
            return left << by & WORD
        if op == 2:
            return signed(left) >> by & WORD
        if op == 3:
            return (left >> by | left << 32 - by) & WORD
        if op < 8:
            return (left & right, left & ~right, left | right, left ^ right)[op - 4] & WORD
        if op < 10:
            sign = 1 if op == 8 else -1
            whole, exact = left + sign * (right + carry), signed(left) + sign * (signed(right) + carry)
            self.flags[C], self.flags[V] = not 0 <= whole <= WORD, not -(1 << 31) <= exact < 1 << 31
            done.wrote = (C, V)
            return whole & WORD
        one, other = (left, right) if u else (signed(left), signed(right))
        done.wrote = ("H",)
        if op == 10:
            self.h = one * other >> 32 & WORD
            return one * other & WORD
        self.h = one % other
        return one // other & WORD
