"""What is false about a recording: where the first false checkpoint and the machine differ, and what wrote the first
part.

The library says what the machine has, and the program draws the screens.
"""

import shlex
from collections.abc import Iterable, Iterator, Sequence
from dataclasses import dataclass, field, replace

from galluspa.analysis.calls import Calls
from galluspa.analysis.drawing import Dots, dots_differing
from galluspa.formats.screens import HEAD, HEIGHT, ROW, WIDTH
from galluspa.analysis.inspection import screen_of, stack_line
from galluspa.analysis.lastwrites import LastWrite, last_write
from galluspa.analysis.naming import named_row, placed_lines
from galluspa.engine.machine import Machine, Sent
from galluspa.engine.program import Program
from galluspa.engine.tracing import Run, Step, WordChange, differing, with_progress
from galluspa.formats import states
from galluspa.formats.recording import DISPLAY_END, DISPLAY_START, PAGE_BYTES, Recording
from galluspa.formats.symbols import NONE, Symbols
from galluspa.process.escapes import printable
from galluspa.process.timelimit import TimeIsUp

Part = str | int
Value = int | list[int] | Sent
WRITERS = 5
# Parts for which the library has no condition.
NOT_SOUGHT = ("PC", "timer", "rate", "phase")
WORDS_SHOWN = 64
BYTES_SHOWN = 48
SIGNS = "Dots that differ are + where they are set, and - where they are not; # and . are alike."
DOTS_WIDE, DOTS_HIGH = 36, 24
FINDS_IT = "If COMMAND prints your emulator's state at a count, this finds the instruction:"


@dataclass(frozen=True)
class Difference:
    """A part of a state, or a word of memory: what is claimed of it, and what the machine has."""

    name: str
    claimed: str
    defined: str


@dataclass(frozen=True)
class Around:
    """The instructions around the false checkpoint that were looked at one by one, from a count up to another: the last
    of those before it that wrote a part, and the counts at which the part had the claimed value; also the earlier
    checkpoints that claim it, the last instruction before them all that set the part, and why not all was looked at."""

    first: int
    last: int
    writers: list[Step]
    matching: list[int]
    earlier: list[int]
    setting: LastWrite | None
    unread: str = ""


@dataclass(frozen=True)
class Screens:
    """Two screens that differ, as binary PBM: the claimed one, and that of the machine; and the dots in which they do."""

    claimed: bytes = field(repr=False)
    defined: bytes = field(repr=False)
    dots: Dots

    def summary(self) -> str:
        """Returns how many dots differ, and where."""
        it = self.dots
        return (
            f"{it.number:,} {'dot differs' if it.number == 1 else 'dots differ'}, at {_span('x', it.left, it.right)} "
            f"and {_span('y', it.bottom, it.top)}, counted from the left and from below"
        )

    def rows(self) -> Iterator[tuple[str, ...]]:
        """Yields the dots around those that differ, row by row from the top, claimed and the machine's: # and . for
        those that are alike, + and - for those that differ, where the dot is set and where it is not."""
        left = max(0, min(self.dots.left - 4, WIDTH - DOTS_WIDE))
        top = max(0, min(HEIGHT - 3 - self.dots.top, HEIGHT - DOTS_HIGH))
        right = min(self.dots.right + 5, left + DOTS_WIDE, WIDTH)
        bottom = min(HEIGHT + 2 - self.dots.bottom, top + DOTS_HIGH, HEIGHT)
        for row in range(top, bottom):
            pairs = [(_dot(self.claimed, x, row), _dot(self.defined, x, row)) for x in range(left, right)]
            yield tuple("".join(".#-+"[2 * (pair[0] != pair[1]) + pair[side]] for pair in pairs) for side in (0, 1))


def _span(name: str, first: int, last: int) -> str:
    return f"{name} {first}" + (f" to {last}" if last > first else "")


def _dot(pbm: bytes, x: int, row: int) -> int:
    return pbm[HEAD + ROW * row + x // 8] >> 7 - x % 8 & 1


@dataclass(frozen=True)
class FalseClaim:
    """The first false checkpoint of a recording, against the machine at its count; `since` is that of the checkpoint before,
    which is true."""

    number: int
    since: int
    count: int
    part: str
    parts: list[Difference]
    words: list[WordChange]
    sent: tuple[Sent, Sent]
    screens: Screens | None
    focus: str
    around: Around

    def memory(self, most: int = WORDS_SHOWN) -> list[Difference]:
        """Returns the words that differ, by rising address, at most `most`."""
        return [Difference(word.name, f"{word.old:08X}", f"{word.new:08X}") for word in self.words[:most]]

    @property
    def segment(self) -> str:
        """Says in which segment the emulator that made the recording went wrong."""
        return f"Yours went wrong between {self.since:,} and {self.count:,}: checkpoint {self.number - 1} is true."

    def bisect(self, name: str) -> str:
        """Returns the command that finds the instruction, for a recording with a name."""
        return f"galluspa bisect {shlex.quote(printable(name))} --from {self.since} --to {self.count} -- COMMAND {{count}}"

    def output(self) -> tuple[str, list[str], list[str]] | None:
        """Returns from which byte on the bytes sent differ, and the first of those from there, claimed and the
        machine's."""
        claimed, defined = self.sent
        if claimed == defined:
            return None
        pairs = enumerate(zip(claimed.first, defined.first))
        at = next((at for at, (one, other) in pairs if one != other), min(claimed.length, defined.length))
        summary = f"claimed are {claimed.length:,} bytes, the machine sent {defined.length:,}; " f"they differ from byte {at:,} on"
        dumps = ([*states.hexdump(sent.first[at : at + BYTES_SHOWN], at)] or ["no byte"] for sent in self.sent)
        return summary, next(dumps), next(dumps)


def explain_false(run: Run, program: Program, read: Recording, claim: tuple[int, str], steps: int) -> FalseClaim:
    """Returns what is false about the first false checkpoint, with a number of instructions before it examined one by
    one."""
    number, part = claim
    checkpoint, before = read.checkpoints[number], read.checkpoints[number - 1]
    claimed, machine = run.claimed(number), run.machine(before.count)
    start = machine.copy()
    try:
        sent_before = run.advance(machine, max(start.count, checkpoint.count - steps))
        near = machine.copy()
        sent = sent_before + run.advance(machine, checkpoint.count)
    except TimeIsUp as over:
        raise TimeIsUp(f"{over}: the machine came to count {machine.count}") from over
    words = list(differing(claimed.memory(), machine.memory()))
    focus = _focus(part, words)
    out = Sent(checkpoint.output, len(checkpoint.output))
    sought = _Sought(focus, value_at(focus, near, sent_before), value_at(focus, claimed, out))
    return FalseClaim(
        number=number,
        since=before.count,
        count=checkpoint.count,
        part=part,
        parts=[Difference(name, its, own) for name, own, its in states.changes(machine.seen(), claimed.seen())],
        words=words,
        sent=(out, sent),
        screens=_screens(program, claimed, machine),
        focus=f"Mem[{focus:06X}]" if isinstance(focus, int) else focus,
        around=_around(run, read, number, start, near, sought, checkpoint.count + steps // 10),
    )


def _focus(part: str, words: list[WordChange]) -> Part:
    """Returns the part to look after: the one that the line names, or the first word that differs in the page that it
    names."""
    if not part.startswith("page "):
        return part
    place = int(part.removeprefix("page "))
    return next(word.address for word in words if word.address // PAGE_BYTES == place)


def value_at(part: Part, machine: Machine, sent: Sent) -> Value:
    """Returns the value of a part in a machine, and what it has sent since the checkpoint before."""
    if isinstance(part, int):
        return machine.words[part // 4]
    return sent if part == "out" else states.values(machine.seen())[part]


def along(part: Part, value: Value, steps: Iterable[Step]) -> Iterator[tuple[Step, Value, bool]]:
    """Yields instructions, each with the value of a part after it, and whether it wrote it; the value before them is
    given."""
    for step in steps:
        if isinstance(part, int):
            value = next((word.new for word in step.changed if word.address == part), value)
            yield step, value, step.stored_at == part
        elif isinstance(value, Sent):
            value += Sent(step.after.output, len(step.after.output))
            yield step, value, bool(step.after.output)
        else:
            old, value = value, states.values(step.after)[part]
            yield step, value, value != old or part in step.written


def _screens(program: Program, claimed: Machine, defined: Machine) -> Screens | None:
    if claimed.memory()[DISPLAY_START:DISPLAY_END] == defined.memory()[DISPLAY_START:DISPLAY_END]:
        return None
    one, other = (screen_of(machine, replace(program, limit=None)) for machine in (claimed, defined))
    dots = dots_differing(one, other)
    return Screens(one, other, dots) if dots else None


@dataclass(frozen=True)
class _Sought:
    """A part whose instructions are sought: its value where the search begins, and the claimed value."""

    part: Part
    value: Value
    claimed: Value


def _around(run: Run, read: Recording, number: int, before: Machine, near: Machine, sought: _Sought, last: int) -> Around:
    """Looks at the instructions around the false checkpoint one by one, from a machine near it on up to a count; the
    machine at the checkpoint before it is given, too."""
    part, value, claimed = sought.part, sought.value, sought.claimed
    first, count = near.count, read.checkpoints[number].count
    earlier = [at for at in range(number) if _claims(read, at, part, claimed)]
    matching, writers, setting = [first] * (value == claimed), list[Step](), None
    try:
        for step, now, is_written in along(part, value, with_progress(run.steps(near, last), last)):
            matching += [step.after.count] * (now == claimed)
            if is_written and step.before.count < count:
                writers = [*writers[1 - WRITERS :], step]
        if not writers:
            setting = _setting(run, before, first, part, value)
    except TimeIsUp as over:
        unread = f"{over}: not all was looked at (--limit)"
        return Around(first, near.count, writers, matching, earlier, None, unread)
    return Around(first, last, writers, matching, earlier, setting)


def _claims(read: Recording, at: int, part: Part, value: Value) -> bool:
    checkpoint = read.checkpoints[at]
    if isinstance(part, int):
        return read.word(checkpoint, part // 4) == value
    return part != "out" and states.values(checkpoint)[part] == value


def _setting(run: Run, machine: Machine, to: int, part: Part, value: Value) -> LastWrite | None:
    """Returns the last instruction before a count that wrote a part; of one that is not sought, one that set it to the value that
    it has there. None if none did."""
    if part not in NOT_SOUGHT:
        return last_write(run, part, machine.count, to)
    changed = _changing(run, machine, to, part, value) if value_at(part, machine, Sent()) != value else None
    return LastWrite(machine.count, changed, changed) if changed else None


def _changing(run: Run, machine: Machine, to: int, part: Part, value: Value) -> Step:
    """Returns an instruction after which a part has a value that it has at a later count, and before which it has
    another one."""
    sent = Sent()
    while to - machine.count > 1:
        later = machine.copy()
        more = run.advance(later, (machine.count + to) // 2)
        if value_at(part, later, sent + more) == value:
            to = later.count
        else:
            machine, sent = later, sent + more
    return next(run.steps(machine, to))


def writers_summary(it: FalseClaim) -> str:
    """Returns what is shown below it: the last instructions before the checkpoint that wrote the part, or the one that
    set it."""
    end = min(it.count, it.around.last)
    if it.around.writers:
        return f"The last instructions before count {end} that wrote {it.focus}:"
    none = f"None of the {end - it.around.first:,} instructions before count {end} wrote {it.focus}."
    if it.around.unread:
        return none
    if not it.around.setting:
        return f"{none} Since checkpoint {it.number - 1} none {'changed' if it.focus in NOT_SOUGHT else 'wrote'} it."
    if it.focus in NOT_SOUGHT:
        return f"{none} The one before them, found by bisection, set it:"
    return f"{none} The last one before them that wrote it:"


def counts_summary(it: FalseClaim) -> str:
    """Returns when the part had the claimed value."""
    before = [count for count in it.around.matching if count < it.count]
    after = [count for count in it.around.matching if count > it.count]
    nearest = [f"last at {count}, {it.count - count:,} before" for count in before[-1:]]
    nearest += [f"first at {count}, {count - it.count:,} after" for count in after[:1]]
    number = f"{len(before) + len(after):,}" if nearest else "none"
    summary = f"{it.focus} had the claimed value at {number} of the counts {it.around.first} to {it.around.last}"
    if nearest:
        summary += f": {'; '.join(nearest)}"
    if earlier := it.around.earlier:
        noun = "checkpoints" if len(earlier) > 1 else "checkpoint"
        summary += f"; and at the earlier {noun} {states.ranges(earlier)}"
    return f"{summary}." + (f" There was {it.around.unread}." if it.around.unread else "")


def writers_of(it: FalseClaim) -> list[Step]:
    """Returns the instructions that wrote the part."""
    return it.around.writers or ([it.around.setting.step] if it.around.setting else [])


def instructions_of(it: FalseClaim, symbols: Symbols = NONE) -> Iterator[str]:
    """Yields the lines of the instructions that wrote the part."""
    if it.around.setting:
        yield from it.around.setting.lines(symbols)
    for step in it.around.writers:
        yield from placed_lines(step, symbols)


def callers_of(run: Run, it: FalseClaim, symbols: Symbols, calls: Calls) -> str:
    """Returns the line that says where the last of them is, and who called that; nothing if none wrote the part."""
    if not writers_of(it):
        return ""
    return stack_line(run.machine(writers_of(it)[-1].before.count), symbols, calls)


def table(rows: Iterable[Sequence[str]]) -> Iterator[str]:
    """Returns rows of a name, what is claimed, and what the machine has, in columns."""
    kept = list(rows)
    name, claimed = (max(len(row[column]) for row in kept) for column in (0, 1))
    return (f"{row[0]:{name}}  {row[1]:{claimed}}  {row[2]}".rstrip() for row in kept)


def plain(it: FalseClaim, name: str, most: int = WORDS_SHOWN, symbols: Symbols = NONE, callers: str = "") -> Iterator[str]:
    """Yields the lines of a text that explains a false claim of a recording with a name, with a number of words of memory
    at most; and what a symbol file adds to them."""
    differences = [*it.parts, *it.memory(most)]
    if differences:
        rows = (named_row((one.name, one.claimed, one.defined), symbols) for one in differences)
        yield from table([("", "claimed", "the machine"), *rows])
    if len(it.words) > most:
        yield f".. and {len(it.words) - most:,} more words of memory"
    if output := it.output():
        summary, claimed, defined = output
        yield from ("", f"out: {summary}", "claimed", *claimed, "the machine", *defined)
    if it.screens:
        yield from ("", f"The screen: {it.screens.summary()}.", SIGNS)
        yield from table([("", "claimed", "the machine"), *(("", *row) for row in it.screens.rows())])
    instructions = [*instructions_of(it, symbols), *([callers] if callers else [])]
    yield from ("", writers_summary(it), *instructions, "", counts_summary(it))
    yield from ("", it.segment, FINDS_IT, f"  {it.bisect(name)}")
