"""The commands of `galluspa debug` that set, change and delete breakpoints, watchpoints and catchpoints."""

import re
from collections.abc import Iterator, Sequence
from dataclasses import dataclass, replace

from galluspa.analysis.addresses import register_named
from galluspa.analysis.valueconditions import tested
from galluspa.analysis.conditions import conditions_of
from galluspa.analysis.expressiontexts import Parser, literal
from galluspa.analysis.rawconditions import MOST_CONDITIONS, WRITTEN, Condition, Test, changing
from galluspa.debugger.base import LOCATION, MOST_TIMES, Base, split
from galluspa.debugger.breakpoints import Point
from galluspa.formats.symbols import shown
from galluspa.process.cli import Refused

IF = re.compile(r"(?:^|\s)if(?=[\s(]|$)")
END = "end"
# The most commands of a point.
MOST_COMMANDS = 100


@dataclass
class Points(Base):
    """The commands on points."""

    # The point whose commands are read, up to an end, and those that were read.
    commanded: Point | None = None
    read: tuple[str, ...] = ()

    def break_at(self, text: str) -> Iterator[str]:
        """Sets a breakpoint."""
        yield self._broken(text)

    def break_once(self, text: str) -> Iterator[str]:
        """Sets a breakpoint that is deleted by its first pause."""
        yield self._broken(text, is_temporary=True)

    def _broken(self, text: str, is_temporary: bool = False) -> str:
        place, when = _parted_if(text)
        condition = self.location(place)
        word = condition.raws[0].first
        name = self.debugger.symbols.text(4 * word)
        where = f" at word {word}" if name else ""
        line, source = LOCATION.fullmatch(place), self.debugger.symbols.line_at(4 * word)
        if line and source and source.line != int(line[2]):
            where += f", in line {source.line}, the next one with code"
        alternatives = conditions_of([when], self.debugger.symbols, condition.raws[0]) if when else []
        added = self._added(name or f"word {word}", condition, where, alternatives=alternatives, when=when)
        self.debugger.points[self.debugger.numbered].is_temporary = is_temporary
        return added

    def watch(self, text: str) -> Iterator[str]:
        """Sets a watchpoint: a pause after each instruction that changes a place, a register or a device."""
        place, when = _parted_if(text)
        if place.removeprefix("$").upper() == "PC":
            raise Refused(f"{shown(place)} changes at each instruction: break pauses before one, and stepi goes to the next")
        part = self.part(place)
        if part:
            condition = changing(part)
            yield self._added(condition.text, condition, is_after=True, alternatives=self._watched_if(condition, when), when=when)
        else:
            yield from self._watch("change", place, when)

    def watch_loads(self, text: str) -> Iterator[str]:
        """Sets a watchpoint for loads."""
        yield from self._watch("load", *_parted_if(text))

    def watch_stores(self, text: str) -> Iterator[str]:
        """Sets a watchpoint for stores, whether or not they change something."""
        yield from self._watch("store", *_parted_if(text))

    def _watch(self, what: str, text: str, when: str) -> Iterator[str]:
        if register_named(text):
            raise Refused(
                f"{shown(text)} is a register, which has no loads and stores: watch {shown(text)}, or *{shown(text)} for memory"
            )
        words = self.place(text)
        conditions = conditions_of([what, *words], self.debugger.symbols)
        if len(conditions) > 1:
            raise Refused(f"expected one place: {shown(text)} has {len(conditions)}")
        alternatives = self._watched_if(conditions[0], when)
        yield self._added(f"{what} {' '.join(words)}", conditions[0], is_after=True, alternatives=alternatives, when=when)

    def _watched_if(self, condition: Condition, when: str) -> Sequence[Condition]:
        """Returns the condition of a watchpoint with one on the values after the instruction."""
        if not when:
            return []
        return [replace(condition, after=tested(Parser(when, self.debugger.symbols).whole()))]

    def catch(self, text: str) -> Iterator[str]:
        """Sets a catchpoint: a pause before each instruction at which a condition holds."""
        for condition in conditions_of(split(text), self.debugger.symbols):
            yield self._added(condition.text, condition)

    def part(self, text: str) -> str | None:
        """Returns the register or the part of a device that a text names; None if it names neither. A name of a symbol file comes
        before a device."""
        devices = {it.lower(): it for it in WRITTEN if it not in ("out", "stop")}
        device = None if self.debugger.symbols.places(text) else devices.get(text.lower())
        return register_named(text) or device

    def _added(
        self,
        text: str,
        condition: Condition,
        where: str = "",
        is_after: bool = False,
        alternatives: Sequence[Condition] = (),
        when: str = "",
    ) -> str:
        self._refuse_too_many(alternatives or [condition])
        point = self.debugger.add(text, condition, is_after)
        point.alternatives, point.when = alternatives, when
        return f"{point.kind} {point.number}: {shown(text)}{where}{f', if {shown(when)}' if when else ''}"

    def _refuse_too_many(self, more: Sequence[Condition], but: Point | None = None) -> None:
        used = sum(len(it.raws) for point in self.debugger.points.values() if point is not but for it in point.conditions)
        # A move of the debugger takes up to four conditions of its own.
        if used + sum(len(it.raws) for it in more) > MOST_CONDITIONS - 4:
            raise Refused("too many breakpoints and watchpoints: delete some")

    # Changes of points

    def condition(self, text: str) -> Iterator[str]:
        """Gives a point a condition, or takes it away."""
        number, _, when = text.partition(" ")
        point, when = self._point(number), when.strip().removeprefix("if ").strip()
        alternatives: Sequence[Condition] = []
        if when and point.is_after:
            alternatives = self._watched_if(point.condition, when)
        elif when and point.kind == "breakpoint":
            alternatives = conditions_of([when], self.debugger.symbols, point.condition.raws[0])
        elif when:
            own, more = point.condition.test, tested(Parser(when, self.debugger.symbols).whole())
            alternatives = [replace(point.condition, test=_both(own, more) if own else more)]
        self._refuse_too_many(alternatives or [point.condition], point)
        point.alternatives, point.when = alternatives, when
        yield f"{point.kind} {point.number}: {shown(point.text)}" + (f", if {shown(when)}" if when else ", without a condition")

    def ignore(self, text: str) -> Iterator[str]:
        """Passes over the next hits of a point."""
        number, _, times = text.partition(" ")
        point, ignored = self._point(number), literal(times)
        if ignored is None or ignored > MOST_TIMES:
            raise Refused("expected ignore N TIMES: the number of a point, and how many of its hits pause nothing")
        point.ignored = ignored
        yield f"the next {ignored:,} hits of {point.kind} {point.number} pause nothing"

    def enable(self, text: str) -> Iterator[str]:
        """Enables points by their numbers, or all."""
        yield from self._enabled(text, True)

    def disable(self, text: str) -> Iterator[str]:
        """Disables points by their numbers, or all."""
        yield from self._enabled(text, False)

    def _enabled(self, text: str, is_enabled: bool) -> Iterator[str]:
        for point in [self._point(part) for part in text.split()] or list(self.debugger.points.values()):
            point.is_enabled = is_enabled
        yield from ()

    def delete(self, text: str) -> Iterator[str]:
        """Deletes points by their numbers, or all."""
        for at in [self._point(part).number for part in text.split()] or list(self.debugger.points):
            self.debugger.points.pop(at, None)
        yield from ()

    def _point(self, text: str) -> Point:
        """Returns the point of a number."""
        point = self.debugger.points.get(literal(text) or 0)
        if point is None:
            raise Refused(
                f"there is no point {shown(text)}" if text else "expected the number of a point, which info breakpoints lists"
            )
        return point

    def begin_commands(self, text: str) -> Iterator[str]:
        """Begins to read the commands that a point carries out."""
        self.commanded, self.read = self._point(text or str(max(self.debugger.points, default=0))), ()
        yield from ()

    def collect(self, line: str) -> None:
        """Reads a command of a point, or the end of them."""
        line = line.strip()
        if line.split()[:1] == ["commands"] or len(self.read) >= MOST_COMMANDS:
            self.commanded = None
            raise Refused(f"a point has at most {MOST_COMMANDS} commands, of which none is commands")
        if line == END and self.commanded:
            self.commanded.commands, self.commanded = self.read, None
        else:
            self.read = (*self.read, line)


def _parted_if(text: str) -> tuple[str, str]:
    """Returns what comes before `if`, and the condition after it."""
    found = IF.search(text)
    if found is None:
        return text.strip(), ""
    when = text[found.end() :].strip()
    if not when:
        raise Refused("expected a condition after if, such as R0 == 13")
    return text[: found.start()].strip(), when


def _both(one: Test, other: Test) -> Test:
    """Returns the test that two hold."""
    return lambda moment: one(moment) and other(moment)
