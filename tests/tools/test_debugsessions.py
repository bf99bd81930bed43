"""Sessions of `galluspa debug` drawn at random, against a plain model of its commands over a machine that shares no code with it."""

import random
import re
from collections.abc import Callable
from dataclasses import dataclass, field, replace
from itertools import count as count_from
from pathlib import Path

from galluspa.engine.past import Past
from galluspa.debugger.commands import Commands
from galluspa.debugger.navigation import Debugger
from galluspa.engine.program import Program
from galluspa.formats.sourcetext import Sources
from galluspa.formats.symbols import NONE
from galluspa.process.cli import Refused
from tests.programs import randomly
from tests.tools.drawnexpressions import WORD, Drawn, condition, expression
from tests.tools.independent import RAM, Independent
from tests.tools.samples import PROGRAM, ToolTest, record, run_of

# The number of programs, of sessions of each, and of commands of a session at least and at most: 2,048 sessions, which take some 70 seconds
# of a processor.
PROGRAMS, SESSIONS, COMMANDS = 256, 8, (3, 9)
MOVES = ("continue", "reverse-continue", "run", "stepi", "reverse-stepi", "at")
PAUSED = re.compile(r"(?:break|watch|catch)point (\d+): ")


@dataclass
class Point:
    """A point of the model: whether it holds at a count, and whether it pauses after the instruction."""

    holds: Callable[[int], bool]
    is_after: bool
    is_temporary: bool = False
    is_enabled: bool = True
    ignored: int = 0
    hits: int = 0


@dataclass
class Model:
    """The debugger as its help describes it: it looks at one count after the other."""

    machine: Independent
    end: int
    count: int = 0
    points: dict[int, Point] = field(default_factory=dict)
    numbered: int = 0
    paused: list[int] = field(default_factory=list)

    def is_running(self, count: int) -> bool:
        """Whether the machine runs at a count."""
        return not self.machine.states[count].stop

    def meet(self, after: int | None, before: int | None) -> bool:
        """Counts the hits of the points that pause after the instruction of a count, and before that of another. Whether one pauses."""
        met = []
        for is_after, count in ((True, after), (False, before)):
            if count is None or count >= self.end or not self.is_running(count):
                continue
            met += [at for at, it in self.points.items() if it.is_enabled and it.is_after == is_after and it.holds(count)]
        self.paused = []
        for at in met:
            it = self.points[at]
            it.hits += 1
            if it.ignored:
                it.ignored -= 1
                continue
            self.paused.append(at)
            if it.is_temporary:
                del self.points[at]
        return bool(self.paused)

    def holding(self, is_after: bool, count: int) -> bool:
        """Whether an enabled point of a kind holds at a count."""
        return any(it.is_enabled and it.is_after == is_after and it.holds(count) for it in self.points.values())

    def forward(self, to: int | None = None) -> None:
        """Runs to the next point, or up to a count."""
        self.paused = []
        last = self.end if to is None else min(to, self.end)
        while self.count < self.end and self.is_running(self.count):
            begin, paused = self.count, False
            while self.count < last or self.count == begin:
                at = self.count
                self.count += 1
                if self.holding(True, at):
                    paused = self.meet(at, self.count)
                    break
                if self.machine.states[self.count].stop:
                    return
                if self.count == last:
                    self.meet(None, self.count)
                    return
                if self.holding(False, self.count):
                    paused = self.meet(None, self.count)
                    break
            if paused or self.count == to:
                return

    def backward(self) -> None:
        """Runs back to the point before, or to the beginning."""
        self.paused = []
        while self.count > 0:
            self.count -= 1
            if self.is_running(self.count) and (self.holding(True, self.count) or self.holding(False, self.count)):
                if self.meet(self.count, self.count):
                    return

    def add(self, holds: Callable[[int], bool], is_after: bool, is_temporary: bool = False) -> None:
        """Adds a point."""
        self.numbered += 1
        self.points[self.numbered] = Point(holds, is_after, is_temporary)


def enable_all(model: Model) -> None:
    """Enables all points."""
    for it in model.points.values():
        it.is_enabled = True


@dataclass
class Session:
    """A debugger and its model, which carry out the same commands."""

    rng: random.Random
    machine: Independent
    model: Model
    commands: Commands

    def a_condition(self) -> Drawn | None:
        """A condition, or none; it is not long."""
        drawn = condition(self.rng, 1)
        return drawn if self.rng.random() < 0.6 and len(drawn.text) < 200 else None

    def a_point(self) -> tuple[str, Callable[[Model], None]]:
        """A command that sets a point."""
        machine, rng = self.machine, self.rng
        done = [it for it in machine.done if it]
        when = self.a_condition()
        if_text = f" if {when.text}" if when else ""
        kind = rng.randrange(5)
        it = rng.choice(done)
        if kind < 2:
            name = ("break", "tbreak")[kind]

            def is_there(count: int) -> bool:
                return machine.states[count].pc == it.pc and (when is None or bool(when.meaning(machine, count)))

            return f"{name} {it.pc}{if_text}", lambda model: model.add(is_there, False, kind == 1)
        if kind == 2:
            at = rng.randrange(16)

            def changes(count: int) -> bool:
                old, new = (machine.states[at_count].registers[at] for at_count in (count, count + 1))
                return old != new and (when is None or bool(when.meaning(machine, count + 1)))

            return f"watch R{at}{if_text}", lambda model: model.add(changes, True)
        accesses = [place & ~3 for it in done for place in (*it.stored, *it.loaded) if place < 1 << 20] or [0]
        address, name = rng.choice(accesses), rng.choice(("watch", "awatch", "rwatch"))

        def accessed(count: int) -> bool:
            step = machine.done[count]
            if step is None:
                return False
            places = {"watch": step.stored, "awatch": step.stored, "rwatch": step.loaded}[name]
            if not any(address <= place < address + 4 for place in places):
                return False
            if name == "watch" and machine.word_at(address, count) == machine.word_at(address, count + 1):
                return False
            return when is None or bool(when.meaning(machine, count + 1))

        return f"{name} {address:#x}{if_text}", lambda model: model.add(accessed, True)

    def a_change(self) -> tuple[str, Callable[[Model], None]]:
        """A command that changes a point."""
        number = self.rng.choice(list(self.model.points))
        kind = self.rng.randrange(5)
        if kind == 0:
            return f"delete {number}", lambda model: model.points.__delitem__(number)
        if kind == 1:
            return f"disable {number}", lambda model: setattr(model.points[number], "is_enabled", False)
        if kind == 2:
            return "enable", enable_all
        times = self.rng.randrange(4)
        return f"ignore {number} {times}", lambda model: setattr(model.points[number], "ignored", times)

    def a_move(self) -> tuple[str, Callable[[Model], None]]:
        """A command that moves."""
        rng, model = self.rng, self.model
        number = rng.choice((1, 2, 7, rng.randrange(1, 60)))
        count = rng.randrange(model.end + 1)

        def run(model: Model) -> None:
            model.count = 0
            if not model.meet(None, 0):
                model.forward()

        def go_to(count: int) -> Callable[[Model], None]:
            def go(model: Model) -> None:
                model.count, model.paused = count, []

            return go

        moves: list[tuple[str, Callable[[Model], None]]] = [
            ("continue", lambda model: model.forward()),
            ("continue", lambda model: model.forward()),
            ("reverse-continue", lambda model: model.backward()),
            ("run", run),
            (f"stepi {number}", lambda model: model.forward(model.count + number)),
            (f"reverse-stepi {number}", lambda model: go_to(max(model.count - number, 0))(model)),
            (f"at {count}", go_to(count)),
        ]
        return rng.choice(moves)

    def next(self) -> tuple[str, Callable[[Model], None]]:
        """The next command, and what it does to the model."""
        kind = self.rng.random()
        if kind < 0.3 and len(self.model.points) < 6:
            return self.a_point()
        if kind < 0.4 and self.model.points:
            return self.a_change()
        return self.a_move()

    def write(self) -> tuple[str, int | None]:
        """The question who wrote a register or a word last, and the count at which that was, if it was."""
        machine, rng = self.machine, self.rng
        stored = [place & ~3 for it in machine.done if it for place in it.stored if place < RAM]
        if rng.random() < 0.5 or not stored:
            name = f"R{rng.randrange(16)}"
            return f"who {name}", machine.writer(name, self.model.count)
        address = rng.choice(stored)
        counts = [machine.writer(address + at, self.model.count) for at in range(4)]
        return f"who {address:#x}", max((it for it in counts if it is not None), default=None)

    def value(self) -> tuple[str, int]:
        """An expression, and its value where the model is."""
        drawn = expression(self.rng, 1)
        return drawn.text, drawn.meaning(self.machine, self.model.count) & WORD


class SessionsTest(ToolTest):
    """Random sessions. Each command leads to the same count, is paused by the same points, and counts the same hits; an expression has the
    same value there, and at the end something was written last by the same instruction."""

    def test_sessions(self) -> None:
        rng, pauses, sessions = random.Random(86), 0, 0
        for seed in count_from(1000):
            if sessions == PROGRAMS * SESSIONS:
                break
            case = randomly.case(seed)
            counts = min(case.counts, 300)
            machine = Independent(case.session).run(counts)
            if machine.done[0] is None:
                continue
            run = Past(run_of(record(replace(case.session, checkpoints=[counts]).text().encode())))
            for number in range(SESSIONS):
                commands = Commands(Debugger(run, NONE, 1), Program(PROGRAM), Sources([Path("/none")]))
                session = Session(rng, machine, Model(machine, counts), commands)
                pauses += self.follow(session, f"program {seed}, session {number}")
                sessions += 1
        self.assertGreater(pauses, sessions // 4)

    def answered(self, commands: Commands, line: str) -> int | None:
        """Returns the count of the instruction that a question shows; None if it shows none."""
        try:
            return int(next(iter(commands.run(line))).split()[0])
        except Refused as why:
            self.assertIn("nothing wrote", f"{why}")
            return None

    def follow(self, session: Session, name: str) -> int:
        """Carries out commands in both, and compares them after each. Gives how many points paused."""
        given, pauses, model, debugger = [], 0, session.model, session.commands.debugger
        for _ in range(session.rng.randint(*COMMANDS)):
            line, does = session.next()
            given.append(line)
            told = f"{name}: {given}"
            try:
                printed = list(session.commands.run(line))
            except Refused as why:
                # What no search finds is refused, and changes nothing.
                self.assertRegex(f"{why}", "it never holds|too many breakpoints|more than 64 conditions", told)
                continue
            does(model)
            self.assertEqual(debugger.count, model.count, told)
            paused = [int(found[1]) for found in map(PAUSED.match, printed) if found] if line.split()[0] in MOVES else []
            self.assertEqual(sorted(paused), sorted(model.paused if line.split()[0] in MOVES else []), told)
            points = {at: (it.hits, it.ignored, it.is_enabled) for at, it in debugger.points.items()}
            self.assertEqual(points, {at: (it.hits, it.ignored, it.is_enabled) for at, it in model.points.items()}, told)
            pauses += len(paused)
            text, value = session.value()
            [shown] = session.commands.run(f"print/x ({text})")
            self.assertEqual(shown.partition("  ;")[0], f"{value:08X}", f"{told} {text}")
        line, count = session.write()
        self.assertEqual(self.answered(session.commands, line), count, f"{name}: {given} {line}")
        return pauses
