"""A system that a test boots, types into and looks at: what the fixture `oberon` gives."""

import os
from collections.abc import Iterator, Sequence
from dataclasses import replace
from pathlib import Path
from typing import TYPE_CHECKING, Self

import pytest

from galluspa.engine.machine import Inputs
from galluspa.engine.tracing import RunFrom
from galluspa.formats.recording import Event
from galluspa.formats.scripts import AFTER, CONDITION, LARGEST, PATIENCE, POLLS, SENDS, STILL, STILL_FOR, Input, Look, Script, When
from galluspa.formats.sessions import MOST, Session
from galluspa.formats.symbolfiles import file_beside
from galluspa.interface import Call, Machine, Symbols
from galluspa.process.cli import Refused
from galluspa.suites import storedsessions
from galluspa.suites.playing import Never, Playing
from galluspa.testing.suite import Suite, suite_of, write_recording

if TYPE_CHECKING:
    from PIL.Image import Image

# pytest shows the lines of a test that call this module, and not those of the module.
__tracebackhide__ = True
# The right, the middle and the left key of the mouse, as bits.
RIGHT, MIDDLE, LEFT = 1, 2, 4


class Workstation:
    """A system that runs, as far as a test let it: inputs come when it polls them, as in a script, so a test does not depend on
    counts. Each call waits during `patience` instructions at most, and fails the test if what it waits for does not come."""

    def __init__(self, suite: Suite, start: Session, symbols: Symbols, patience: int) -> None:
        self._suite, self._session = suite, replace(start, inputs=[], checkpoints=[])
        self.symbols = symbols
        machine = suite.library.claim(self._recorded([], []), 0)
        self._events: list[Input | Look] = []
        self._playing = Playing(suite.library, machine, symbols._names, Script((), patience=patience))
        self._heard, self._sent = machine.copy(), b""

    def type(self, text: str) -> Self:
        """Types a text: each byte comes once the system asks for a key and none waits."""
        return self._inputs("key", text)

    def receive(self, text: str) -> Self:
        """Sends a text to the system over the serial line, each byte once the system polls it."""
        return self._inputs("serial", text)

    def mouse(self, x: int, y: int, keys: int = 0) -> Self:
        """Moves the mouse, once the system polls it; `keys` are LEFT 4, MIDDLE 2 and RIGHT 1, added."""
        for name, value in (("x", x), ("y", y), ("keys", keys)):
            if not 0 <= value <= LARGEST[name]:
                raise ValueError(f"{name} {value} is not in 0..{LARGEST[name]}")
        return self._play(Input(When(POLLS, "mouse"), "mouse", keys << 24 | y << 12 | x))

    def click(self, x: int, y: int, keys: int = LEFT) -> Self:
        """Moves the mouse, presses keys there, and releases them."""
        return self.mouse(x, y).mouse(x, y, keys).mouse(x, y)

    def switches(self, value: int) -> Self:
        """Sets the switches and buttons, once the system polls them."""
        if not 0 <= value <= MOST["switches"]:
            raise ValueError(f"switches {value} is not in 0..{MOST['switches']}")
        return self._play(Input(When(POLLS, "switches"), "switches", value))

    def still(self, instructions: int = STILL) -> Self:
        """Waits until nothing that a user sees has changed for a number of instructions."""
        return self._wait(When(STILL_FOR, instructions))

    def after(self, instructions: int) -> Self:
        """Runs a number of instructions."""
        return self._wait(When(AFTER, instructions))

    def sends(self, text: str) -> Self:
        """Waits until the system has sent a text since the event before."""
        return self._wait(When(SENDS, text))

    def until(self, condition: str) -> Self:
        """Waits for an instruction at which a condition of `galluspa find` holds, and stops before it."""
        return self._wait(When(CONDITION, condition))

    def _inputs(self, kind: str, text: str) -> Self:
        for byte in text.encode("latin-1"):
            self._play(Input(When(POLLS, kind), kind, byte))
        return self

    def _wait(self, when: When) -> Self:
        return self._play(Look(when, f"look-{len(self._events)}"))

    def _play(self, event: Input | Look) -> Self:
        failure = refusal = ""
        try:
            self._playing.play(event)
        except Never as why:
            failure = f"{event if isinstance(event, Input) else event.when} never comes: {why}"
        except Refused as why:
            refusal = str(why)
        # Outside the handlers, so that pytest shows the line of the test alone.
        if failure:
            pytest.fail(failure)
        if refusal:
            raise Refused(refusal)
        self._events.append(event)
        return self

    @property
    def count(self) -> int:
        """Returns how many instructions were done, up to the last event."""
        return self._playing.last or 0

    @property
    def sent(self) -> bytes:
        """Returns the bytes that the system has sent: the first 4 MiB of them."""
        heard = self._suite.library.advance(self._heard, Inputs(self._playing.inputs), self.count)
        self._sent += heard.first
        return self._sent

    @property
    def machine(self) -> Machine:
        """Returns an independent copy of the machine at the count of the last event: it gets no later inputs of this test."""
        run = RunFrom(self._suite.library, self._playing.start, Inputs(self._playing.inputs))
        run.counts = [0, self.count]
        return Machine._made(run, self._playing.at(self.count), self.symbols)

    def word(self, place: str | int) -> int:
        """Returns a word of memory, as `Machine.word` does."""
        return self.machine.word(place)

    def calls(self) -> Sequence[Call]:
        """Returns the calls that have not returned, as `Machine.calls` does, with the setting `galluspa_stack_limit`."""
        return self.machine.calls(self._suite.stack_limit)

    def screen(self) -> "Image":
        """Returns the screen, as `Machine.screen` does."""
        return self.machine.screen()

    def recording(self) -> bytes:
        """Returns the recording of the run so far, with a checkpoint at the last event, or after it if that is an input."""
        inputs = self._playing.inputs
        return self._recorded(inputs, [max(self.count, 1, inputs[-1].count + 1 if inputs else 0)])

    def _recorded(self, inputs: Sequence[Event], checkpoints: Sequence[int]) -> bytes:
        session = replace(self._session, inputs=list(inputs), checkpoints=list(checkpoints))
        return self._suite.program.recorded(session.text().encode())


class Boot:
    """Boots images: what the fixture `oberon` is."""

    def __init__(self, config: pytest.Config, folder: Path, into: Path) -> None:
        self._config = config
        self._folder = folder
        self._into = into
        self._booted: list[Workstation] = []

    def __call__(
        self,
        image: str | os.PathLike[str] | None = None,
        *,
        symbols: str | os.PathLike[str] | None = None,
        at: int | None = None,
        patience: int = PATIENCE,
        **registers: int,
    ) -> Workstation:
        """Boots an image: a session, a recording, or the bytes of a memory from the address `at` on, with registers such as
        PC=1024. The file is sought from the folder of the test on, and then from the root folder. Without an image it is that of
        --galluspa-image or of the setting `galluspa_image`."""
        suite = suite_of(self._config)
        path = self._path(suite, image)
        made = storedsessions.image_of(suite.program, path, at, [f"{name}={value}" for name, value in registers.items()])
        named = symbols or file_beside(path)
        names = Symbols.of(named) if named else Symbols()
        self._booted.append(Workstation(suite, made.put_into(Session()), names, patience))
        return self._booted[-1]

    def _path(self, suite: Suite, image: str | os.PathLike[str] | None) -> Path:
        if image is None:
            if suite.image is None:
                raise Refused("oberon() names no image: pass one, or set galluspa_image")
            return suite.image
        places = [self._folder / image, suite.folder / image]
        return next((it for it in places if it.is_file()), places[0])

    def told(self) -> Iterator[str]:
        """Yields where each system is, and writes its recording."""
        for number, it in enumerate(self._booted):
            try:
                path = self._into.with_stem(f"{self._into.stem}-{number}") if number else self._into
                write_recording(path, it.recording())
                state, names = it.machine.state, it.symbols
                yield f"count {it.count:,}, at {names.name(4 * state.pc) or f'PC {state.pc}'}; its recording: {path}"
                yield "\n".join(map(str, it.calls()))
            except Refused as why:
                yield str(why)
