"""Runs scripts on images: records the session with the counts at which events come, and what a user of the system would see.

The proved library finds the counts, and the proved program records the session and draws its screens.
"""

from collections.abc import Iterator, Sequence
from contextlib import contextmanager
from dataclasses import dataclass, field, replace

from galluspa.analysis.addresses import MEMORY_WORDS, address_in_memory, address_node, words_asked
from galluspa.analysis.conditions import breaking, conditions_of
from galluspa.analysis.drawing import Drawn, Mask
from galluspa.analysis.expressions import Moment
from galluspa.analysis.rawconditions import Condition
from galluspa.analysis.search import Search
from galluspa.formats.screens import picture
from galluspa.engine.library import Library, ignore
from galluspa.engine.machine import Inputs, Machine
from galluspa.engine.program import Program
from galluspa.engine.tracing import Run
from galluspa.formats import recording
from galluspa.formats.recording import STOPS as STOP_NAMES, WORDS, Checkpoint, Recording
from galluspa.formats.scripts import ALWAYS, CONDITION, COUNT, MEMORY, Input, Look, Script, When
from galluspa.formats.sessions import COUNTS, Session
from galluspa.formats.symbols import Symbols
from galluspa.process.cli import Refused
from galluspa.process.escapes import printable
from galluspa.suites.boots import Boots
from galluspa.suites.playing import Never, Playing


@dataclass(frozen=True)
class Seen:
    """What a user sees at a look: its name, its count, whether the machine runs, the LEDs, the screen as a PNG, and the words
    of memory that were asked for. Dots of the screen that do not count are in `mask`, and those of them in `drawn` that
    procedures drew; both are bitmaps, or empty."""

    name: str
    count: int
    stop: str
    leds: int
    screen: bytes
    memory: Sequence[str] = ()
    mask: bytes = b""
    drawn: bytes = b""

    @property
    def lines(self) -> Sequence[str]:
        """Returns everything but the pictures, as lines."""
        return [f"{self.name}: {self.stop}, LEDs {self.leds:02X}", *(f"  {line}" for line in self.memory)]


@dataclass(frozen=True)
class Ended:
    """Why a run ended early: the event that does not come, and what is known of that."""

    told: str
    event: Input | Look
    why: Never


@dataclass(frozen=True)
class Rerun:
    """A run of a script: its recording, what is seen at its looks, all bytes sent, whether it has inputs, and why it ended
    early, if it did; which procedures that masks name are never called, which keys the full queue dropped, and where a condition
    does not hold that always should."""

    text: bytes
    looks: Sequence[Seen]
    sent: bytes
    has_inputs: bool = False
    ended: Ended | None = None
    uncalled: Sequence[str] = ()
    dropped: Sequence[str] = ()
    broken: str = ""

    @property
    def failure(self) -> str:
        """Returns which event never comes, or which condition does not always hold, in a line; nothing if all is well."""
        return self.ended.told if self.ended else self.broken


@dataclass
class Rerunner:
    """Runs scripts by a library and a program. Scripts that run side by side share what comes before their first inputs."""

    library: Library
    program: Program
    boots: Boots = field(default_factory=Boots)

    def run(self, start: Session, script: Script, symbols: Symbols) -> Rerun:
        """Returns the run of a script from the initial state of a session. Raises Refused if no recording holds it, or if a
        condition or an address of the script is none."""
        always = refuse_mistakes(script, symbols)
        alone = replace(start, inputs=[], checkpoints=[])
        origin = alone.text()
        machine = self.library.claim(self.program.recorded(origin.encode()), 0)
        playing, ended = Playing(self.library, machine, symbols, script), None
        masks = [playing.mask(it) for it in script.events if isinstance(it, Look)]
        for event in script.events:
            try:
                self._play(playing, event, origin)
            except Never as why:
                told = f"{script.place(event.at)}, {event}, never comes: {why}"
                ended = Ended(told, event, why)
                _look_last(playing, why)
                break
        session = replace(start, inputs=playing.inputs, checkpoints=[count for count, _ in playing.looks]).text()

        def recorded() -> bytes:
            return self.program.recorded(session.encode())

        # Other scripts that end before their first input have the same session.
        text = recorded() if playing.inputs or not ended else self.boots.shared(session, recorded, self.library.limit)
        read = recording.read(text)
        claims = read.checkpoints[1:]
        sent = b"".join(claim.output for claim in claims)
        drawn: dict[tuple[int, ...], Drawn] = {}
        looks = []
        taken = playing.looks[: len(playing.looks) - bool(ended)]
        for claim, (_, look), (mask, procedures) in zip(claims, taken, masks):
            by_names = Mask()
            if procedures:
                drawing = drawn.setdefault(procedures, Drawn(self.library, Machine.claimed(read, 0), procedures))
                by_names = drawing.up_to(Inputs(read.events), claim.count)
            looks.append(self._seen(read, claim, look, symbols, script, mask, by_names))
        called = {at for it in drawn.values() for at in it.open.called}
        named = {part: at for _, look in taken for part, at in playing.procedures(look).items()}
        uncalled = [part for part, at in named.items() if at not in called]
        dropped = [f"{script.place(it.at)}, {it}" for it in playing.dropped]
        return Rerun(text, looks, sent, bool(playing.inputs), ended, uncalled, dropped, self._broken(read, always, script, symbols))

    def _broken(self, read: Recording, always: Sequence[Condition], script: Script, symbols: Symbols) -> str:
        """Returns where one of the conditions that break a script's first holds in a run, in a line; nothing if none does."""
        run, end = Run(self.library, read, range(len(read.checkpoints))), read.checkpoints[-1].count
        hit = Search(run, always, 0, end, tell=ignore).first() if always else None
        if hit is None:
            return ""
        at, pc = always.index(hit.condition), hit.step.before.pc
        place = symbols.text(4 * pc) or f"PC {pc}"
        return f"{ALWAYS}[{at}], {printable(script.always[at])}, does not hold at count {hit.count:,}, before {place}"

    def _play(self, playing: Playing, event: Input | Look, origin: str) -> None:
        """Finds the count of the next event. Raises Never if it does not come."""
        if playing.inputs or playing.script.mask_of(event):
            playing.play(event)
            return

        def find() -> tuple[int | Never, Machine]:
            try:
                return playing.find(event), playing.machine.copy()
            except Never as why:
                return why, playing.machine

        key = (origin, id(playing.symbols), playing.last, event.when, isinstance(event, Look), playing.script.patience)
        found, machine = self.boots.shared(key, find, self.library.limit)
        if isinstance(found, Never):
            raise found.again()
        playing.machine = machine.copy()
        playing.take(event, found)

    def _seen(
        self, read: Recording, claim: Checkpoint, look: Look, symbols: Symbols, script: Script, mask: Mask, by_names: Mask
    ) -> Seen:
        """Returns what is seen at a checkpoint of a recording."""
        screen = self.program.drawn(claim, read.display(claim))
        stop = f"stopped ({STOP_NAMES[claim.stop]})" if claim.stop else STOP_NAMES[0]
        memory = []
        for at, asked in enumerate(look.memory):
            with _placed(f"{script.place(look.at)}: {MEMORY}[{at}]"):
                memory.append(_words(read, claim, asked, symbols))
        drawn = by_names.bitmap if by_names else b""
        whole = Mask(bytes(one | other for one, other in zip(mask.bitmap, by_names.bitmap))) if mask or by_names else None
        return Seen(look.name, claim.count, stop, claim.leds, picture(screen), memory, whole.bitmap if whole else b"", drawn)


@contextmanager
def _placed(place: str) -> Iterator[None]:
    """Names the place in the script in what is refused."""
    try:
        yield
    except Refused as why:
        raise Refused(f"{place}: {why}") from why


def refuse_mistakes(script: Script, symbols: Symbols) -> Sequence[Condition]:
    """Refuses a script with an invalid condition or address, before anything runs. Returns the conditions that break those that
    always hold."""
    for event in script.events:
        if event.when.member == CONDITION:
            with _placed(f"{script.place(event.at)}: {CONDITION} of when"):
                conditions_of([str(event.when.value)], symbols)
        for at, asked in enumerate(event.memory if isinstance(event, Look) else ()):
            with _placed(f"{script.place(event.at)}: {MEMORY}[{at}]"):
                address_node(words_asked(asked)[0], symbols)
    found = []
    for at, text in enumerate(script.always):
        with _placed(f"{ALWAYS}[{at}]"):
            found.append(breaking(text, symbols))
    return found


def _look_last(playing: Playing, why: Never) -> None:
    """Adds a look to a run that ends early: where the machine stopped, or up to where the event was waited for."""
    least = 1 if playing.last is None else playing.last + 1
    end = max(least, min(why.end, COUNTS))
    playing.looks.append((end, Look(When(COUNT, end), "the-end")))


def _words(read: Recording, claim: Checkpoint, asked: str, symbols: Symbols) -> str:
    """Words of memory, after what asked for them: as many as the name has, if it is a name alone."""
    text, number = words_asked(asked)
    address = address_in_memory(text, Moment(claim, lambda at: read.word(claim, at)), symbols)
    if text == asked and (size := symbols.size(text.strip())):
        number = -(-size[0] // 4) if size[1] else min(-(-size[0] // 4), MEMORY_WORDS)
    first = address // 4
    words = (read.word(claim, at) for at in range(first, min(first + number, WORDS)))
    return f"{asked}: {' '.join(f'{word:08X}' for word in words)}"
