"""Makes the session of an assembled source: registers, rate, inputs, and the counts of its checkpoints."""

from collections.abc import Callable, Iterator
from dataclasses import dataclass, field

from galluspa.assembler.assembly import Assembly, Problem, only
from galluspa.assembler.statements import (
    CHECKPOINTS,
    EVERY,
    INPUT,
    INSTRUCTION,
    PHASE,
    RATE,
    SET,
    SETTINGS,
    START,
    UNTIL,
    Argument,
    Statement,
    content,
    expect_commas,
    is_string,
)
from galluspa.assembler.tokens import wrong
from galluspa.formats.language import ENDS, note
from galluspa.formats.recording import FLAGS, MEMORY_BYTES, MOUSE, WORD, Event
from galluspa.formats.sessions import CHECKPOINTS as MOST_CHECKPOINTS, COUNTS, INPUTS, KIND_NUMBERS, LONGEST_RUN, MOST, Session


@dataclass
class Settings:
    """What a source says of its session: the session without its checkpoints, their counts as far as they are listed,
    how the rest of them are found, and the count of each line with an input."""

    session: Session = field(default_factory=Session)
    counts: set[int] = field(default_factory=set)
    every: Statement | None = None
    step: int = 0
    last: int = 0
    until: Statement | None = None
    inputs: list[tuple[int, Statement]] = field(default_factory=list)
    end: str = ""
    most: int = LONGEST_RUN


def settings_of(it: Assembly) -> Settings:
    """Returns what a source says of its session; what is wrong with it joins the problems of the source."""
    made = Settings()
    instructions = (statement.here for statement in it.statements if statement.does == INSTRUCTION)
    made.session.pc = next(instructions, 0) // 4
    for statement in it.statements:
        if statement.does in SETTINGS:
            with it.keeping(statement.line):
                expect_commas(statement)
                SETTERS[statement.does](it, made, statement)
    _check(it, made)
    made.session.memory = bytes(it.memory)
    return made


def set_checkpoints(it: Assembly, settings: Settings, end: int | None) -> None:
    """Sets the checkpoints of the session, of which the last may be at an end that was found."""
    counts, number = settings.counts | ({end} if end else set()), 0
    if settings.every:
        last = settings.last or end or 0
        number = last // settings.step
        counts |= set(range(settings.step, min(last, settings.step * MOST_CHECKPOINTS) + 1, settings.step))
    if max(number, len(counts)) > MOST_CHECKPOINTS:
        statement = settings.every or next(one for one in it.statements if one.does == CHECKPOINTS)
        with it.keeping(statement.line):
            raise wrong(statement.name.column, "tooMany", most=MOST_CHECKPOINTS)
    settings.session.checkpoints = sorted(counts)


def notes_of(settings: Settings) -> Iterator[Problem]:
    """Yields what is lawful in a session with its checkpoints, and may surprise: that it has none, or that inputs come too
    late for the last of them."""
    counts = settings.session.checkpoints
    if not counts:
        yield Problem(1, 1, note("noCheckpoint"))
        return
    late = [statement for count, statement in settings.inputs if count >= counts[-1]]
    if late:
        text = note("lateOnes" if len(late) > 1 else "late", more=len(late) - 1, count=counts[-1])
        yield Problem(late[0].line, late[0].name.column, text)


def _check(it: Assembly, made: Settings) -> None:
    """Finds what is wrong with the settings as a whole."""
    session = made.session
    if session.phase >= max(session.rate, 1):
        line, column = next(((one.line, one.name.column) for one in it.statements if one.does == PHASE), (1, 1))
        with it.keeping(line):
            raise wrong(column, "phase", phase=session.phase, rate=session.rate)
    if made.every and not made.last and not made.until:
        with it.keeping(made.every.line):
            raise wrong(made.every.name.column, "everyEnd")
    if len(session.inputs) > INPUTS:
        line, column = next((one.line, one.name.column) for one in it.statements if one.does == INPUT)
        with it.keeping(line):
            raise wrong(column, "inputs", number=len(session.inputs), most=INPUTS)


def _bounded(it: Assembly, statement: Statement, argument: Argument, least: int, most: int, what: str) -> int:
    number = it.value(argument, statement.here).number
    if not least <= number <= most:
        raise wrong(argument.column, "range", what=what, number=number, least=least, most=most, advice="")
    return number


def _start(it: Assembly, made: Settings, statement: Statement) -> None:
    argument = only(statement)
    at = _bounded(it, statement, argument, 0, MEMORY_BYTES - 1, "the byte address")
    if at % 4:
        raise wrong(argument.column, "start", number=at)
    made.session.pc = at // 4


def _set(it: Assembly, made: Settings, statement: Statement) -> None:
    """Sets a register to a word, or flags by their letters."""
    argument = only(statement)
    if len(argument.tokens) < 3 or not argument.tokens[1].is_mark("="):
        raise wrong(argument.column, "set")
    name, value = argument.tokens[0], Argument(argument.tokens[2:], argument.end)
    if name.text.lower() == "flags":
        made.session.flags = _flags(value)
        return
    number = _bounded(it, statement, value, -(1 << 31), WORD, "the value") & WORD
    if (register := it.register_of(name.text)) is not None:
        made.session.registers[register] = number
    elif name.text.upper() == "H":
        made.session.h = number
    else:
        raise wrong(name.column, "setName", name=name.text)


def _flags(value: Argument) -> int:
    letters = value.text.upper()
    if not set(letters) <= set(FLAGS):
        raise wrong(value.column, "flags", text=value.text, letters=FLAGS)
    return sum(8 >> FLAGS.index(letter) for letter in set(letters))


def _rate(it: Assembly, made: Settings, statement: Statement) -> None:
    made.session.rate = _bounded(it, statement, only(statement), 0, WORD, "the rate")


def _phase(it: Assembly, made: Settings, statement: Statement) -> None:
    made.session.phase = _bounded(it, statement, only(statement), 0, WORD, "the phase")


def _input(it: Assembly, made: Settings, statement: Statement) -> None:
    """Adds an input, or one for each byte of a string."""
    if len(statement.arguments) != 3:
        raise wrong(statement.name.column, "input")
    count, kind, value = statement.arguments
    least = made.session.inputs[-1].count if made.session.inputs else 0
    at = _bounded(it, statement, count, least, COUNTS, "the count")
    made.inputs.append((at, statement))
    name = kind.text.lower()
    if name not in KIND_NUMBERS:
        raise wrong(kind.column, "kind", name=kind.text, names=", ".join(MOST))
    if is_string(value) and name in ("key", "serial"):
        made.session.inputs += [Event(at, KIND_NUMBERS[name], byte) for byte in content(value)]
        return
    number = _bounded(it, statement, value, 0, MOST[name], f"the value for {name}")
    if name == "mouse" and number & ~MOUSE:
        raise wrong(value.column, "mask", number=number, mask=f"{MOUSE:08X}")
    made.session.inputs.append(Event(at, KIND_NUMBERS[name], number))


def _checkpoints(it: Assembly, made: Settings, statement: Statement) -> None:
    if not statement.arguments:
        raise wrong(statement.name.column, "checkpoints")
    for argument in statement.arguments:
        made.counts.add(_bounded(it, statement, argument, 1, COUNTS, "the count"))


def _every(it: Assembly, made: Settings, statement: Statement) -> None:
    _once(it, made.every, statement)
    if not 1 <= len(statement.arguments) <= 2:
        raise wrong(statement.name.column, "every")
    step, *last = [_bounded(it, statement, one, 1, COUNTS, "the count") for one in statement.arguments]
    made.every, made.step, made.last = statement, step, last[0] if last else 0


def _until(it: Assembly, made: Settings, statement: Statement) -> None:
    _once(it, made.until, statement)
    made.until = statement
    if not 1 <= len(statement.arguments) <= 2 or statement.arguments[0].text.lower() not in ENDS:
        raise wrong(statement.name.column, "until")
    made.end = statement.arguments[0].text.lower()
    for most in statement.arguments[1:]:
        made.most = _bounded(it, statement, most, 1, COUNTS, "the count")


def _once(it: Assembly, before: Statement | None, statement: Statement) -> None:
    if before:
        where = it.line_text(before.line, statement.line)
        raise wrong(statement.name.column, "again", name=statement.name.text, where=where)


SETTERS: dict[str, Callable[[Assembly, Settings, Statement], None]] = {
    START: _start,
    SET: _set,
    RATE: _rate,
    PHASE: _phase,
    INPUT: _input,
    CHECKPOINTS: _checkpoints,
    EVERY: _every,
    UNTIL: _until,
}
