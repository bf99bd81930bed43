"""Makes a session from a memory image, or that of a card, registers and inputs; or extracts the session of a recording."""

from argparse import Namespace
from collections.abc import Sequence
from pathlib import Path
from textwrap import dedent

from galluspa.analysis import endings
from galluspa.engine.program import Program
from galluspa.formats import cardimages, sessions
from galluspa.formats.builds import tell_misfit
from galluspa.formats.language import LOOPS, STOPS
from galluspa.formats.recording import MEMORY_BYTES
from galluspa.formats.sessions import CHECKPOINTS, COUNTS, LONGEST_RUN, Session
from galluspa.formats.symbolfiles import symbols_for
from galluspa.formats.symbols import Symbols, address_of
from galluspa.process.cli import Parser, Refused, number, read_file, write_output


def parser() -> Parser:
    options = Parser(
        dedent(
            """\
            Prints a session (JSON) for `galluspa record`, from a memory image or a card, registers and
            inputs, or from a recording. Numbers are decimal, or hexadecimal with a leading 0x."""
        ),
        "galluspa session --memory memory.bin --set PC=64 --set R14=0x80000 --inputs inputs.csv --every 1000 --until " "20000",
    )
    options.add_file("--memory", "IMAGE", "a raw image of the initial memory, 1 MB or less")
    options.add_file(
        "--card",
        "IMAGE",
        "the image of an SD card of Project Oberon (2013): memory, R12 and R14 are as its boot loader leaves them",
    )
    options.add_number("--at", "ADDRESS", 0, MEMORY_BYTES, "the byte address where the image begins (default 0)", default=0)
    options.add_repeatable(
        "--set",
        "NAME=VALUE",
        "a number of the initial state: R0 to R15, H, PC (in words, or a name of a symbol file), "
        "flags (as NZ, or a number), rate, phase",
    )
    options.add_file("--inputs", "CSV", "the inputs: count, kind, value per line")
    options.add_argument("--checkpoints", metavar="N,N,..", help="the counts of the checkpoints")
    options.add_number("--every", "N", 1, COUNTS, "make a checkpoint every N instructions, up to --until or the end of the run")
    options.add_number("--until", "N", 1, COUNTS, "make the last checkpoint at N or before")
    ends = options.add_mutually_exclusive_group()
    endless = f"after all inputs, enters a loop that it never leaves, of at most {endings.LONGEST_LOOP:,} instructions"
    for name, end, where in (
        ("--until-stops", STOPS, "at the first count at which the machine is stopped"),
        ("--until-loops", LOOPS, f"where the machine, {endless}"),
    ):
        ends.add_argument(name, action="store_const", dest="end", const=end, help=f"make the last checkpoint {where}")
    options.add_number(
        "--most", "N", 1, COUNTS, f"look for the stop or the loop up to count N (default {LONGEST_RUN:,})", default=LONGEST_RUN
    )
    options.add_file("--of", "RECORDING", "take initial state, inputs and counts from a recording")
    options.add_output_option()
    options.add_symbols_option()
    options.add_machine_options()
    options.add_limit_option("look for the end of the run for this many seconds")
    return options


def check_counts(listed: str | None, every: int | None, until: int | None, end: str | None) -> None:
    """Refuses arguments that do not define the checkpoints."""
    if end and (listed is not None or until is not None):
        raise Refused(f"--until-{end} finds the last checkpoint: leave out --checkpoints and --until")
    if not end and ((listed is None) == (every is None) or (every is None) != (until is None)):
        raise Refused(
            "name the checkpoints: --checkpoints N,N,.., or --every N with --until N, or --until-stops or " "--until-loops"
        )


def counts_of(listed: str | None, every: int | None, until: int | None, end: int | None) -> list[int]:
    """Returns the counts of checkpoints: as listed, or at regular distances, or up to the end of the run."""
    counts: Sequence[int]
    if listed is not None:
        counts = _listed(listed)
    elif end is not None:
        counts = sorted({*range(every or end, end, every or end), end})
    else:
        counts = range(every or 1, (until or 0) + 1, every or 1)
    if not 1 <= len(counts) <= CHECKPOINTS:
        raise Refused(f"{len(counts):,} checkpoints; a session has 1 to {CHECKPOINTS:,}")
    return list(counts)


def _listed(listed: str) -> list[int]:
    counts: list[int] = []
    for written in listed.split(","):
        count, least = number(written), counts[-1] + 1 if counts else 1
        if count is None or not least <= count <= COUNTS:
            raise Refused(f"--checkpoints: {written!r} is not a count from {least:,} to {COUNTS:,}")
        counts.append(count)
    return counts


def with_number(assignment: str, symbols: Symbols) -> str:
    """Returns an assignment, with the number of a word in place of its name as the value of PC."""
    name, _, value = assignment.partition("=")
    if name.strip().upper() != "PC" or number(value) is not None:
        return assignment
    try:
        at = address_of(symbols, value.strip())
    except ValueError as why:
        raise Refused(f"--set PC: {why}") from why
    if at is not None and at % 4:
        raise Refused(f"--set PC: {value.strip()} is at byte {at:X} (hexadecimal), which is not a multiple of 4")
    return assignment if at is None else f"PC={at // 4}"


def end_of(asked: Namespace, session: Session) -> int:
    """Returns the count at which the run of a session ends as it is asked."""
    end = endings.end_of(asked, session, asked.end, asked.most)
    if asked.every and end // asked.every >= CHECKPOINTS:
        raise Refused(f"--every {asked.every:,}: {end:,} instructions have more than {CHECKPOINTS:,} checkpoints")
    return end


def of_memory(image: Path, at: int) -> Session:
    """Returns the session that begins with a memory image at an address."""
    return Session(memory=sessions.image_at(str(image), read_file(image, MEMORY_BYTES + 1), at))


def of_card(image: Path) -> Session:
    """Returns the session that begins as the boot loader leaves the machine, after it loaded a card's image."""
    session = Session(memory=cardimages.loaded(image))
    for register, value in cardimages.REGISTERS.items():
        session.registers[register] = value
    return session


def main(asked: Namespace) -> int:
    """Prints a session, made of an image or of a recording."""
    if asked.of:
        if (
            asked.memory
            or asked.card
            or asked.set
            or asked.inputs
            or asked.checkpoints
            or asked.every
            or asked.until
            or asked.at
            or asked.end
        ):
            raise Refused("--of takes everything from the recording: leave out the other options")
        text = read_file(asked.of)
        read = Program.find(asked.program).decoded(str(asked.of), text)
        write_output(asked.output, sessions.of_recording(str(asked.of), read).text())
        return 0
    if bool(asked.memory) == bool(asked.card):
        raise Refused("give --memory IMAGE, --card IMAGE or --of RECORDING (see galluspa session --help)")
    if asked.card and asked.at:
        raise Refused("--at is of --memory: a card is loaded to address 0")
    session = of_card(asked.card) if asked.card else of_memory(asked.memory, asked.at)
    symbols = symbols_for(asked.symbols, asked.card or asked.memory)
    tell_misfit(symbols, lambda: session.memory.ljust(MEMORY_BYTES, b"\0"))
    for assignment in asked.set:
        sessions.set_register(session, with_number(assignment, symbols))
    sessions.check_phase(session)
    session.inputs = sessions.inputs_of(asked.inputs) if asked.inputs else []
    check_counts(asked.checkpoints, asked.every, asked.until, asked.end)
    end = end_of(asked, session) if asked.end else None
    session.checkpoints = counts_of(asked.checkpoints, asked.every, asked.until, end)
    write_output(asked.output, session.text())
    return 0
