"""Prints the machine at any count of a recording: registers, flags, devices, the instruction, memory and the stack.

It shows the machine's own run, whatever the recording claims, and begins at the last checkpoint at or before the count
that the check finds true.
"""

from argparse import Namespace
from collections.abc import Iterator
from pathlib import Path
from textwrap import dedent

from galluspa.analysis import inspection
from galluspa.analysis.addresses import MEMORY_WORDS, address_in_memory, moment_of, words_asked
from galluspa.analysis.calls import Calls, add_stack_limit_option
from galluspa.analysis.inspection import STACK_WORDS
from galluspa.analysis.naming import placed_lines
from galluspa.engine.machine import Machine
from galluspa.engine.opening import opened
from galluspa.engine.tracing import Run
from galluspa.formats.sessions import COUNTS
from galluspa.formats.symbols import Symbols
from galluspa.process.cli import OK, Failed, Output, Parser, write_file
from galluspa.process.timelimit import Limit, TimeIsUp


def parser() -> Parser:
    options = Parser(
        dedent(
            """\
            Prints the machine at any count of a recording: the registers, the flags, the devices, the
            instruction that it does next and what that changes. It shows the machine, whatever the recording
            claims. An ADDRESS is a number, a register such as R14 or SP, or a name of a symbol file, each with
            + or - a number after it. Numbers are decimal, or hexadecimal with 0x in front."""
        ),
        "galluspa state examples/face.orsr --at 8000000 --memory R13,4",
    )
    options.add_argument("recording", metavar="RECORDING", type=Path)
    options.add_number("--at", "N", 0, COUNTS, "the count (default: that of the last checkpoint)")
    options.add_repeatable(
        "--memory",
        "ADDRESS[,WORDS]",
        f"print words of memory, too, from the one at an address on (default {MEMORY_WORDS} "
        "words): each as a word, as a number, as bytes and as characters; repeatable",
    )
    options.add_repeatable(
        "--code", "ADDRESS[,WORDS]", f"print the instructions in words of memory, too (default {MEMORY_WORDS} words); repeatable"
    )
    options.add_flag(
        "--stack",
        f"print the calls that have not returned, too, and the {STACK_WORDS} words from R14 on, with those that are their "
        "return addresses",
    )
    add_stack_limit_option(options)
    options.add_file("--screen", "FILE", "draw the screen into a file: a PNG, or a PBM if its name ends with .pbm", kind=Output)
    options.add_symbols_option()
    options.add_limit_option("end after this many seconds")
    options.add_machine_options()
    return options


def shown(run: Run, machine: Machine, asked: Namespace, symbols: Symbols) -> Iterator[str]:
    """Yields the lines that show a machine, and the memory that the options name."""
    state = machine.seen()
    yield inspection.status_line(state)
    if not state.stop:
        step = next(run.steps(machine.copy(), machine.count + 1))
        yield from placed_lines(step, symbols)
    yield from inspection.register_lines(state, symbols)
    yield from inspection.device_lines(state)
    for text in asked.memory:
        address, words = words_asked(text)
        yield ""
        yield from inspection.memory_lines(machine, address_in_memory(address, moment_of(machine), symbols), words, symbols)
    for text in asked.code:
        address, words = words_asked(text)
        yield ""
        first = address_in_memory(address, moment_of(machine), symbols) // 4
        yield from inspection.instruction_lines(machine, first, words, symbols)
    if asked.stack:
        yield ""
        calls = Calls(run, asked.stack_limit).at(machine.count)
        yield f"stack: {inspection.entries_of(machine, symbols).line(state.pc, calls)}"
        yield from inspection.stack_lines(machine, STACK_WORDS, symbols, calls)


def main(asked: Namespace) -> int:
    """Prints the machine at a count."""
    it = opened(asked, Limit(asked.limit))
    run, symbols, program, at = it.run, it.symbols, it.program, it.count(asked.at)
    try:
        machine = run.machine(at)
        lines = list(shown(run, machine, asked, symbols))
        if asked.screen:
            write_file(asked.screen, inspection.picture_of(inspection.screen_of(machine, program), asked.screen))
    except TimeIsUp as over:
        raise Failed(f"{over}: the machine at {at:,} was not reached") from over
    print("\n".join(lines))
    return OK
