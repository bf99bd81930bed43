"""Changes one claim of a recording, for lessons and to test checkers."""

from argparse import Namespace
from dataclasses import replace
from pathlib import Path

from galluspa.engine.program import Program
from galluspa.formats import recording
from galluspa.formats.recording import Checkpoint
from galluspa.formats.sessions import CHECKPOINTS
from galluspa.formats.states import REGISTERS, WORDS
from galluspa.process.cli import Parser, Refused, number, read_file, write_output


def parser() -> Parser:
    options = Parser(
        "Prints a recording with one claim changed: a part of a checkpoint claims another value.",
        "galluspa claim examples/face.orsr --at 1 --set R5=9 -o false.orsr",
    )
    options.add_argument("recording", metavar="RECORDING", type=Path)
    options.add_number("--at", "K", 0, CHECKPOINTS, "the number of the checkpoint", required=True)
    options.add_argument(
        "--set",
        metavar="NAME=VALUE",
        required=True,
        help="R0 to R15, H, PC, flags, stop, timer, rate, phase, switches, LEDs, mouse, serial or disk, and what it claims",
    )
    options.add_output_option()
    options.add_program_option()
    return options


def claiming(checkpoint: Checkpoint, name: str, value: int) -> Checkpoint:
    """Returns a checkpoint that claims a value for one part."""
    if name in WORDS:
        return replace(checkpoint, **{WORDS[name]: value})
    registers = list(checkpoint.registers)
    registers[REGISTERS.index(name)] = value
    return replace(checkpoint, registers=tuple(registers))


def main(asked: Namespace) -> int:
    """Prints the recording with the changed claim."""
    program = Program.find(asked.program)
    read = program.decoded(str(asked.recording), read_file(asked.recording))
    name, _, written = asked.set.partition("=")
    value = number(written)
    if name not in (*REGISTERS, *WORDS) or value is None or value >= 1 << 32:
        names = ", ".join((*REGISTERS, *WORDS))
        raise Refused(f"--set {asked.set}: give one of {names}, an equals sign and a number below 2^32")
    if read.version < {"rate": 2, "phase": 2, "disk": 3}.get(name, 1):
        hint = " (galluspa migrate makes version 2)" if name != "disk" else ""
        raise Refused(f"{asked.recording}: a recording of version {read.version} claims no {name}{hint}")
    if asked.at >= len(read.checkpoints):
        raise Refused(f"{asked.recording}: no checkpoint {asked.at}")
    read.checkpoints[asked.at] = claiming(read.checkpoints[asked.at], name, value)
    text = recording.write(read)
    program.decoded(f"--set {asked.set}", text)
    write_output(asked.output, text)
    return 0
