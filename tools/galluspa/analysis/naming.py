"""Says by name where an instruction is, where it goes, and which word it loads or stores.

The names are from a symbol file, which may say anything. So they come after what the machine did, or on a line of their
own.
"""

import re
from collections.abc import Iterator, Sequence

from galluspa.engine.tracing import Step, lines
from galluspa.formats.instructions import address, is_branch, is_store
from galluspa.formats.symbols import Symbols

WORD_OF_MEMORY = re.compile(r"\bMem\[([0-9A-F]{6})\]")


def with_remark(shown: str, *remarks: str) -> str:
    """Returns a line, with what is said by name after it, if anything is."""
    told = ", ".join(filter(None, remarks))
    return f"{shown}  ; {told}" if told else shown


def remarks_on(step: Step, symbols: Symbols) -> Iterator[str]:
    """Yields what a symbol file says of an instruction besides its name: the line of the source, where a branch goes,
    and what is loaded or stored."""
    if not symbols or step.word is None:
        return
    if source := symbols.source(4 * step.before.pc):
        yield source
    if to := _target(step, symbols):
        yield f"to {to}"
    if at := _accessed(step, symbols):
        yield f"{'stores to' if is_store(step.word) else 'loads from'} {at}"


def _target(step: Step, symbols: Symbols) -> str:
    """Returns the name of where a branch that is taken goes."""
    is_taken = step.word is not None and is_branch(step.word) and step.after.pc != step.before.pc + 1
    return symbols.text(4 * step.after.pc) if is_taken else ""


def _accessed(step: Step, symbols: Symbols) -> str:
    """Returns the name of what is loaded or stored."""
    at = None if step.word is None else address(step.word, step.before.registers)
    return "" if at is None else symbols.text(at)


def placed_lines(step: Step, symbols: Symbols) -> list[str]:
    """Returns the lines that show an instruction, with all that is said of it by name: where it is, too."""
    *inputs, shown = lines(step)
    return [*inputs, with_remark(shown, symbols.text(4 * step.before.pc), *remarks_on(step, symbols))]


def remark_on_part(part: str, values: Sequence[str], symbols: Symbols) -> str:
    """Returns what a symbol file says of a part of a state and of its values: the names of a word of memory, or of
    those words to which program counters point."""
    if found := WORD_OF_MEMORY.search(part):
        return symbols.text(int(found[1], 16))
    names = [symbols.text(4 * int(it)) for it in values] if part.strip() == "PC" else []
    return " and ".join(name or "no name" for name in names) if any(names) else ""


def named_row(row: Sequence[str], symbols: Symbols) -> Sequence[str]:
    """Returns a row of a part and of its values, with what a symbol file says of them after it."""
    part, *values, last = row
    return (part, *values, with_remark(last, remark_on_part(part, [*values, last], symbols)))
