"""The open calls of a run, worked out naively from single instructions by the definition in include/galluspa.h."""

from collections.abc import Iterator, Sequence

from galluspa.engine.following import EACH_RISE, Call
from galluspa.engine.tracing import Step
from galluspa.formats.instructions import is_branch, is_taken

LINK = 1 << 28
PC_WORDS = 1 << 22


def stacks(steps: Sequence[Step], limit: int = EACH_RISE) -> Iterator[tuple[Call, ...]]:
    """Yields the calls that are open before each of the instructions from the beginning of a run on, and after the last one."""
    stack: tuple[Call, ...] = ()
    for step in steps:
        yield stack
        stack = after(step, stack, limit)
    yield stack


def after(step: Step, stack: tuple[Call, ...], limit: int) -> tuple[Call, ...]:
    """Returns the calls that are open after an instruction."""
    before, pc = step.before, step.after.pc
    if before.stop or step.word is None or not is_branch(step.word) or not is_taken(step.word, before.flags):
        return stack
    links, pointer = bool(step.word & LINK), before.registers[14]
    new = Call(before.count, before.pc, pc, (before.pc + 1) % PC_WORDS, pointer)
    returned = any(call.sp == pointer and call.back == pc for call in stack)
    staying = list[Call]()
    for call in stack:
        gives_up = call.sp < pointer <= limit
        returns = call.sp == pointer and call.back == pc
        makes_again = call.sp == pointer and call.at == before.pc and links
        if pc != before.pc + 1 and (gives_up or returns or makes_again):
            break
        staying.append(call)
    is_call = links and pc != new.back and not returned
    return (*staying, *([new] if is_call else []))
