"""Says where procedures begin in a memory, and names addresses by them."""

from bisect import bisect_right
from collections.abc import Sequence
from functools import cached_property

from galluspa.assembler.encoding import LINK
from galluspa.engine.following import Call
from galluspa.formats.instructions import NEVER, is_branch
from galluspa.formats.recording import MEMORY_BYTES
from galluspa.formats.symbols import NONE, Symbols

OFFSET_BITS = 22
# The four highest bits of a call by an offset, whatever its condition.
CALL_BY_OFFSET = 15
# The highest eight bits of a branch that is always taken and makes no call: to a register's address, as a return, and by an offset.
AWAY = (0xC7, 0xE7)
# The most places in a line that says who called.
MOST_NAMED = 16


def is_call(word: int) -> bool:
    """Returns whether a word is a branch with link that may be taken."""
    return is_branch(word) and bool(word & LINK) and word >> 24 & 15 != NEVER


class Entries:
    """Where the procedures of a memory begin: where calls by an offset go to, and at names of code that come after a branch that is
    always taken, or after data. A name `X.y.z` in a procedure `X.y` is a label of that, and begins none."""

    def __init__(self, words: Sequence[int], symbols: Symbols = NONE) -> None:
        """The words of the memory."""
        self._words = words
        self._symbols = symbols

    @cached_property
    def all(self) -> list[int]:
        """Returns the addresses at which procedures begin, in rising order."""
        calls = [at for at, word in enumerate(self._words) if word >> 28 == CALL_BY_OFFSET]
        words, symbols = self._words, self._symbols
        called = {4 * ((at + 1 + words[at]) % (1 << OFFSET_BITS)) for at in calls}
        apart = {
            at
            for at in symbols.begins()
            if not at or words[at // 4 - 1] >> 24 in AWAY or symbols.has_data and symbols.is_data(at - 4)
        }
        begins = list[int]()
        for at in sorted(called | apart):
            if at in called or not (begins and self._is_label(at, begins[-1])):
                begins.append(at)
        return begins

    def _is_label(self, at: int, begin: int) -> bool:
        """Returns whether the name of an address is that of a label, `X.y.z`, in the procedure that begins before it: in `X.y`, or
        in one that has a label `X.y`."""
        before = self._symbols.text(at).rpartition(".")[0]
        return "." in before and any(begin <= place < at for place in self._symbols.places(before))

    def entry_of(self, at: int) -> int | None:
        """Returns where the procedure begins that an address is in; None if none begins before it."""
        before = bisect_right(self.all, at) - 1
        return self.all[before] if before >= 0 else None

    def end_of(self, at: int) -> int:
        """Returns where the next procedure after an address begins, or the end of memory."""
        following = bisect_right(self.all, at)
        return self.all[following] if following < len(self.all) else MEMORY_BYTES

    def text(self, at: int) -> str:
        """Returns an address as the name of the procedure that it is in, or as the last name before it, or as a
        number."""
        return self._text(at, at)

    def text_after_call(self, back: int) -> str:
        """Returns the address after a call by the name of the procedure that calls: another one may begin right there."""
        return self._text(back, back - 4)

    def _text(self, at: int, named: int) -> str:
        """Returns an address by the name of the procedure that another address is in."""
        begin = self.entry_of(named)
        if begin is None or self._symbols.start_of(begin) != begin:
            begin = self._symbols.start_of(named)
        if begin is None:
            return f"0x{at:X}"
        return self._symbols.text(begin) + (f" + 0x{at - begin:X}" if at > begin else "")

    def stack(self, pc: int, calls: Sequence[Call]) -> list[str]:
        """Returns the names of where a machine is, and of where its open calls come back to, the last call first."""
        return [self.text(4 * pc), *(self.text_after_call(4 * call.back) for call in reversed(calls))]

    def line(self, pc: int, calls: Sequence[Call]) -> str:
        """Returns a line of these names, of which those of the oldest calls are left out if they are many."""
        left_out = max(len(calls) + 1 - MOST_NAMED, 0)
        names = self.stack(pc, calls[left_out:])
        return " < ".join([*names, f"{left_out:,} more"] if left_out else names)
