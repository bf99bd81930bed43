"""The command of `galluspa debug` that says where a value comes from."""

import re
from collections.abc import Iterator

from galluspa.analysis.expressiontexts import literal
from galluspa.analysis.origintexts import lines
from galluspa.analysis.writers import LINKS, MOST_LINKS, Writers, origins_asked
from galluspa.debugger.base import Base
from galluspa.formats.symbols import shown
from galluspa.process.cli import Refused


class Whys(Base):
    """The command `why`."""

    def why(self, text: str) -> Iterator[str]:
        """Yields where the value of a part comes from, as the lines of a tree; /N before the part limits its links."""
        found = re.match(r"/(\S*)\s*", text)
        most = literal(found[1]) if found else LINKS
        if most is None or not 1 <= most <= MOST_LINKS:
            raise Refused(f"{shown(text)}: expected why PART, or why/N PART with at most N links, up to {MOST_LINKS:,}")
        debugger, part = self.debugger, text[found.end() :] if found else text
        writers = Writers(debugger.run, debugger.jobs, debugger.stack_limit)
        values = origins_asked(writers, debugger.machine, part, debugger.symbols, most)
        yield from lines(values, debugger.symbols, self.sources)
