"""Code coverage: which words, source lines, branches and procedures of the recorded program runs execute."""

from collections.abc import Iterable, Iterator, Sequence
from dataclasses import dataclass, field
from itertools import groupby

from galluspa.analysis.executioncounts import Branch, Executions, is_conditional
from galluspa.analysis.procedures import Procedure, Procedures
from galluspa.formats.symbols import Symbols
from galluspa.process.escapes import printable

Line = tuple[str, int]


@dataclass(frozen=True)
class Share:
    """A covered count and its total."""

    some: int = 0
    all: int = 0

    def __add__(self, more: "Share") -> "Share":
        return Share(self.some + more.some, self.all + more.all)

    def __str__(self) -> str:
        return f"{self.some:,} of {self.all:,}"


@dataclass(frozen=True)
class Covered:
    """What runs execute of a procedure: how often each of its words and lines, and its conditional branches. One whose
    word was not executed is taken never, and passed never."""

    procedure: Procedure
    visits: dict[int, int]
    lines: dict[Line, int] = field(default_factory=dict)
    branches: Sequence[Branch] = ()

    @property
    def entered(self) -> int:
        """Returns how often the first word was executed."""
        return self.visits.get(self.procedure.at, 0)

    @property
    def instructions(self) -> int:
        """Returns how many instructions were executed in it."""
        return sum(self.visits.values())

    @property
    def shares(self) -> tuple[Share, Share, Share, Share]:
        """Returns how many procedures, words, lines, and ways of its branches were executed: of this procedure alone,
        and of its words."""
        ways = [count for it in self.branches for count in (it.taken, it.passed)]
        return (Share(int(self.instructions > 0), 1), _share(self.visits.values()), _share(self.lines.values()), _share(ways))

    @property
    def missing(self) -> list[range]:
        """Returns the words that were not executed, in ranges of those that follow one another."""
        numbers = [at for at, count in self.visits.items() if not count]
        groups = groupby(enumerate(numbers), lambda it: it[1] - it[0])
        runs = [[at for _, at in group] for _, group in groups]
        return [range(run[0], run[-1] + 1) for run in runs]


def _share(counts: Iterable[int]) -> Share:
    """Returns how many of these counts are above 0."""
    numbers = list(counts)
    return Share(sum(it > 0 for it in numbers), len(numbers))


@dataclass(frozen=True)
class CodeCoverage:
    """What runs execute of a program."""

    seen: Executions
    procedures: Procedures
    covered: list[Covered]

    @staticmethod
    def of(seen: Executions, symbols: Symbols) -> "CodeCoverage":
        """Returns the coverage of what runs executed, by the names of a symbol file."""
        procedures = Procedures(seen, symbols)
        executed = {it.at: it for it in seen.branches()}

        def covered(procedure: Procedure, words: Sequence[int]) -> Covered:
            visits = {at: seen.visits.get(at, 0) for at in words}
            lines: dict[Line, int] = {}
            for at in words:
                source = procedures.source(at)
                if source.file:
                    key = (source.file, source.line)
                    lines[key] = max(lines.get(key, 0), visits[at])
            ways = [at for at in words if at not in seen.changed and is_conditional(procedures.word(at), at)]
            return Covered(procedure, visits, lines, [executed.get(at, Branch(at, 0, 0)) for at in ways])

        return CodeCoverage(seen, procedures, [covered(*it) for it in procedures.all().items()])

    def modules(self) -> dict[str, list[Covered]]:
        """Returns the procedures of each module, in the order of the memory."""
        found: dict[str, list[Covered]] = {}
        for it in self.covered:
            found.setdefault(it.procedure.module, []).append(it)
        return found

    def place(self, at: int) -> str:
        """Returns a word by name, with its line of the source if it is known."""
        source = self.procedures.source(at)
        return f"{self.procedures.place(at)} ({source.text})" if source.file else self.procedures.place(at)

    def text(self) -> Iterator[str]:
        """Yields the coverage as lines of text."""
        if self.seen.changed:
            yield f"{len(self.seen.changed):,} words are not always the same: they count for no branch"
        rows = [(name, total(its)) for name, its in self.modules().items()]
        yield f"{'procedures':>12}  {'words':>16}  {'lines':>16}  {'branch ways':>16}  module"
        for name, shares in [*rows, ("all", total(self.covered))]:
            yield "  ".join([f"{str(shares[0]):>12}", *(f"{str(it):>16}" for it in shares[1:]), printable(name)])
        yield ""
        yield f"{'entered':>12}  {'instructions':>16}  {'words':>16}  {'branch ways':>16}  procedure"
        for it in self.covered:
            words, ways = it.shares[1], it.shares[3]
            yield f"{it.entered:>12,}  {it.instructions:>16,}  {str(words):>16}  {str(ways):>16}  {it.procedure.name}"
        yield from self._missing()

    def _missing(self) -> Iterator[str]:
        """Yields the lines that say what was not executed: procedures, words and ways of branches."""
        for it in self.covered:
            if not it.instructions:
                yield f"never executed: {self.place(it.procedure.at)}, {len(it.visits):,} words"
        for it in self.covered:
            for run in it.missing if it.instructions else ():
                more = f" to {self.place(run[-1])}" if len(run) > 1 else ""
                yield f"not executed: {self.place(run[0])}{more}"
        for branch in (branch for it in self.covered for branch in it.branches):
            if bool(branch.taken) != bool(branch.passed):
                never, times = ("not taken", branch.taken) if branch.taken else ("taken", branch.passed)
                yield f"never {never}: the branch at {self.place(branch.at)}, executed {times:,} times"


def total(covered: Iterable[Covered]) -> list[Share]:
    """Returns the procedures, words, lines and ways of branches of several procedures that were executed."""
    shares = [Share()] * 4
    for it in covered:
        shares = [one + more for one, more in zip(shares, it.shares)]
    return shares
