"""Adds up how long a run is in each way of calls, from the turns of its open calls, in memory that does not grow with the run.

A context is a list of open calls, by the words that they come from and go to. A turn leads from one context to another. There are
millions of turns, so functions of the standard library that are written in C go through them: a context is a dictionary of those
to which turns led from it.
"""

from collections import Counter, deque
from collections.abc import Callable
from itertools import accumulate, chain
from operator import add, getitem, sub

from galluspa.analysis.procedures import Procedure
from galluspa.engine.following import NO_CALL, TURN, Call

# The call that is made at a turn is one number: its word, and 2^32 times the word that it goes to.
WORD_BITS, WORD = 32, (1 << 32) - 1
# The most contexts that are kept besides those that are open.
MOST_CONTEXTS = 1 << 16
# A word of a call, and the one that it goes to.
Site = tuple[int, int]
Edge = tuple[Procedure, Procedure]


class Arrival(dict[tuple[int, int], "Arrival"]):
    """A context that a call led to, or a return; and what each turn then leads to, by how many calls stay and by the call that is
    made."""

    __slots__ = ("context", "is_by_call")
    __hash__ = object.__hash__  # type: ignore[assignment]
    __eq__ = object.__eq__

    def __init__(self, context: "Context", is_by_call: bool) -> None:
        self.context = context
        self.is_by_call = is_by_call

    def __missing__(self, turn: tuple[int, int]) -> "Arrival":
        stay, call = turn
        context = self.context
        while context.depth > stay and context.parent:
            context = context.parent
        self[turn] = found = context.by_return if call == NO_CALL else context.called(call & WORD, call >> WORD_BITS).by_call
        return found


class Context:
    """Open calls: the last one, and the context in which that was made. Notes the instructions that were done in it, and how often
    it was called."""

    __slots__ = ("parent", "site", "depth", "steps", "calls", "children", "by_call", "by_return")

    def __init__(self, parent: "Context | None" = None, site: Site = (NO_CALL, 0)) -> None:
        self.parent = parent
        self.site = site
        self.depth: int = parent.depth + 1 if parent else 0
        self.steps = self.calls = 0
        self.children: dict[Site, Context] = {}
        self.by_call, self.by_return = Arrival(self, True), Arrival(self, False)

    def called(self, at: int, to: int) -> "Context":
        """Returns the context of a call that is made in this one."""
        if (at, to) not in self.children:
            self.children[at, to] = Context(self, (at, to))
        return self.children[at, to]

    def all(self) -> "list[Context]":
        """Returns this and all that come from it, each after the one in which it is called."""
        found, left = list[Context](), [self]
        while left:
            found.append(left.pop())
            left += found[-1].children.values()
        return found


class Totals:
    """What a run takes in calls: of procedures, of calls of one by another, and of calls by a word, the instructions that are done
    while such a call is open; and how often each word called a procedure."""

    def __init__(self, procedure_of: Callable[[int], Procedure]) -> None:
        """Which procedure a word is in."""
        self.inclusive: Counter[Procedure] = Counter()
        self.of_edges: Counter[Edge] = Counter()
        self.of_sites: Counter[tuple[int, Procedure]] = Counter()
        self.calls: Counter[tuple[int, Procedure]] = Counter()
        self._procedure_of = procedure_of

    def add(self, top: Context) -> None:
        """Adds what was noted in a context without calls, and in all that come from it."""
        whole: Counter[Context] = Counter()
        for it in reversed(top.all()):
            whole[it] += it.steps
            if it.parent:
                whole[it.parent] += whole[it]
        opened: Counter[object] = Counter()
        left = [(top, False)]
        while left:
            it, is_done = left.pop()
            caller, called = (self._procedure_of(word) for word in it.site) if it.parent else (None, None)
            keys = (called, (caller, called), (it.site[0], called)) if called else ()
            if is_done:
                opened.subtract(keys)
                continue
            if caller and called:
                for key, sums in zip(keys, (self.inclusive, self.of_edges, self.of_sites)):
                    sums[key] += 0 if opened[key] else whole[it]  # type: ignore[index]
                opened.update(keys)
                self.calls[it.site[0], called] += it.calls
            left.append((it, True))
            left += [(child, False) for child in it.children.values()]


class CallTree:
    """The contexts of a run, with what was done in each."""

    def __init__(self, calls: tuple[Call, ...], first: int) -> None:
        """The calls that are open at the first count."""
        self.top = Context()
        self._last, self._made = first - 1, 1
        self._here = self._opened([(it.at, it.to) for it in calls]).by_return

    @property
    def is_full(self) -> bool:
        """Returns whether there are too many contexts."""
        return self._made > MOST_CONTEXTS

    def add(self, turns: memoryview) -> None:
        """Adds the next turns of the run."""
        if not turns:
            return
        numbers = turns.cast("Q")
        counts, stays, calls = (numbers[at :: TURN.size // 8].tolist() for at in range(3))
        arrivals = list(accumulate(zip(stays, calls), getitem, initial=self._here))
        # How long the last one is followed by no turn is not known: it is left for the next time.
        self._here = arrivals.pop()
        times = Counter(arrivals)
        steps = dict.fromkeys(times, 0)
        following = map(sub, counts, chain([self._last], counts))
        deque(map(steps.__setitem__, arrivals, map(add, map(steps.__getitem__, arrivals), following)), maxlen=0)
        self._last = counts[-1]
        for arrival, number in times.items():
            self._note(arrival, number, steps[arrival])

    def _note(self, arrival: Arrival, times: int, steps: int) -> None:
        """Notes that a context was come to, and how many instructions were done in it."""
        context = arrival.context
        self._made += not context.steps
        context.steps += steps
        context.calls += times * arrival.is_by_call

    def end(self, count: int) -> None:
        """Adds the instructions up to a count, before which no further turn comes."""
        self._note(self._here, 1, count - 1 - self._last)
        self._last, self._here = count - 1, self._here.context.by_return

    def move_to(self, totals: Totals) -> None:
        """Adds all that was noted to totals, and keeps only the context that is open."""
        totals.add(self.top)
        sites, it = list[Site](), self._here.context
        # A call that was made by the last turn is not noted yet.
        is_by_call = self._here.is_by_call
        while it.parent:
            sites.append(it.site)
            it = it.parent
        self.top, self._made = Context(), 1
        here = self._opened(sites[::-1])
        self._here = here.by_call if is_by_call else here.by_return

    def _opened(self, sites: list[Site]) -> Context:
        it = self.top
        for site in sites:
            it = it.called(*site)
        return it
