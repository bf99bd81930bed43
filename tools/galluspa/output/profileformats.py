"""Writes profiles as text, and what differs between two of them."""

from collections.abc import Iterator

from galluspa.analysis.profiles import Profile, Row


def share(some: int, of: int) -> str:
    """Returns a share of a total in percent."""
    return f"{100 * some / of if of else 0:.1f} %"


def text(profile: Profile) -> Iterator[str]:
    """Yields the procedures of a profile, and the calls between them."""
    yield summary(profile)
    yield ""
    yield f"{'instructions':>14}  {'':>7}  {'with callees':>14}  {'':>7}  {'calls':>12}  procedure"
    for it in profile.rows():
        shares = share(it.own, profile.instructions), share_with_callees(it, profile)
        yield f"{it.own:>14,}  {shares[0]:>7}  {it.text:>14}  {shares[1]:>7}  {it.calls:>12,}  {it.procedure.name}"
    yield ""
    yield f"{'calls':>12}  {'with callees':>14}  by"
    inclusive = profile.inclusive_edges()
    for (caller, called), number in sorted(profile.edges().items(), key=lambda it: (-it[1], it[0])):
        yield f"{number:>12,}  {inclusive[caller, called]:>14,}  {caller.name} of {called.name}"


def share_with_callees(row: Row, profile: Profile) -> str:
    """Returns what a procedure takes with callees in percent, if something called it."""
    return share(row.inclusive, profile.instructions) if row.inclusive or row.calls else ""


def summary(profile: Profile) -> str:
    """Returns what was counted."""
    return f"{profile.instructions:,} instructions from count {profile.first:,} to {profile.to:,}"


def difference(profile: Profile, other: Profile) -> Iterator[str]:
    """Yields the procedures whose instructions or calls differ between two profiles, what differs most first."""
    here, there = ({it.procedure.name: (it.own, it.calls) for it in one.rows()} for one in (profile, other))
    nothing = (0, 0)
    rows = [(name, here.get(name, nothing), there.get(name, nothing)) for name in {**here, **there}]
    saved = profile.instructions - other.instructions
    yield f"{profile.instructions:,} instructions here, {other.instructions:,} in the other: {saved:+,}"
    yield ""
    yield f"{'difference':>14}  {'here':>14}  {'in the other':>14}  {'calls':>10}  {'in the other':>12}  procedure"
    for name, one, two in sorted(rows, key=lambda it: (-abs(it[1][0] - it[2][0]), it[0])):
        if one != two:
            yield f"{one[0] - two[0]:>+14,}  {one[0]:>14,}  {two[0]:>14,}  {one[1]:>10,}  {two[1]:>12,}  {name}"
