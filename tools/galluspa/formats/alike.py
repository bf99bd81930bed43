"""Names that are alike, so that a message says which one may be meant."""

import os
from collections.abc import Iterator, Mapping

from galluspa.formats.language import MOST

# The capital letters of names, and the longest name for which one that is like it in all letters but one is looked up.
LETTERS = "ABCDEFGHIJKLMNOPQRSTUVWXYZ0123456789_"
LONGEST_ALIKE = MOST["alike"]


def are_alike(name: str, other: str) -> bool:
    """Returns whether two names differ in the case of letters alone; or, if both have three or more, by a letter that is left
    out, is another one, or has changed places with the next."""
    one, two = sorted((name.upper(), other.upper()), key=len)
    if one == two:
        return True
    at = len(os.path.commonprefix((one, two)))
    rest, other_rest = one[at:], two[at:]
    swapped = rest[1:2] + rest[:1] + rest[2:]
    return len(one) > 2 and (rest == other_rest[1:] or rest[1:] == other_rest[1:] or swapped == other_rest)


def alike_of(name: str, known: Mapping[str, tuple[int, str]]) -> str:
    """Returns the first of known names that is like a name, or nothing. Each is known by itself in capital letters,
    with its place among them. How long this takes depends on the name, and not on how many there are."""
    found = [known[it] for it in _alike(name.upper()) if it in known]
    return min(found)[1] if found else ""


def _alike(name: str) -> Iterator[str]:
    """Yields all that is like a name in capital letters, as are_alike says, in capital letters too."""
    yield name
    if len(name) > LONGEST_ALIKE:
        return
    for at in range(len(name) + 1):
        before, after = name[:at], name[at:]
        if len(name) > 3:
            yield before + after[1:]
        if len(name) > 2:
            yield before + after[1:2] + after[:1] + after[2:]
            for letter in LETTERS:
                yield before + letter + after
                yield before + letter + after[1:]
