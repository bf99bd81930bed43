"""The assembler's language as the tools and the live page have it in common, in assembler.json: names, numbers, and the texts of
mistakes. The page's own assembler is web/assembler/; a test holds the two equal."""

import json
from collections.abc import Mapping
from pathlib import Path
from typing import Any

LANGUAGE: dict[str, Any] = json.loads((Path(__file__).parent / "assembler.json").read_text(encoding="utf-8"))
MOST: dict[str, int] = LANGUAGE["most"]
# How the run of a session may end.
STOPS, LOOPS = ENDS = tuple[str, ...](LANGUAGE["ends"])
# What a message quotes of a source. Of a longer text it quotes the beginning.
QUOTED, SHOWN = ("text", "name", "meant"), MOST["shown"]


def cut(text: str) -> str:
    """Returns a text of a source as a message quotes it: the beginning of a long one."""
    return text if len(text) <= SHOWN else f"{text[:SHOWN]}.."


def _shown(given: Mapping[str, object]) -> dict[str, object]:
    return {name: cut(value) if name in QUOTED and isinstance(value, str) else value for name, value in given.items()}


def mistake(name: str, /, **given: object) -> str:
    """Returns the text of a mistake, with what is given in its places."""
    return LANGUAGE["mistakes"][name].format(**_shown(given))


def advice(name: str, /, **given: object) -> str:
    """Returns the end of the text of a mistake: what may be meant, or what to write."""
    return LANGUAGE["advice"][name].format(**_shown(given))


def note(name: str, /, **given: object) -> str:
    """Returns the text of a note, which is not a mistake."""
    return LANGUAGE["notes"][name].format(**given)
