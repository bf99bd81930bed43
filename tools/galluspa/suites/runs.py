"""Runs of a suite: kept as JSON, compared with an earlier run, and written as JUnit XML."""

import hashlib
import json
import math
import re
from collections.abc import Sequence
from dataclasses import asdict, dataclass
from xml.etree import ElementTree

from galluspa.process.cli import Refused, read_file
from galluspa.process.escapes import printable
from galluspa.suites.cases import Case, Outcome

FORMAT = "galluspa-suite-run"
# The longest text that a run keeps of a recording, and more seconds than a run takes.
LONGEST, MOST_SECONDS = 4096, 1e12
SLOWER_BY_PART = 1.5
SLOWER_BY_SECONDS = 0.1
NOT_IN_XML = re.compile("[^\t\n\r\u0020-\ud7ff\ue000-\ufffd\U00010000-\U0010ffff]")


@dataclass(frozen=True)
class Kept:
    """What is kept of a recording's outcome: the digest of its bytes, empty if they can't be read; what was expected
    and answered, the seconds, and whether there was no answer."""

    sha256: str
    expected: str
    answered: str
    seconds: float
    is_error: bool = False


Run = dict[str, Kept]


@dataclass(frozen=True)
class Change:
    """A change since an earlier run: its kind, the recording's name, and its text."""

    kind: str
    name: str
    detail: str


def run_of(outcomes: Sequence[Outcome]) -> Run:
    """Returns what is kept of a run, by the names of the recordings."""

    def kept(it: Outcome) -> Kept:
        return Kept(digest_of(it.case), it.case.expected, it.answered, round(it.seconds, 3), it.is_error)

    return {it.case.name: kept(it) for it in outcomes}


def digest_of(case: Case) -> str:
    """Returns the digest of a recording's bytes, empty if they can't be read."""
    try:
        return hashlib.sha256(case.content()).hexdigest()
    except Refused:
        return ""


def text_of(kept: Run) -> str:
    """Returns a run as JSON."""
    recordings = {name: asdict(it) for name, it in kept.items()}
    return json.dumps({"format": FORMAT, "version": 1, "recordings": recordings}, indent=2) + "\n"


def read_run(path: str) -> Run:
    """Returns the run that a file keeps."""
    try:
        kept = json.loads(read_file(path))
        if kept["format"] != FORMAT or kept["version"] != 1:
            raise ValueError
        return {printable(name): _kept(**it) for name, it in kept["recordings"].items()}
    except (ValueError, KeyError, TypeError, AttributeError, RecursionError) as error:
        raise Refused(f"{path}: not a run of a suite, as --keep writes it") from error


def _kept(sha256: object, expected: object, answered: object, seconds: object, is_error: object = False) -> Kept:
    if not isinstance(is_error, bool):
        raise TypeError
    return Kept(_text(sha256), _text(expected), _text(answered), _seconds(seconds), is_error)


def _text(value: object) -> str:
    """Returns a text of a kept run, as it can be shown."""
    if not isinstance(value, str) or len(value) > LONGEST:
        raise TypeError
    return printable(value)


def _seconds(value: object) -> float:
    """Returns a time of a kept run."""
    if isinstance(value, bool) or not isinstance(value, int | float):
        raise TypeError
    if not 0 <= value <= MOST_SECONDS or math.isnan(value):
        raise ValueError
    return float(value)


def changes(before: Run, after: Run) -> list[Change]:
    """Returns what is another in a later run: answers first, then recordings that came and went, then times."""
    both = [(name, before[name], it) for name, it in after.items() if name in before]
    return [
        *(Change("changed", name, _told_change(old, new)) for name, old, new in both if old.answered != new.answered),
        *(Change("rewritten", name, "other bytes, the same answer") for name, old, new in both if _is_rewritten(old, new)),
        *(Change("new", name, it.answered) for name, it in after.items() if name not in before),
        *(Change("gone", name, it.answered) for name, it in before.items() if name not in after),
        *(
            Change("slower", name, f"{new.seconds:.2f} s, was {old.seconds:.2f} s")
            for name, old, new in both
            if _is_slower(old, new)
        ),
    ]


def _told_change(old: Kept, new: Kept) -> str:
    bytes_too = "" if old.sha256 == new.sha256 else " (the file changed too)"
    return f"{new.answered}, was {old.answered}{bytes_too}"


def _is_rewritten(old: Kept, new: Kept) -> bool:
    return old.sha256 != new.sha256 and old.answered == new.answered


def _is_slower(old: Kept, new: Kept) -> bool:
    return new.seconds >= max(SLOWER_BY_PART * old.seconds, old.seconds + SLOWER_BY_SECONDS)


def junit(suite: str, outcomes: Sequence[Outcome]) -> bytes:
    """Returns a run as the XML that JUnit writes and CI systems read."""
    seconds = f"{sum(it.seconds for it in outcomes):.3f}"
    errors = sum(it.is_error for it in outcomes)
    wrong = sum(not it.is_ok for it in outcomes) - errors
    counted = {"name": _in_xml(suite), "tests": str(len(outcomes)), "failures": str(wrong), "errors": str(errors), "time": seconds}
    top = ElementTree.Element("testsuites")
    tests = ElementTree.SubElement(top, "testsuite", counted)
    for it in outcomes:
        named = {"classname": _in_xml(suite), "name": _in_xml(it.case.name), "time": f"{it.seconds:.3f}"}
        test = ElementTree.SubElement(tests, "testcase", named)
        if it.is_ok:
            ElementTree.SubElement(test, "system-out").text = _in_xml(it.answered)
        else:
            message = _in_xml(it.answered if it.is_error else f"expected {it.case.expected}, answered {it.answered}")
            kind = "error" if it.is_error else "failure"
            text = "\n".join([message, *map(_in_xml, it.why)])
            ElementTree.SubElement(test, kind, {"message": message}).text = text
    ElementTree.indent(top)
    return ElementTree.tostring(top, "utf-8", xml_declaration=True) + b"\n"


def _in_xml(text: str) -> str:
    """Returns a text in one line, without the signs that XML can't hold."""
    return NOT_IN_XML.sub("\ufffd", printable(text))
