"""Makes the page that explains the assembler's language, docs/assembler.md: its text, and each instruction with an
example."""

from collections.abc import Iterator
from pathlib import Path
from textwrap import fill

from galluspa.assembler.assembly import BUILT_IN
from galluspa.assembler.mnemonics import BRANCHES, word_of
from galluspa.formats.instructions import instruction
from galluspa.formats.language import LANGUAGE

HELP = LANGUAGE["help"]
# Where this page says more of a directive.
LINKS = {"input": ". [How to find the count](#keys-and-the-screen)"}
COLUMNS = 132

STOP = "[stop 1](machine.md#stops-own-choice)"

TEXT = Path(__file__).parent / "reference.md.in"


def reference() -> str:
    """Returns the page."""
    text = TEXT.read_text(encoding="utf-8")
    tables = {
        "@REGISTERS@": _registers(),
        "@DEVICES@": _devices(),
        "@INSTRUCTIONS@": _instructions(),
        "@BRANCHES@": _branches(),
        "@DIRECTIVES@": _directives(),
    }
    for name, rows in tables.items():
        text = text.replace(name, "\n".join(rows))
    return text.replace("@RULES@", fill(" ".join(rule for _, rule in HELP["rules"]), COLUMNS))


def _devices() -> Iterator[str]:
    for name, value in BUILT_IN.items():
        yield f"| `{name}` | {value if value < 0 else f'{value:X}H'} | {HELP['devices'][name]} |"


def _registers() -> Iterator[str]:
    for names, what in HELP["registers"]:
        first, *others = (f"`{name}`" for name in names.split())
        written = f"{first} to {others[-1]}" if len(others) > 1 else ", ".join((first, *others))
        yield f"| {written} | {what} |"


def _directives() -> Iterator[str]:
    for forms, does in HELP["directives"]:
        written = ", ".join(f"`{form}`" for form in forms.split("; "))
        yield f"| {written} | {does}{LINKS.get(forms.split()[0], '')} |"


def _instructions() -> Iterator[str]:
    """Yields a row for each example, at word 100."""
    for example, _ in HELP["examples"]:
        word = word_of(example)
        meaning = instruction(word, 100).meaning
        yield f"| `{example}` | `{word:08X}` | {STOP if meaning == 'stop 1' else meaning} |"


def _branches() -> Iterator[str]:
    """Yields a row for each condition, of a branch and a call at word 100."""
    for name in (it for it, (_, link) in BRANCHES.items() if not link):
        branch, call = f"{name} 2", f"BL{name[1:]} 2"
        yield f"| `{branch}` | `{word_of(branch):08X}` | `{call}` | {instruction(word_of(branch), 100).meaning} |"
