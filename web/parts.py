"""The parts of the page that web/build and web/serve have in common: its template, the sessions that it offers, and a module that is there."""

import base64
import gzip
import html
import json
import re
from collections.abc import Mapping
from pathlib import Path

from galluspa.process.cli import Refused

HERE = Path(__file__).resolve().parent
EXAMPLES = ("draw", "face", "snake")
WASM_MAGIC = b"\0asm"
# A document of a lesson: its title, the source that it names first, its exercises and their answers, each a numbered list.
LESSON = re.compile(r"# ([^\n]*)\n.*?/examples/(\w+)\.asm\).*\n## Exercises\n(.*)\n## Answers\n(.*)", re.S)
ITEM = re.compile(r"^\d+\. ", re.M)
# What an exercise claims of a program that solves it, as JSON.
CLAIM = re.compile(r"<!-- claim (.*) -->")
# Where a page that was built has its module, and the versions of the tools that built it.
IN_PAGE = {"module": re.compile(r'id="g-module">([^<]*)<'), "versions": re.compile(r'id="g-versions">([^<]*)<')}


def given_module(path: Path) -> tuple[bytes, str]:
    """The module of a file, a module or a page that was built, and the tools that built it."""
    content = path.read_bytes()
    if content.startswith(WASM_MAGIC):
        return content, f"the module {path.name}"
    text = content.decode(errors="replace")
    packed_module, tools = IN_PAGE["module"].search(text), IN_PAGE["versions"].search(text)
    if not packed_module or not tools:
        raise Refused(f"{path}: it is neither a WebAssembly module nor a page that web/build made")
    return gzip.decompress(base64.b64decode(packed_module[1])), html.unescape(tools[1]).split("; esbuild ")[0]


def examples() -> str:
    """The sessions that the page offers, as JSON."""
    read = {name: json.loads((HERE.parent / f"examples/{name}.json").read_text()) for name in EXAMPLES}
    return json.dumps(read, separators=(",", ":"))


def plain(text: str) -> str:
    """The first paragraph of a text without the marks of Markdown, in a line."""
    return " ".join(re.sub(r"[`*]", "", text.partition("\n\n")[0]).split())


def lesson(path: Path) -> dict[str, object]:
    """A lesson of a document, with a step for each exercise that has a claim."""
    parts = LESSON.match(path.read_text())
    if not parts:
        raise Refused(f"{path}: it is not a lesson with exercises and answers")
    title, example, exercises, answers = parts.groups()
    steps = [
        {"task": plain(task[: claim.start()]), "see": plain(see), "claim": json.loads(claim[1])}
        for task, see in zip(ITEM.split(exercises)[1:], ITEM.split(answers)[1:], strict=True)
        if (claim := CLAIM.search(task))
    ]
    return {"title": title, "example": example, "steps": steps}


def sources() -> bytes:
    """The sources and the lessons that the page offers, as JSON."""
    examples = {path.stem: path.read_text() for path in sorted((HERE.parent / "examples").glob("*.asm"))}
    lessons = [lesson(path) for path in sorted((HERE.parent / "docs/lessons").glob("[0-9]*.md"))]
    return json.dumps({"examples": examples, "lessons": lessons}, ensure_ascii=False).encode()


def filled(template: str, parts: Mapping[str, str]) -> str:
    """A template with its parts in their places."""
    return re.sub(r"\{\{(\w+)\}\}", lambda found: parts[found[1]], template)
