"""The parts of the tests that tests/run starts by their names."""

import os
import sys
from collections.abc import Callable, Mapping, Sequence
from dataclasses import dataclass
from pathlib import Path
from typing import NoReturn

from tests.support import TOP
from tests.support.suites import PACKAGES, run_suite

PROCESSORS = os.cpu_count() or 1


def page_words(arguments: Sequence[str]) -> list[str]:
    """Returns the arguments of the page's tests as options of pytest, each in one word, since it knows these only once it has read the names
    of the files."""
    words: list[str] = []
    for word, before in zip(arguments, ["", *arguments]):
        if before == "--module":
            words[-1] += f"={word}"
        else:
            words.append(word)
    return words


@dataclass(frozen=True)
class Suite:
    """A folder of tests that pytest runs: what it tests, how many processes run side by side and what each of them takes at a time, the Debian
    packages that it needs, by a command or a file of each, and how arguments become those of pytest."""

    about: str
    jobs: int
    dist: str
    needed: Mapping[str, str | Path]
    words: Callable[[Sequence[str]], list[str]] = list


# The gate's other tests run beside those of the library and of the page, so these take fewer processors.
SUITES: Mapping[str, Suite] = {
    "sources": Suite(
        "the sources, in a minute: pyflakes, mypy, black, tsc, imports, definitions; nothing has to be built",
        PROCESSORS,
        "load",
        {"black": "black", "mypy": "mypy", "node-typescript": "tsc", "pyflakes3": "pyflakes3"},
    ),
    "library": Suite(
        "the library for C: its header, its answers, the examples; needs the program",
        2,
        "load",
        {"gcc": "cc", "g++": "g++", "binutils": "nm"},
    ),
    "page": Suite(
        "the live page, built anew, in node and in a headless Chromium; needs the program and the library",
        3,
        "loadfile",
        {
            "chromium": "chromium",
            "binaryen": "wasm-opt",
            "esbuild": "esbuild",
            "zopfli": "zopfli",
            "nodejs": "node",
        },
        page_words,
    ),
    "tools": Suite(
        "the tools, the wheel, and what the documents show; needs the program and the shared library",
        PROCESSORS,
        "loadfile",
        {
            "chromium": "chromium",
            "mandoc": "mandoc",
            "parallel": "parallel",
            "perl": "prove",
            "python3-build": PACKAGES / "build",
            "python3-pil": PACKAGES / "PIL",
            "python3-pip": PACKAGES / "pip",
            "python3-setuptools": PACKAGES / "setuptools",
            "python3-venv": PACKAGES.parent.parent / "python3.11/ensurepip",
            "python3-wheel": PACKAGES / "wheel",
        },
    ),
}
PROGRAMS = "programs"
# The scripts beside tests/run, which can be called by themselves, too.
SCRIPTS: Mapping[str, str] = {
    "believed": "which definitions a reader has to believe",
    "allocation-failures": "where the crates answer that memory ran out",
    "mutants": "that the prover rejects each mutant",
    "refused-growth": "the programs, with each memory request refused in turn",
    "loop-cost": "the machine instructions of a step",
}


def listing() -> str:
    """Returns the parts, a line for each."""
    about = {name: suite.about for name, suite in SUITES.items()}
    about |= {PROGRAMS: "what the program prints, and random programs; needs the program and the library", **SCRIPTS}
    return "\n".join(["usage: tests/run PART [ARGUMENT ..]", "", *(f"  {name:21}{it}" for name, it in about.items())])


def start(words: Sequence[str]) -> NoReturn:
    """Runs the part that the first word names, with the words behind it as its arguments; without one, lists the parts."""
    name, *arguments = words or ["--help"]
    if name in SUITES:
        suite = SUITES[name]
        run_suite(TOP / "tests" / name, suite.words(arguments), suite.jobs, suite.needed, suite.dist)
    if name == PROGRAMS:
        from tests.programs.main import begin

        begin(arguments)
    if name in SCRIPTS:
        os.execv(TOP / "tests" / name, [f"tests/{name}", *arguments])
    if name not in ("-h", "--help"):
        sys.exit(f"tests/run: {name} is none of {', '.join([*SUITES, PROGRAMS, *SCRIPTS])}")
    print(listing())
    sys.exit()
