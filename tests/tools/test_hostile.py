"""Hostile expressions, conditions, commands, symbol files and scripts: too deep, too long, with control characters, numbers beyond 64 bits,
recursion, or binary. Each is refused in one line that a terminal only shows, after little work."""

import contextlib
import io
import json
import time
from collections.abc import Callable
from functools import partial
from pathlib import Path

from galluspa.analysis.addresses import moment_of
from galluspa.analysis.conditions import conditions_of
from galluspa.analysis.expressions import constant
from galluspa.analysis.expressiontexts import Parser
from galluspa.engine.past import Past
from galluspa.analysis.writers import part_asked
from galluspa.debugger.commands import Commands
from galluspa.debugger.navigation import Debugger
from galluspa.engine.program import Program
from galluspa.formats import scripts, symbolfiles
from galluspa.formats.sourcetext import Sources
from galluspa.formats.symbols import NONE
from galluspa.process.cli import Refused, complain
from tests.support.slowness import is_within
from tests.tools.samples import AT_ONCE, JUMP, PROGRAM, ToolTest, record, session, tool
from tests.tools.samples import run_of

# A message has at most so many characters.
LONGEST = 700
BEYOND = f"{1 << 64}"
CLEAR = "\x1b[2J"
# What stands in the place of a value: in an expression, in an address, and in a condition.
EXPRESSIONS = (
    *f"{BEYOND} ¦ R{BEYOND} ¦ [] ¦ R0 ? 1 : 2 ¦ __import__('os') ¦ R0;R1 ¦ R0 == R1 == R2 ¦ Mem[-1] ¦ *0x100000".split(" ¦ "),
    *("1 / 0", "%s%n", "(" * 33 + "1" + ")" * 33, "Mem[" * 40 + "0" + "]" * 40, "R0 == 1 and " * 100 + "R0 == 1"),
    *("0x" + "F" * 17, "0" + "F" * 200 + "H", f"R0 + {CLEAR}", "\0", "R0 \u202e+ 1", "\udcff\udcfe", "R\u0660", "R0\nR1"),
    *(it * 2**20 for it in ("a", "(", "[", "1+", "9")),
    *(it * 999 for it in ("\0", "\u202e", "-", "*", "<", "&", "not ", "Mem[")),
    *("R0 == " * 10**5, " and ".join(["(R0 == 1 or R1 == 2)"] * 70), "1 << 99999999999"),
)
CONDITIONS = (
    *f"store 5-3 ¦ store page {BEYOND} ¦ change dot {BEYOND},1 ¦ change dot 1,1,1 ¦ R0 is 5...3 ¦ R0 is -{BEYOND}..0".split(" ¦ "),
    *f"R0={BEYOND} ¦ sent 256 ¦ sent {BEYOND} ¦ load KEY mask 0x1FFFFFFFF".split(" ¦ "),
    *("", f"PC={'9' * 40}", f"store 0x{'F' * 30}", f"input {'x' * 5000}", "store " * 3000, "R0 == R1 or " * 80 + "R0 == 1"),
    *("PC=1 and PC=2 and PC=3 and PC=4 and PC=5 and", "(" * 99_999, "\x1b]0;x\x07", "\0\1\2"),
)
COMMANDS = (
    *f"x/{BEYOND}xw 0 ¦ break a.asm:{BEYOND} ¦ break if R0 == {BEYOND} ¦ commands {BEYOND} ¦ at {BEYOND} ¦ at -{BEYOND}".split(
        " ¦ "
    ),
    *f"condition {BEYOND} R0 == 1 ¦ stepi {BEYOND} ¦ reverse-continue -{BEYOND} ¦ watch 0-0xFFFFFFFFFFFFFFFFF".split(" ¦ "),
    *f"ignore 1 {BEYOND} ¦ list {BEYOND},{BEYOND} ¦ why/{BEYOND} R0 ¦ frame {BEYOND} ¦ up {BEYOND}".split(" ¦ "),
    *("screen '", "catch 'sent", f"x/{'9' * 5000} 0", f"info {CLEAR}", f"break *{'(' * 500}", "list \0:1", "screen \0", "help \7"),
    *(f"why {'*' * 500}", CLEAR, f"display/{'x' * 500} R0", "\u202epleh", "print " + "1" * 30_000, f"info functions {'*a' * 101}"),
)
SYMBOL_FILES = (
    *(b"\0" * 100, b"\xff\xfe0 t a", b"\x7fELF\2\1\1" + bytes(range(256)), b"0 t a\r\nrubbish\x9b\r\n", b"0 t a " + b"x " * 3000),
)


def script(*events: object, **more: object) -> bytes:
    """Returns the bytes of a script for `galluspa rerun`."""
    return json.dumps({"format": "galluspa-rerun", "version": 1, "events": list(events), **more}).encode()


def nested(depth: int) -> object:
    """Returns an array in an array, and so on."""
    it: object = 0
    for _ in range(depth):
        it = [it]
    return it


HEAD = b'{"format": "galluspa-rerun", "version": 1, "events": ['
LOOK: dict[str, object] = {"look": "it"}
SCRIPTS = (
    *(b"", b"\0", b"\xff\xfe\xfd", b"[" * 100_000, b'{"a":' * 100_000, b"1" * 5000, HEAD + b'{"key": 1'),
    *(HEAD + b'{"key": NaN}]}', HEAD + b'{"mouse": [1e400, 0]}]}'),
    *(script(LOOK, version=10**30), script(LOOK, mask=[["\u202e"]]), script(LOOK, patience=1 << 65)),
    *(script({"key": key}) for key in (1 << 64, 10**4000, -(1 << 64))),
    *(script(LOOK | {"when": when}) for when in ({"count": 1 << 70}, {"still": -(1 << 70)}, {"when": {"when": {}}})),
    *(script({"look": name}) for name in (CLEAR, "a" * 1000, "..%2f")),
    *(script(LOOK | {"mask": mask}) for mask in (nested(300), [[0, 0, 1 << 65, 1]])),
    *(script(LOOK, image=image) for image in ("\0", "\ud800", "a" * 300, "a/" * 3000)),
    *(script({CLEAR * 500: 1}), script(LOOK | {"memory": [{}]}), script(*[{"key": 1}] * 100_001), script("look\n" * 1000)),
)


class HostileTest(ToolTest):
    """Each of the lists, by what reads it."""

    def setUp(self) -> None:
        super().setUp()
        self.text = record(session([0x40080001, JUMP - 1], [100]))
        self.run_there = Past(run_of(self.text))
        self.moment = moment_of(self.run_there.machine(50))

    def assert_refused_at_once(self, name: object, read: Callable[[], object]) -> None:
        """What is read is refused, in one line, after little work."""
        begun, told = time.process_time(), io.StringIO()
        try:
            read()
        except Refused as why:
            with contextlib.redirect_stderr(told):
                complain(str(why))
        lines = told.getvalue().splitlines()
        self.assertEqual(len(lines), 1, f"{name!r:.100}: {lines}")
        self.assertTrue(lines[0].isprintable(), f"{name!r:.100}")
        self.assertLess(len(lines[0]), LONGEST, f"{name!r:.100}")
        took = time.process_time() - begun
        self.assertTrue(is_within(took, AT_ONCE), f"{name!r:.100}: {took:.1f} s")

    def carried_out(self, line: str) -> object:
        """Carries out a command of a debugger of its own."""
        commands = Commands(Debugger(self.run_there, NONE, 1), Program(PROGRAM), Sources([Path("/none")]))
        return list(commands.run(line))

    def test_expressions(self) -> None:
        for text in EXPRESSIONS:
            for line in (f"print {text}", f"break 0 if {text}"):
                self.assert_refused_at_once(text, partial(self.carried_out, line))

    def test_conditions(self) -> None:
        for text in (*EXPRESSIONS, *CONDITIONS):
            self.assert_refused_at_once(text, partial(conditions_of, [text], NONE))
            self.assert_refused_at_once(text, partial(conditions_of, text.split(), NONE))
            self.assert_refused_at_once(text, partial(part_asked, text, self.moment, NONE))

        for words in (["1", "*", "99999999"] * 5000, ["R0", "is"] * 9000, ["PC=1", "and"] * 9000, ["or"] * 9000):
            self.assert_refused_at_once(words[:2], partial(conditions_of, words))

    def test_a_shift_by_far_too_much_is_0(self) -> None:
        self.assertEqual(constant(Parser("1 << 4294967295 << 31 >> 4294967295").whole()), 0)

    def test_commands(self) -> None:
        for line in COMMANDS:
            self.assert_refused_at_once(line, partial(self.carried_out, line))

    def test_symbol_files(self) -> None:
        for content in SYMBOL_FILES:
            self.assert_refused_at_once(content[:50], partial(symbolfiles.read, self.file("it.sym", content)))

    def test_scripts(self) -> None:
        for content in SCRIPTS:
            self.assert_refused_at_once(content[:50], partial(scripts.read, content))

    def test_commands_that_call_themselves_end_by_the_limit(self) -> None:
        """A point at the first instruction whose commands run to it again."""
        recording = self.file("it.orsr", self.text)
        words = [word for it in ("break 0", "commands", "silent", "run", "end", "run") for word in ("-ex", it)]
        ran = tool("debug", recording, "--batch", "--limit", 1, *words)
        self.assertEqual((ran.status, ran.errors), (3, "galluspa debug: -ex run: no answer in 1 s\n"))
