"""galluspa find: segments side by side, all hits, and what is refused."""

import random
import re
import signal
import subprocess
from dataclasses import replace
from unittest import mock

from galluspa.analysis import search as searching
from galluspa.analysis.conditions import conditions_of
from galluspa.analysis.search import KEPT, Search
from galluspa.formats import recording
from galluspa.process.timelimit import TimeIsUp
from tests.tools.samples import EXAMPLES, GALLUSPA, JUMP, Ran, ToolTest, claim, encoded, on_terminal, processor_seconds
from tests.tools.samples import record, rejoining, run_of, tool, until

FACE = EXAMPLES / "face.orsr"
# Counts without end in R0, and stores it at 400.
COUNTING = (0x40080001, 0xA0200190, 0xE7FFFFFD)


class FindTest(ToolTest):
    def found(self, *words: object) -> list[str]:
        """The lines that the tool prints."""
        return self.lines_of("find", *words)

    def test_the_example_finds_something(self) -> None:
        example = tool("find", "--help").output.decode().splitlines()[-1].split()
        self.assertEqual(example[:3], ["galluspa", "find", "examples/face.orsr"])
        self.assertEqual(len(self.found(FACE, *example[3:])), 1)

    def test_more_are_printed_than_are_kept(self) -> None:
        made = self.recorded(COUNTING, [4000])
        self.assertEqual(len(tool("find", made, "--all", "PC=1").output.splitlines()), 1000)
        self.assertEqual(len(self.found(made, "--all", "PC=1", "--most", KEPT + 1, "-j", 2)), 1333)

    def test_segments_are_searched_side_by_side(self) -> None:
        made = self.recorded(COUNTING, range(1_000_000, 12_000_001, 1_000_000))
        for words in ("R0=1234567", "--last R0=1234567", "--last store 400", "store 400 --from 11999990"):
            one, more = (self.found(made, *words.split(), "-j", jobs) for jobs in (1, 4))
            self.assertEqual((one, len(one)), (more, 1))
        self.assertEqual(self.found(made, "--last", "store", 400)[0].split()[0], "11999998")

    def test_many_checkpoints_cost_little(self) -> None:
        """A search does not begin anew at each of them, and no search reads all of a long recording for each segment."""
        many = self.recorded(COUNTING, range(100, 409_700, 100), name="many.orsr")
        for words in (("R0=7000000",), ("--last", "R0=7000000"), ("--all", "sent"), ("--last", "R0=5")):
            with self.takes_at_most(5):
                found = tool("find", many, *words)
            self.assertEqual((found.status, found.output[:10]), (0, b"        12") if words[-1] == "R0=5" else (1, b""), words)
        read = recording.read(many.read_bytes())
        pages = bytes(read.pool) + random.Random(1).randbytes(50_000 * recording.PAGE_BYTES)
        long = self.file("long.orsr", recording.write(replace(read, pool=pages)))
        with self.takes_at_most(5):
            self.assertEqual(tool("find", long, "R0=7000000").status, 1)
        with self.takes_at_most(10):
            moves = [word for count in range(105, 409_000, 1000) for word in ("-ex", f"at {count}")]
            self.assertEqual(tool("debug", long, "--batch", *moves).status, 0)

    def test_the_run_is_the_machines_where_a_claim_is_false(self) -> None:
        false = tool("claim", FACE, "--at", 2, "--set", "R0=5").output
        made = self.file("false.orsr", false)
        for words in ("PC=41 --from 12000000", "--last store 0xE7F00-0xFFEFF"):
            self.assertEqual(self.found(made, *words.split()), self.found(FACE, *words.split()))
        self.assertEqual(tool("find", self.file("it.orsr", rejoining(9)), "R5=9").status, 1)

    def test_what_is_found_in_a_long_wait(self) -> None:
        """A byte that is sent after a wait of billions, and a machine that waits for longer."""
        waits = (0x5100FFC8, 0x82100010, 0x42210003, 0xE8FFFFFD, 0x80100014, 0xA0100000, JUMP)
        made = self.recorded(waits, [1 << 32], [(1 << 31, "key", 65)])
        for words in ("sent", "sent 65", "--last input", f"PC=5 --from {1 << 31}"):
            count = int(self.found(made, *words.split())[0].split()[0])
            self.assertTrue(1 << 31 <= count < (1 << 31) + 9, words)
        self.assertEqual(tool("find", made, "stop", "sent", 66).status, 1)

    def test_shows_progress_on_a_terminal(self) -> None:
        made = self.recorded(COUNTING, [3_000_000])
        told = on_terminal("find", made, "R5=9")
        self.assertRegex(told, rb"searched 524,288 of 3,000,000\r")
        self.assertRegex(told, rb"\x1b\[K\rgalluspa find: no R5=9 in 0\.\.3000000\r\n$")

    def endless(self) -> tuple[object, ...]:
        """A recording of billions of instructions, and the option that names a program that accepts it at once."""
        text = encoded(2, [recording.page_of(*COUNTING)], [claim(0), *(claim(at << 33) for at in range(1, 9))])
        program = self.executable("program", f"cat > /dev/null; echo accepted 8 checkpoints {1 << 36} steps")
        return self.file("endless.orsr", text), "--program", program

    def test_what_there_is_no_time_for_is_told(self) -> None:
        for words, told in (
            ("R5=9", r"no R5=9 in 0\.\.\d+"),
            ("--last R5=9 -j 1", "searched nothing yet"),
            ("--last R5=9 -j 4", "searched nothing yet"),
            (f"--all R0=9 --to {1 << 33}", r"searched 0\.\.\d{7,}"),
            ("--all R0=9 -j 4", r"searched 0\.\.\d{7,}"),
        ):
            # On a machine that is busy with other things it takes longer to come so far.
            for limit in (2, 10, 50):
                ran = tool("find", *self.endless(), *words.split(), "--limit", limit)
                if re.fullmatch(rf"galluspa find: no answer in {limit} s: {told}\n", ran.errors):
                    break
            self.assertRegex(ran.errors, rf"^galluspa find: no answer in {limit} s: {told}\n$")
            self.assertEqual(
                (ran.status, [line.split()[0] for line in ran.output.splitlines()]), (3, [b"24"] if "--all" in words else [])
            )

    def test_how_far_a_search_came(self) -> None:
        run = run_of(self.recorded(COUNTING, [10, 20, 30]).read_bytes())
        search = Search(run, conditions_of(["R5=9"]), 0, 30)
        self.assertEqual((search.reached(), search.left_before()), (0, 30))
        self.assertEqual((search.last(), search.left_before()), (None, 0))
        self.assertEqual((search.first(), search.reached()), (None, 30))
        with mock.patch.object(searching, "LAST_STEPS", 2):
            search = Search(run, conditions_of(["R5=9"]), 0, 30)
            self.assertEqual((search.last(), search.left_before()), (None, 0))
        run.library = replace(run.library, limit=_Ended())
        search = Search(run, conditions_of(["R5=9"]), 5, 30)
        with self.assertRaises(TimeIsUp):
            search.first()
        self.assertEqual((search.reached(), search.left_before()), (5, 30))

    def test_a_signal_ends_it_at_once(self) -> None:
        for jobs in (1, 4):
            for number, status in ((signal.SIGINT, 130), (signal.SIGTERM, 143)):
                command = [str(it) for it in (GALLUSPA, "find", *self.endless(), "R5=9", "-j", jobs)]
                with subprocess.Popen(command, stdout=subprocess.PIPE, stderr=subprocess.PIPE) as begun:
                    # It takes less to begin.
                    until(lambda: processor_seconds(begun.pid) > 1.5)
                    self.assertEqual(self.ended_at_once(begun, number), Ran(b"", "", status))

    def test_devices_have_names(self) -> None:
        keys, found = self.file("keys.orsr", record((EXAMPLES / "keys.json").read_bytes())), {}
        names = {"KEY": 36, "mouse": 40, "STATUS": 52, "Serial": 56, "LEDS": 60, "switches": 60, "TIMER": 64}
        for name, below in names.items():
            for kind in ("load", "store"):
                named = tool("find", "--all", keys, kind, name)
                for text in (f"-{below}", hex((1 << 24) - below), str((1 << 24) - below)):
                    ran = tool("find", "--all", keys, kind, text)
                    self.assertEqual((ran.output, ran.status), (named.output, named.status), name)
                found[kind, name] = len(named.output.splitlines())
        self.assertGreater(found.pop(("load", "mouse")), 0)
        stores = {("store", name): 3 for name in ("Serial", "LEDS", "switches")}
        self.assertEqual({it: number for it, number in found.items() if number}, {("load", "KEY"): 3, **stores})
        lines = self.file("lines.orsr", record((EXAMPLES / "lines.json").read_bytes()))
        display = tool("find", lines, "--last", "store", "DISPLAY-0xF87FF")
        self.assertEqual((display.output, display.status), (tool("find", lines, "--last", "store", "0xE7F00-0xF87FF").output, 0))
        self.assertEqual(conditions_of(["load", "-1"])[0].raws, conditions_of(["load", "0xFFFFFC"])[0].raws)

    def test_words_may_be_in_quotation_marks(self) -> None:
        keys = self.file("keys.orsr", record((EXAMPLES / "keys.json").read_bytes()))
        for quoted, words in (("input key", ["input", "key"]), ("R0 = 72", ["R0=72"]), ("sent 105 stop", ["sent", "105", "stop"])):
            for name, *option in (("find",), ("trace", "--until")):
                self.assertEqual(self.lines_of(name, keys, *option, quoted), self.lines_of(name, keys, *option, *words))


class _Ended:
    """A limit that is over."""

    def left(self) -> float:
        """No time is left."""
        raise TimeIsUp("no answer")
