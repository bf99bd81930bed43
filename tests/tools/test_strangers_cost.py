"""What files of strangers may cost: size, time and signals."""

import os
import resource
import signal
import subprocess
import tempfile
from collections.abc import Callable, Sequence
from pathlib import Path
from xml.etree import ElementTree

from galluspa.formats.recording import page_of
from tests.support.slowness import is_within
from tests.tools.samples import EXAMPLES, GALLUSPA, PATIENCE, PROGRAM, STORED, Ran, ToolTest, claim, encoded
from tests.tools.samples import processor_seconds, rejoining, run, tool, until


class SizeTest(ToolTest):
    def test_no_more_is_read_than_a_recording_may_have(self) -> None:
        """Of a file of a terabyte, which has no bytes on the disk."""
        huge = self.file("huge.orsr", b"")
        os.truncate(huge, 1 << 40)
        for words, told in (
            (["explain", huge], "refused 2 magic"),
            (["session", "--memory", huge, "--every", 1, "--until", 1], "beyond the memory"),
            (["session", "--memory", EXAMPLES / "face.orsr", "--inputs", huge, "--every", 1, "--until", 1], "not a CSV file"),
            (["suite", self.folder, "--keep", self.folder / "it"], "refused 2 magic"),
        ):
            with self.takes_at_most(20):
                ran = tool(*map(str, words))
            self.assertIn(told, ran.output.decode() + ran.errors)


class SessionCostTest(ToolTest):
    """What the longest sessions cost `record` before it refuses them: memory as a multiple of their bytes, with the program
    itself, and seconds of a processor."""

    LONGEST, MEMORY, SECONDS = 67_108_864, 12, 4
    START = b'{"format":"oberon-session","version":1,"start":{"R":[%s],"H":0,"PC":0,"flags":0},"pages":[],' % b",".join([b"0"] * 16)

    def longest(self, first: bytes, item: bytes, last: bytes) -> bytes:
        """Returns the longest session with as many of an item as fit."""
        begin = self.START + first
        times = (self.LONGEST - len(begin) - len(item) - len(last)) // (len(item) + 1)
        return begin + (item + b",") * times + item + last

    def refused(self, text: bytes, is_last: bool = False) -> tuple[str, float]:
        """Returns what the program says of a session, in that memory, and how long it takes."""
        limit = self.MEMORY * self.LONGEST
        before = resource.getrusage(resource.RUSAGE_CHILDREN)
        ran = run([PROGRAM, "record"], text, preexec_fn=lambda: resource.setrlimit(resource.RLIMIT_AS, (limit, limit)))
        after = resource.getrusage(resource.RUSAGE_CHILDREN)
        took = after.ru_utime + after.ru_stime - before.ru_utime - before.ru_stime
        # What else runs on the machine makes it longer, so the shorter of two tries counts.
        return ran.output.decode(), took if took < self.SECONDS or is_last else min(took, self.refused(text, is_last=True)[1])

    def test_a_session_that_is_none_costs_little(self) -> None:
        end = b'],"checkpoints":[]}'
        for first, item, last, line in (
            (b'"inputs":[', b'{"":0}', end, "2 shape"),
            (b'"inputs":[', b"[]", end, "2 shape"),
            (b'"inputs":[', b"[" * 120 + b"]" * 120, end, "2 shape"),
            (b'"inputs":[{', b'"":0', b"}" + end, "2 shape"),
            (b'"inputs":[', rb'"\u0041"', end, "2 shape"),
            (b'"inputs":[', b'{"":0}', b"", "1 json"),
            (b'"inputs":[', b'[0,"key",0]', end, "3 range"),
            (b'"inputs":[],"checkpoints":[', b"1", b"]}", "3 range"),
        ):
            with self.subTest(item):
                said, took = self.refused(self.longest(first, item, last))
                self.assertEqual(said, f"session refused {line}\n")
                self.assertTrue(is_within(took, self.SECONDS), f"{took:.1f} s")

    def test_a_long_string_costs_little(self) -> None:
        """The tool takes the longest session apart that is one string, and an assembler's line that is, in memory that is bounded."""

        def ran(memory: int, *words: object) -> Ran:
            return run([GALLUSPA, *words], preexec_fn=lambda: resource.setrlimit(resource.RLIMIT_AS, (memory, memory)))

        for item, repeated in ((b"a", 1), (rb"\n", 2), (rb"a\\", 3)):
            inside = item * ((self.LONGEST - 2) // repeated)
            session = ran(self.MEMORY * self.LONGEST, "record", self.file("it.json", b'"%s"' % inside))
            self.assertEqual((session.output, session.status), (b"session refused 2 shape\n", 2), session.errors)
            self.assertIn("galluspa record: rule   it is an object", session.errors)
            source = self.file("it.asm", b'  byte "%s"\n' % inside[:4_000_000])
            self.assertIn("from here on it is beyond the memory", ran(1 << 28, "assemble", source).errors)


class TimeTest(ToolTest):
    def slow(self, seconds: float = 5 * PATIENCE) -> Path:
        """Returns a program that answers late where it checks; the process by which it waits has a number in a file."""
        waits = f"[ $1 = check ] && {{ sleep {seconds} & echo $! >> {self.folder}/pids; wait; }}"
        return self.executable("slow", f'{waits}\nexec {PROGRAM} "$@"')

    def assert_none_is_left(self) -> None:
        """No process that the program began runs any more."""
        for number in (self.folder / "pids").read_text().split():
            state = Path(f"/proc/{number}/stat")
            self.assertTrue(not state.exists() or " Z " in state.read_text(), number)

    def test_a_suite_says_which_recordings_took_too_long(self) -> None:
        self.file("suite/a.orsr", STORED)
        self.file("suite/a.expect", "no answer in 1 s\n")
        junit = self.folder / "it.xml"
        words = ("suite", self.folder / "suite", "--limit", 1, "--program", self.slow(), "--junit", junit)
        ran = run([GALLUSPA, *words], timeout=PATIENCE)
        self.assertEqual((ran.status, ran.errors), (1, ""))
        self.assertIn(b'not ok 1 - a.orsr\n  ---\n  expected: "no answer in 1 s"\n  answered: "no answer in 1 s"', ran.output)
        self.assertEqual(ElementTree.parse(junit).getroot()[0][0].findtext("error"), "no answer in 1 s")
        self.assert_none_is_left()

    def test_other_tools_say_what_they_have_when_the_time_is_over(self) -> None:
        false = self.file("it.orsr", rejoining(9))
        limited = ("--limit", 1, "--program", self.slow())
        ran = tool("report", false, *limited)
        self.assertEqual((ran.status, ran.errors), (3, "galluspa report: no answer in 1 s\n"))
        self.assertEqual(ran.output, b"")
        ran = tool("explain", false, *limited)
        self.assertEqual((ran.output, ran.errors, ran.status), (b"", "galluspa explain: no answer in 1 s\n", 3))

    def test_signals_end_tools_at_once_and_leave_nothing(self) -> None:
        false = self.file("suite/it.orsr", rejoining(9))
        for at in range(9):
            self.file(f"suite/{at}.orsr", STORED)
        slow = ("--program", self.slow())
        for words in (["suite", self.folder / "suite", "-j", 3, *slow], ["report", false, *slow], ["explain", false, *slow]):
            for number, status in ((signal.SIGINT, 130), (signal.SIGTERM, 143)):
                (self.folder / "pids").write_text("")
                self.ended_by(number, status, words, lambda room: (self.folder / "pids").read_text())
                self.assert_none_is_left()

    def test_nothing_is_waited_for_once_the_output_fails(self) -> None:
        self.file("suite/a.orsr", STORED)
        for at in range(9):
            self.file(f"suite/{at}.orsr", rejoining(at))
        compared = "cat > it; cmp -s it suite/a.orsr"
        program = self.executable("program", f"cd {self.folder}\n{compared} && sleep {5 * PATIENCE}\necho false\nexit 1")
        with open("/dev/full", "wb") as full:
            command = [str(it) for it in (GALLUSPA, "suite", self.folder / "suite", "--program", program)]
            ran = subprocess.run(command, stdout=full, stderr=subprocess.PIPE, check=False, timeout=PATIENCE)
        self.assertEqual((ran.returncode, ran.stderr), (3, b"galluspa suite: standard output: No space left on device\n"))

    def test_signals_end_runs_of_the_library_at_once(self) -> None:
        """The runs take minutes; none of them calls another program while it is ended."""
        sends = encoded(2, [page_of(0x5100FFC8, 0xA0100000, 0xE7FFFFFE)], [claim(0), claim(1, output=b"x"), claim(1 << 40)])
        path = self.file("it.orsr", sends)
        rows: tuple[tuple[int, int, list[object]], ...] = (
            (signal.SIGINT, 130, ["--from", 1 << 39]),
            (signal.SIGTERM, 143, ["--until", "stop"]),
        )
        for number, status, words in rows:

            def has_begun(room: str) -> bool:
                return "libgalluspa" in Path(f"/proc/{self.begun.pid}/maps").read_text() and processor_seconds(self.begun.pid) > 1

            self.ended_by(number, status, ["trace", path, "--at", 0, *words], has_begun)

    def ended_by(self, number: int, status: int, words: Sequence[object], has_begun: Callable[[str], object]) -> None:
        """Ends a tool by a signal once it has begun; it ends at once, without a word, and leaves no temporary file."""
        with tempfile.TemporaryDirectory() as room:
            command = [str(GALLUSPA), *map(str, words)]
            environment = {**os.environ, "TMPDIR": room}
            self.begun = subprocess.Popen(command, stdout=subprocess.DEVNULL, stderr=subprocess.PIPE, env=environment)
            until(lambda: has_begun(room))
            self.assertEqual(self.ended_at_once(self.begun, number), Ran(b"", "", status), words[0])
            self.assertEqual(os.listdir(room), [], words[0])
