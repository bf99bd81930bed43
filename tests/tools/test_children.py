"""A signal ends a tool once, whatever it does: also while a generator of it waits to be taken on, and while it clears up."""

import sys
from textwrap import dedent

from tests.tools.samples import TOOLS, Ran, ToolTest, run

# A tool that a signal ends at one place: what stands for MAIN calls `terminated` there.
SCRIPT = """
import signal, sys
from argparse import Namespace
from multiprocessing import Pipe
from tempfile import TemporaryDirectory
from types import SimpleNamespace

sys.path.insert(0, {tools!r})
from galluspa.commands import fuzz
from galluspa.emulators import fuzzing
from galluspa.process import children, cli
from galluspa.process.temporary import temporary_folder

pipes = []

def terminated(*_):
    signal.raise_signal(signal.SIGTERM)

def removing():
    whole = TemporaryDirectory.cleanup
    TemporaryDirectory.cleanup = lambda it: (whole(it), terminated())

def begin(plan, process, folder, readers, processes):
    # A process that says nothing.
    pipes.append(Pipe(duplex=False))
    readers.append(pipes[-1][0])

def fuzzed(most=1):
    fuzzing._begin = begin
    return fuzz.compare(SimpleNamespace(seed=1, jobs=1), Namespace(seconds=600, most=most, folder=None))

def main(words):
    {main}
    print("not ended")
    return 0

cli.run(main)
"""


class SignalTest(ToolTest):
    def ended(self, main: str) -> Ran:
        """Returns what a tool printed, and its status."""
        indented = "\n    ".join(dedent(main).strip().splitlines())
        script = SCRIPT.replace("{tools!r}", repr(str(TOOLS))).replace("{main}", indented)
        return run([sys.executable, "-B", "-c", script], cwd=self.folder)

    def test_a_signal_is_raised_once(self) -> None:
        for name, main in (
            ("while what fuzz found is looked at", "fuzz.progress = terminated\nfuzzed()"),
            ("while fuzz ends its processes, since enough is found", "fuzzing._end = terminated\nfuzzed(most=0)"),
            (
                "while an answer of several threads is looked at",
                "for it in children.in_parallel(2, str, range(9)):\n    terminated()",
            ),
            ("while a folder is used", "with temporary_folder() as folder:\n    terminated()"),
            ("while a folder is removed", "removing()\nwith temporary_folder() as folder:\n    pass"),
            ("while a program begins", "with children.shielded():\n    terminated()\n    print('begun')"),
            ("while something is cleared up", "with children.clearing_up():\n    terminated()\n    print('cleared')"),
        ):
            with self.subTest(name):
                ran = self.ended(main)
                self.assertEqual((ran.errors, ran.status), ("", 143))
                self.assertNotIn(b"not ended", ran.output)

    def test_what_is_shielded_is_done_whole(self) -> None:
        for name in ("shielded", "clearing_up"):
            ran = self.ended(f"with children.{name}():\n    terminated()\n    print('done')")
            self.assertEqual((ran.output, ran.errors, ran.status), (b"done\n", "", 143))

    def test_a_signal_that_came_before_is_not_raised_by_clearing_up(self) -> None:
        """So a generator that Python closes raises nothing, which nobody would take."""
        ran = self.ended(
            """
            try:
                terminated()
            finally:
                with children.clearing_up():
                    print("cleared")
                print("and went on")
            """
        )
        self.assertEqual((ran.output, ran.errors, ran.status), (b"cleared\nand went on\n", "", 143))
