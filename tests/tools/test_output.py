"""galluspa output: the bytes that a recording claims were sent, all of them and those of a checkpoint."""

import os
import pty
import subprocess

from galluspa.formats.recording import page_of
from tests.tools.samples import EXAMPLES, GALLUSPA, JUMP, STORED, ToolTest, claim, encoded, tool


class OutputTest(ToolTest):
    def test_prints_any_bytes(self) -> None:
        """Also of a recording whose claims are false, and of one that sends nothing."""
        every = bytes(range(256))
        claims = [claim(0), claim(5, output=every), claim(6), claim(7, output=b"\xff")]
        text = self.file("it.orsr", encoded(2, [page_of(JUMP)], claims))
        for words, sent in (((), every + b"\xff"), (("--at", 1), every), (("--at", 2), b""), (("--at", 3), b"\xff")):
            self.assertEqual(tool("output", text, *words).output, sent)
        self.assertEqual(tool("output", self.file("stored.orsr", STORED)).output, b"")

    def on_terminal(self, *words: object) -> tuple[int, bytes, bytes]:
        """Returns the status of a command, what it prints on a terminal, and on standard error."""
        reader, terminal = pty.openpty()
        with open(terminal, "wb") as shown:
            ran = subprocess.run([GALLUSPA, *map(str, words)], stdout=shown, stderr=subprocess.PIPE, check=False)
            told = os.read(reader, 100) if ran.returncode == 0 else b""
        os.close(reader)
        return ran.returncode, told, ran.stderr

    def test_a_terminal_gets_text_alone(self) -> None:
        told = b"the output is not text: write it into a file, with > FILE\n"
        for sent, shown in ((b"Hello\nyou", b"Hello\r\nyou"), (b"\x1b[2J", b""), ("é".encode(), b"")):
            text = self.file("it.orsr", encoded(2, [page_of(JUMP)], [claim(0), claim(5, output=sent)]))
            wanted = (0, shown, b"") if shown else (2, b"", b"galluspa output: " + told)
            self.assertEqual(self.on_terminal("output", text), wanted)
        words = ("slice", EXAMPLES / "face.orsr", "--from", 1, "--to", 2)
        self.assertEqual(self.on_terminal(*words), (2, b"", b"galluspa slice: " + told))
