"""What the tests of `galluspa debug` and `galluspa why` share: the recording of examples/frames, which docs/debugging.md follows, and the lines
that commands of the debugger print."""

from tests.tools.samples import EXAMPLES, Ran, ToolTest, tool


class FramesTest(ToolTest):
    """A test over the recording of examples/frames, with a symbol file beside it."""

    def setUp(self) -> None:
        super().setUp()
        self.recording = self.assembled(EXAMPLES / "frames/main.asm")

    def ran(self, *commands: str, status: int = 0) -> Ran:
        """Returns what the debugger printed of commands, which semicolons part."""
        words = [word for it in "; ".join(commands).split("; ") for word in ("-ex", it)]
        ran = tool("debug", self.recording, "--batch", "--directory", EXAMPLES, *words)
        self.assertEqual(ran.status, status, ran.errors)
        return ran

    def printed(self, *commands: str) -> list[list[str]]:
        """Returns the lines that each command printed; those of a point's commands are given with a prompt of their own."""
        given, found = "; ".join(commands).split("; "), list[list[str]]()
        for line in self.ran(*commands).output.decode().splitlines():
            if any(line in (f"({line[1:].partition(')')[0]}) {it}", f"> {it}") for it in given):
                found.append([])
            else:
                found[-1].append(line)
        self.assertEqual(len(found), len(given))
        return found
