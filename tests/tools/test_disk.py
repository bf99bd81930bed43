"""A recording of a machine whose disk answers, in each command that shows, keeps or changes what it answered."""

from galluspa.formats import recording
from tests.programs.named import ANSWER, ANSWERED, claiming, third
from tests.tools.samples import ToolTest, tool

# The words of a command after the file, and what it prints.
SHOWN = (
    ("check", "", "accepted 3 checkpoints 9 steps"),
    ("find", "input disk", "disk 305419896"),
    ("find", "disk=0x12345678", "disk 000000FF → 12345678"),
    ("find", "disk == 255 and PC=1", "         1       1"),
    ("state", "--at=2", "disk 12345678"),
    ("trace", "--from=1", "R0 00000000 → 12345678"),
    ("why", "R0", "disk = 12345678  input disk 305419896 at 1"),
)


class DiskTest(ToolTest):
    def test_the_answer_is_shown_and_kept(self) -> None:
        file = self.file("answered.orsr", third(ANSWERED))
        for command, word, text in SHOWN:
            self.assertIn(text.encode(), tool(command, file, *filter(None, [word])).output, (command, word))
        false = self.file("false.orsr", tool("claim", file, "--at", "2", "--set", "disk=1").output)
        self.assertEqual(false.read_bytes(), third(claiming(ANSWERED, 2, disk=1)))
        self.assertIn(b"disk  00000001", tool("explain", false).output)
        session = self.file("answered.json", tool("session", "--of", file).output)
        self.assertEqual(tool("record", session).output, third(ANSWERED))
        last = recording.read(tool("slice", file, "--from", "2", "--to", "3").output)
        self.assertEqual((last.version, last.checkpoints[0].disk, last.events), (3, ANSWER, []))
