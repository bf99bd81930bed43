"""galluspa slice: segments in a row as a recording."""

from pathlib import Path

from galluspa.formats import recording
from tests.tools.samples import EXAMPLES, Ran, ToolTest, record, tool

FACE = EXAMPLES / "face.orsr"


class SliceTest(ToolTest):
    def slice(self, whole: Path, first: int, last: int) -> Path:
        """Returns the file of a slice."""
        cut = self.folder / f"{first}-{last}.orsr"
        self.assertEqual(tool("slice", whole, "--from", first, "--to", last, "-o", cut), Ran(b"", "", 0))
        return cut

    def test_a_stretch_is_a_recording_of_its_own(self) -> None:
        keys = self.file("keys.orsr", record((EXAMPLES / "keys.json").read_bytes()))
        whole = recording.read(keys.read_bytes())
        read = recording.read(self.slice(keys, 1, 3).read_bytes())
        self.assertEqual([it.count for it in read.checkpoints], [0, 30, 90])
        self.assertEqual([(it.count, it.kind, it.value) for it in read.events], [(0, 4, 72), (0, 4, 105), (40, 4, 33)])
        self.assertEqual([it.output for it in read.checkpoints], [b"", b"Hi", b"!"])
        for one, other in zip(read.checkpoints, whole.checkpoints[1:], strict=True):
            self.assertEqual((one.registers, one.pc, one.leds, one.keys), (other.registers, other.pc, other.leds, other.keys))
            self.assertEqual(read.memory(one, 0, 1 << 20), whole.memory(other, 0, 1 << 20))
        self.assertEqual(tool("check", self.folder / "1-3.orsr").output, b"accepted 2 checkpoints 90 steps\n")

    def test_a_stretch_has_no_page_that_it_does_not_name(self) -> None:
        whole = recording.read(FACE.read_bytes())
        pieces = [recording.read(self.slice(FACE, at, at + 1).read_bytes()) for at in range(4)]
        self.assertTrue(all(it.pages < whole.pages for it in pieces[:3]))
        for piece in pieces:
            self.assertEqual({n for it in piece.checkpoints for n in it.table} - {0}, set(range(1, piece.pages + 1)))

    def test_stretches_of_the_whole_and_of_a_stretch(self) -> None:
        for whole in (FACE, EXAMPLES / "face-version-1.orsr"):
            self.assertEqual(self.slice(whole, 0, 4).read_bytes(), FACE.read_bytes())
        self.assertEqual(self.slice(self.slice(FACE, 1, 4), 1, 2).read_bytes(), self.slice(FACE, 2, 3).read_bytes())
