"""The emulator of docs/recording-your-system.md, without a recorder and with it: what it shows, and what it records."""

import re
import subprocess
import tempfile
from pathlib import Path

from galluspa.emulators.trials import Trial
from galluspa.formats import recording
from tests.tools.samples import EXAMPLES, PROGRAM, TOP, Ran, ToolTest, run, tool

NAMES = ("emulator", "emulator-recorded")
LIBRARY = next((path for path in (TOP / "crates/galluspa/out/libgalluspa.a", TOP / "out/lib/libgalluspa.a") if path.exists()), None)
STEPS = 416666
FLAGS = ("-O2", "-Wall", "-Wextra", "-Werror", "-Wno-unused-function", "-Wno-unused-result")


def compiled(folder: Path, name: str) -> Path:
    """Returns an emulator, compiled without a warning."""
    program = folder / name
    sources = [EXAMPLES / f"c/{name}.c", *([LIBRARY] if LIBRARY and "recorded" in name else [])]
    subprocess.run(["cc", *FLAGS, f"-I{TOP}/reference", f"-I{TOP}/include", *sources, "-o", program], check=True)
    return program


class EmulatorTest(ToolTest):
    plain: Path
    recorder: Path

    @classmethod
    def setUpClass(cls) -> None:
        folder = Path(cls.enterClassContext(tempfile.TemporaryDirectory()))
        cls.plain, cls.recorder = (compiled(folder, name) for name in NAMES)

    def image(self, source: str) -> Path:
        """Returns the memory image of a source."""
        image = self.folder / "it.bin"
        self.assertEqual(tool("assemble", self.file("it.asm", source), "--image", image).status, 0)
        return image

    def record(self, image: Path, frames: int, keys: bytes = b"") -> tuple[Ran, recording.Recording]:
        """Returns what the emulator with the recorder shows in a number of frames, and its recording, which is accepted."""
        made = self.folder / "it.orsr"
        ran = run([self.recorder, image, frames, made], keys)
        self.assertTrue(run([PROGRAM], made.read_bytes()).output.startswith(b"accepted "))
        return ran, recording.read(made.read_bytes())

    def test_the_recorder_is_a_small_patch(self) -> None:
        ran = run(["diff", "-U", 1, *(EXAMPLES / f"c/{name}.c" for name in NAMES)])
        self.assertLess(len(re.findall(r"^[+-]", ran.output.decode().split("\n", 2)[2], re.MULTILINE)), 70)

    def test_both_show_the_same_and_one_records_it(self) -> None:
        image, keys = self.image((EXAMPLES / "keys.asm").read_text()), b"Hi, you!"
        self.assertEqual(run([self.plain, image, 20], keys).output, keys)
        ran, read = self.record(image, 125, keys)
        self.assertEqual((ran.output, ran.status), (keys, 0))
        self.assertEqual([it.count for it in read.checkpoints], [0, 60 * STEPS, 120 * STEPS, 125 * STEPS])
        self.assertEqual(b"".join(it.output for it in read.checkpoints), keys)
        typed = [it for it in read.events if it.kind == 4]
        self.assertEqual(bytes(it.value for it in typed), keys)
        self.assertEqual([it.count % STEPS for it in typed], [0] * len(keys))
        self.assertEqual(len({it.count for it in typed}), len(keys))
        times = [it.value for it in read.events if it.kind == 1]
        self.assertEqual((len(times), times), (125, sorted(times)))
        self.assertLess(1900, times[-1])

    def test_the_one_that_is_tested_shows_the_same_and_answers_sessions(self) -> None:
        tested = compiled(self.folder, "emulator-tested")
        image, keys = self.image((EXAMPLES / "keys.asm").read_text()), b"Hi, you!"
        self.assertEqual(run([tested, image, 20], keys).output, keys)
        self.assertEqual(run([tested]), Ran(b"", "", 0))
        self.assertEqual(run([tested], bytes(144) + b"\1"), Ran(bytes(12 + 16 * 4 + 64), "", 0))
        cut_off = Trial((0,) * 16, {0: bytes(1024)}, 1).request(5)[:-1]
        self.assertEqual(run([tested], cut_off), Ran(b"", "the session ends early\n", 3))

    def test_a_machine_that_stops_is_recorded_up_to_there(self) -> None:
        for source, stop in (
            ("MOV R1, 1\nFAD R0, R1, R1", 1),
            ("DIV R0, R1, R1", 2),
            ("B 300000", 3),
            ("MOV' R1, 20H\nLDR R0, R1, 0", 4),
        ):
            image = self.image(source)
            shown = run([self.plain, image, 99]).output
            ran, read = self.record(image, 99)
            self.assertEqual(ran.output, shown)
            self.assertRegex(shown.decode(), f"^stop {stop} at PC \\d+\n$")
            self.assertEqual([it.stop for it in read.checkpoints], [0, stop])

    def test_more_is_sent_than_there_is_room_for_at_first(self) -> None:
        """The room for what is sent and that for the recording grow."""
        image = self.image("MOV R1, SERIAL\nMOV R2, 20000\nnext: STR R2, R1, 0\nSUB R2, R2, 1\nBNE next\ndone: B done")
        ran, read = self.record(image, 2)
        self.assertEqual(len(ran.output), 20000)
        self.assertEqual(read.checkpoints[-1].output, ran.output)

    def test_refuses_a_missing_image(self) -> None:
        for command in ([self.plain], [self.recorder, self.folder / "it.orsr"]):
            ran = run([command[0], self.folder / "none", 1, *command[1:]])
            self.assertEqual((ran.status, ran.errors), (3, f"{self.folder}/none: No such file or directory\n"))
