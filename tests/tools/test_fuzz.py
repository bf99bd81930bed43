"""galluspa fuzz, with emulators in C that are kept or run for each session: right ones, each of the mistakes that people make, and
commands that do anything but answer."""

import json
import os
import re
import shutil
import subprocess
import tempfile
import time
from concurrent.futures import ThreadPoolExecutor
from pathlib import Path

from galluspa.emulators.randomtrials import trials
from galluspa.engine.library import Library
from galluspa.formats import recording
from tests.tools.console import ENVIRONMENT, commands_of
from tests.tools.mistakes import DECODED, FREQUENT, RIGHT, Mistake
from tests.tools.samples import EXAMPLES, GALLUSPA, PATIENCE, PROGRAM, TOP, Ran, ToolTest, on_terminal, run, tool, until

FILES = ["difference.txt", "recording.orsr", "session.json", "source.asm"]


def compiled(folder: Path, mistake: Mistake) -> Path:
    """Returns the emulators of examples/c with a mistake: the one that is kept, and the one that prints its state."""
    mistake.write(folder)
    for name in ("emulator-tested", "state"):
        built(folder, name, EXAMPLES / "c")
    return folder


def built(folder: Path, name: str, sources: Path | None = None) -> None:
    """Compiles a source into a folder, which has the machine, and by default the source."""
    source = (sources or folder) / f"{name}.c"
    subprocess.run(["cc", "-O1", "-w", f"-I{folder}", f"-I{EXAMPLES}/c", source, "-o", folder / name], check=True)


class FuzzTest(ToolTest):
    built: Path

    @classmethod
    def setUpClass(cls) -> None:
        cls.built = Path(cls.enterClassContext(tempfile.TemporaryDirectory()))
        with ThreadPoolExecutor(4) as pool:
            wanted = (RIGHT, DECODED, *FREQUENT)
            list(pool.map(compiled, (cls.built / it.name for it in wanted), wanted))

    def fuzz(self, name: str, *words: object, seconds: int = 60) -> Ran:
        """Returns what the tool says of the kept emulator with a mistake."""
        return tool(
            "fuzz", "--seconds", seconds, "-j", 2, "-o", self.folder / "found", *words, "--", self.built / name / "emulator-tested"
        )

    def test_a_right_emulator_is_the_same(self) -> None:
        """Fast enough for 100,000 sessions a minute on four processors."""
        with self.takes_at_most(9):
            ran = self.fuzz(RIGHT.name, "--sessions", 3000)
        self.assertEqual((ran.errors, ran.status), ("", 0))
        self.assertRegex(ran.output.decode(), r"^seed \d+: 3,000 sessions, [\d,]+ instructions in \d+ s, no difference\n$")
        self.assertFalse((self.folder / "found").exists())

    def test_each_frequent_mistake_is_found_and_made_small(self) -> None:
        """By a random seed, in ten seconds of a machine that does nothing else."""
        for mistake in FREQUENT:
            ran = self.fuzz(mistake.name)
            self.assertEqual((ran.errors, ran.status), ("", 1), (mistake.name, ran.output))
            lines = ran.output.decode().splitlines()
            size = re.match(r"(\d+) instructions?, (\d+) inputs?; session \d+ of seed \d+$", lines[1])
            assert size, lines
            self.assertLessEqual(int(size[1]), 3, (mistake.name, lines))
            self.assertLessEqual(int(size[2]), 2, (mistake.name, lines))

    def test_what_an_emulator_keeps_beside_the_state_stays(self) -> None:
        """A store to itself of an instruction that was decoded, and a branch back to it."""
        ran = self.fuzz(DECODED.name, "--seed", 4, "-j", 1)
        self.assertEqual((ran.errors, ran.status), ("", 1))
        self.assertEqual(ran.output.decode().splitlines()[1], "2 instructions in 3 steps, 0 inputs; session 50 of seed 4")

    def test_the_name_of_the_folder_is_shown_in_a_line(self) -> None:
        ran = self.fuzz(DECODED.name, "--seed", 4, "-j", 1, "-o", self.folder / "a\nb\x1b[2J")
        self.assertEqual((ran.errors, ran.status), ("", 1))
        self.assertIn(rf"{self.folder}/a\nb\x1b[2J/", ran.output.decode())
        self.assertNotIn(b"\x1b", ran.output)

    def test_the_commands_of_the_document_find_each_of_them(self) -> None:
        """As they are shown, with each of the mistakes in place of the one that the document makes."""
        shown = [it.line for it in commands_of((TOP / "docs/testing-an-emulator.md").read_text())]
        lines = [next(it for it in shown if it.startswith(begin)) for begin in ("cc -O2 -Iborrow", "galluspa fuzz --seed 1 -j 1")]
        self.assertIn(" examples/c/emulator-tested.c ", lines[0])
        for part in ("examples", "docs"):
            (self.folder / part).symlink_to(TOP / part)
        for mistake in FREQUENT:
            mistake.write(self.folder / "borrow")
            for line in lines:
                ran = run(["bash", "-c", line], cwd=self.folder, env=ENVIRONMENT)
            self.assertEqual(ran.errors, "", mistake.name)
            self.assertTrue(ran.output.endswith(b"\nstatus 1\n"), (mistake.name, ran.output))
            self.assertRegex(ran.output.decode().splitlines()[1], "^[123] instructions?, [012] inputs?; ")

    def test_what_is_left_shows_it_again(self) -> None:
        name = "the carry after SUB'"
        ran = self.fuzz(name, "--seed", 5)
        folder = self.folder / "found/SUB-flags"
        self.assertEqual(sorted(it.name for it in folder.iterdir()), FILES)
        text = ran.output.decode()
        self.assertTrue(text.startswith((folder / "difference.txt").read_text()))
        self.assertRegex(text, r"flags +[NZCV-]{4} +[NZ-]{2}C[V-] +[NZ-]{2}-[V-]\n")
        recorded = (folder / "recording.orsr").read_bytes()
        self.assertEqual(run([PROGRAM], recorded).output, b"accepted 1 checkpoints 1 steps\n")
        self.assertEqual(run([PROGRAM, "record"], (folder / "session.json").read_bytes()).output, recorded)
        self.assertEqual(tool("assemble", folder / "source.asm", "--words").status, 0)
        command = [self.built / name / "state", folder / "recording.orsr", "{count}", self.folder / "memory.bin"]
        ran = tool("bisect", folder / "session.json", "--", *command)
        self.assertTrue(ran.output.startswith(b"differs after instruction 0: "), ran)

    def test_a_seed_makes_a_run_again(self) -> None:
        one, other = (self.fuzz("N and Z after loads", "--seed", 7, "-j", jobs, "--sessions", 200) for jobs in (1, 1))
        self.assertEqual(one.output.decode().splitlines()[:-1], other.output.decode().splitlines()[:-1])
        found = re.search(r"session (\d+) of seed 7\n", one.output.decode())
        assert found
        alone = self.fuzz("N and Z after loads", "--seed", 7, "--from", found[1], "--sessions", 1)
        self.assertEqual(alone.output.decode().splitlines()[:-1], one.output.decode().splitlines()[:-1])

    def test_a_command_for_each_session(self) -> None:
        files = ["{recording}", "{count}", "{memory}"]
        words = ("-j", 2, "-o", self.folder / "found", "--seed", 4)
        ran = tool("fuzz", *words, "--sessions", 20, "--", self.built / RIGHT.name / "state", *files)
        self.assertEqual((ran.errors, ran.status), ("", 0))
        self.assertIn(b": 20 sessions, ", ran.output)
        ran = tool("fuzz", *words, "--", self.built / "N and Z after loads" / "state", *files)
        self.assertEqual((ran.errors, ran.status), ("", 1))
        self.assertRegex(
            ran.output.decode(), r"^LD[RB] R\d+, R\d+, -?\d+ differs in flags\n1 instruction, 0 inputs; session \d+ of seed 4\n"
        )

    def test_a_part_is_left_out(self) -> None:
        ran = self.fuzz("N and Z after loads", "--ignore", "flags", "--ignore", "PC", "--seed", 3, "--sessions", 64)
        self.assertNotIn(b"differs in flags", ran.output)
        self.assert_refused(self.fuzz(RIGHT.name, "--ignore", "nothing"), "invalid choice: 'nothing'")

    def test_what_is_kept_of_a_session_is_noticed(self) -> None:
        """An emulator that does not begin anew is found by a session that is right alone."""
        folder = self.folder / "kept"
        RIGHT.write(folder)
        source = (EXAMPLES / "c/emulator-tested.c").read_text()
        wrong = source.replace("    memset(memory, 0, sizeof memory);\n", "")
        self.assertNotEqual(wrong, source)
        self.file("kept/kept.c", wrong)
        built(folder, "kept")
        ran = tool("fuzz", "--seconds", 60, "-j", 1, "-o", self.folder / "found", "--", folder / "kept")
        self.assert_refused(ran, "differs only after the sessions before it: keep nothing of one session for the next")
        json.loads((self.folder / "found/unanswered.json").read_text())

    def test_hostile_commands_end_in_a_line(self) -> None:
        hostile: tuple[tuple[str, tuple[object, ...]], ...] = (
            (": no answer in 1 s", ("sleep", 60)),
            (": ended with status 0 before it answers", ("true",)),
            (": ended with status 7 before it answers", ("sh", "-c", "cat > /dev/null & exit 7")),
            (": ended by signal 11 (Segmentation fault) before it answers", ("sh", "-c", "kill -SEGV $$")),
            (": session number 171, expected 1", ("yes",)),
            (": session number 0, expected 1", ("head", "-c", "1000000000", "/dev/zero")),
            ("No such file or directory", (self.folder / "none",)),
            ("COMMAND", ()),
        )
        for told, command in hostile:
            found = self.folder / "found"
            seconds = 1 if "no answer" in told else PATIENCE
            ran = tool("fuzz", "--answer-seconds", seconds, "-j", 2, "-o", found, "--", *command)
            self.assert_refused(ran, told.replace("171", "175704697"))
            # A command that begins leaves the session that it does not answer.
            is_begun = told.startswith(":")
            self.assertEqual(
                (found.exists(), f"the first session, kept as {found}/unanswered.json: " in ran.errors), (is_begun, is_begun)
            )
            if is_begun:
                self.assertEqual(run([PROGRAM, "record"], (found / "unanswered.json").read_bytes()).status, 0)
                shutil.rmtree(found)
        os.mkfifo(self.folder / "pipe")
        for told, words in (
            ("the output is not an object with the parts of a state", ("echo", "{count}")),
            ("/pipe: not a regular file", ("sh", "-c", f'echo "{{\\"memory\\": \\"{self.folder}/pipe\\"}}" # {{count}}')),
        ):
            self.assert_refused(tool("fuzz", "-o", self.folder / "found", "--", *words), told)

    def test_a_session_that_is_not_answered_is_kept(self) -> None:
        for change, told in (
            ("if (s.parts[0] == 0x7fffffff) abort();", "ended by signal 6 (Aborted) before it answers"),
            ("if (s.parts[0] == 0x7fffffff) sleep(600);", "no answer in 5 s"),
            ('if (s.parts[0] == 0x7fffffff) puts("a gigabyte");', ", expected "),
        ):
            folder = self.folder / "broken"
            RIGHT.write(folder)
            source = (EXAMPLES / "c/emulator-tested.c").read_text()
            self.file("broken/it.c", source.replace("    answer(s.number);\n", f"    {change}\n    answer(s.number);\n"))
            built(folder, "it")
            seconds = 5 if "no answer" in told else PATIENCE
            words = ("--answer-seconds", seconds, "--seed", 2, "-j", 1, "-o", self.folder / "found", "--", folder / "it")
            ran = tool("fuzz", *words)
            self.assert_refused(ran, "of seed 2, kept as ", told)
            self.assertEqual(run([PROGRAM, "record"], (self.folder / "found/unanswered.json").read_bytes()).status, 0)

    def test_ends_when_it_is_interrupted(self) -> None:
        emulator = self.built / RIGHT.name / "emulator-tested"
        for seconds in (0, 0.2, 1):
            command = [str(it) for it in (GALLUSPA, "fuzz", "-j", 3, "--", emulator)]
            child = self.begun(emulator, *command)
            time.sleep(seconds)
            child.terminate()
            self.assertEqual((*child.communicate(timeout=PATIENCE), child.returncode), (b"", b"", 143))
            self.assertEqual(run(["pgrep", "-f", emulator]).output, b"", seconds)

    def begun(self, emulator: Path, *command: str) -> "subprocess.Popen[bytes]":
        """Begins the tool with a folder for temporary files, and returns it once an emulator runs."""
        environment = {**os.environ, "TMPDIR": str(self.folder)}
        child = subprocess.Popen(command, stdout=subprocess.PIPE, stderr=subprocess.PIPE, env=environment)
        until(lambda: run(["pgrep", "-f", f"^{emulator}"]).output)
        return child

    def test_leaves_nothing_when_it_is_killed(self) -> None:
        """Nobody can tell its processes to end then: they see it, end their emulators, and remove the folder."""
        emulator = self.folder / "its-emulator"
        shutil.copy(self.built / RIGHT.name / "emulator-tested", emulator)
        child = self.begun(emulator, str(GALLUSPA), "fuzz", "-j", "2", "-o", str(self.folder / "found"), "--", str(emulator))
        # The folder in which it tries the command goes before those of the processes come.
        until(lambda: len(list(self.folder.glob("galluspa-*/[01]"))) == 2)
        child.kill()
        child.communicate(timeout=PATIENCE)
        until(lambda: not run(["pgrep", "-f", f"{emulator}"]).output and not list(self.folder.glob("galluspa-*")))

    def test_shows_progress_on_a_terminal(self) -> None:
        told = on_terminal("fuzz", "--sessions", 600, "-j", 1, "--", self.built / RIGHT.name / "emulator-tested")
        self.assertIn(b" sessions a second", told)


class ProgramsTest(ToolTest):
    def test_they_are_lawful_sessions(self) -> None:
        library = Library.find(None)
        for trial in list(trials(3, 0))[:64]:
            self.assertEqual(recording.read(library.record(trial.session().text().encode())).checkpoints[-1].count, trial.count)
