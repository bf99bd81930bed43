"""What each command says of hostile files, names, streams and disks: rows that are made for all commands alike from their list, and those of
tables/refusals.txt, of one command each. A command says it in one line that a terminal only shows, and leaves nothing behind."""

import json
import os
import re
import shlex
import shutil
import struct
import subprocess
import tempfile
from collections.abc import Iterator, Sequence
from concurrent.futures import ThreadPoolExecutor
from dataclasses import dataclass
from pathlib import Path

from galluspa.commands import commands
from galluspa.formats.recording import page_of
from galluspa.process.cli import Output
from galluspa.process.escapes import printable
from tests.tools.samples import EXAMPLES, GALLUSPA, JUMP, STORED, TOP, ToolTest, record, rejoining, session, tool
from tests.tools.test_oberonmodules import loaded

# A command line of each subcommand that succeeds; its first word that is a file or a folder is its input. `build-library` takes none, and
# `fuzz` has tests of its own.
LINES = {
    "check": "stored.orsr",
    "record": "keys.json",
    "screen": "--at 1 stored.orsr",
    "migrate": "stored.orsr",
    "live": "keys.json",
    "assemble": "keys.asm",
    "session": "--of stored.orsr",
    "symbols": "--oberon modules.bin",
    "report": "stored.orsr",
    "recording-of": "page.html",
    "explain": "stored.orsr",
    "find": "stored.orsr PC=3",
    "why": "stored.orsr R0",
    "state": "stored.orsr",
    "debug": "stored.orsr --batch -ex bt",
    "trace": "stored.orsr --steps 1",
    "profile": "stored.orsr",
    "diff": "stored.orsr stored.orsr",
    "output": "hello.orsr",
    "suite": "suite",
    "rerun": "approved",
    "executed": "suite",
    "bisect": "keys.json --to 1 -- ./right {count}",
    "compare-trace": "stored.orsr counts.csv",
    "slice": "face.orsr --from 1 --to 2",
    "claim": "stored.orsr --at 1 --set R5=9",
}
# That prints nothing without commands that do.
SILENT = {"debug"}
# Those that print a picture or a recording.
BINARY = {"screen", "migrate", "claim", "slice", "output"}
# A name that is not UTF-8, has a line feed that begins a line of TAP, a directive, and a sequence that clears a terminal.
HOSTILE = os.fsdecode(b"\xff\nok 2 - b # SKIP \x1b[2J\\.orsr")
LONG = "a" * 300
# What is in the place of an input, and what is said of it.
INPUTS = (
    ("none", "No such file or directory"),
    (HOSTILE, "No such file or directory"),
    ("loop", "Too many levels of symbolic links"),
    (LONG, "File name too long"),
    ("folder", "Is a directory"),
    ("/proc/self/mem", "Input/output error"),
)
# The commands whose input is a folder, and what they say of all that is none.
FOLDERS = {"suite": "not a folder", "executed": "not a folder", "rerun": "neither a folder nor a file"}
# Commands of a shell that run another one with a standard output that fails, what is said of it, and for how many commands that is tried.
STREAMS = (
    ('"$@" > /dev/full', "{name}: standard output: No space left on device", 99),
    ('prlimit --fsize=8 "$@" > "$TMPDIR/../cut"', "{name}: standard output: File too large", 99),
    ('PYTHONUNBUFFERED=1 prlimit --fsize=8 "$@" > "$TMPDIR/../cut"', "{name}: standard output: File too large", 6),
    ('"$@" >&-', "galluspa: standard output: Bad file descriptor", 6),
)
# The names of outputs that fail, the status, and what is said of them.
OUTPUTS = (
    ("none/it", 2, "No such file or directory"),
    ("/dev/full", 3, "No space left on device"),
    ("folder", 2, "Is a directory"),
)


@dataclass(frozen=True)
class Row:
    """A command line, the status with which it ends, and its line on standard error; a shell may run it."""

    words: Sequence[str]
    status: int
    told: str
    shell: str = '"$@"'


def listed() -> Iterator[Row]:
    """Yields the rows of tables/refusals.txt: a command line, an arrow with the status if that is not 2, and the line without the command's name. An
    ellipsis stands for anything."""
    for line in (TOP / "tests/tools/tables/refusals.txt").read_text().splitlines():
        if line and not line.startswith("# "):
            [(given, status, told)] = re.findall(r"^(.*?) =(\d?)> (.*)$", line)
            words = shlex.split(given)
            name = f"galluspa {words[0]}: " if words[0] in (*LINES, "fuzz") else "galluspa: "
            yield Row(words, int(status or 2), name + told)


class RefusalsTest(ToolTest):
    def setUp(self) -> None:
        super().setUp()
        files = {
            "stored.orsr": STORED,
            "short.orsr": STORED[:-1],
            "false.orsr": rejoining(9),
            "face.orsr": (EXAMPLES / "face.orsr").read_bytes(),
            "hello.orsr": record((EXAMPLES / "hello.json").read_bytes()),
            # Calls itself without end; and a memory of words that counts down.
            "deep.orsr": record(session([0x4EE90004, 0xF7FFFFFE], [3_000_000])),
            "counts.bin": struct.pack("<4I", 0x40000900, 0x40090001, 0xE9FFFFFE, 0xE7FFFFFF),
            "keys.json": (EXAMPLES / "keys.json").read_bytes(),
            "keys.asm": (EXAMPLES / "keys.asm").read_bytes(),
            "counts.csv": b"count,R0\n0,0\n",
            "unordered.json": json.dumps(session([JUMP], [5, 5])).encode(),
            "endless.json": json.dumps(session([JUMP], [])).encode(),
            "it.bin": page_of(0x5100FFC8, 0x90200000, 0xA0100000, JUMP) + b"A",
            "large.bin": bytes((1 << 21) + 1),
            "brace": b"{",
            "braces.json": b"{}",
            "shape.json": b'{"format": "oberon-session"}',
            "brackets": b"[" * 100_000,
            "modules.bin": bytes(loaded().memory),
            "empty": b"",
            "bytes": bytes(range(128, 256)) * 20,
            "comment.asm": b";" * ((1 << 22) + 1),
            "suite/a.orsr": STORED,
            "bad/a.orsr": b"no recording",
            "approved/it.json": (EXAMPLES / "keys.json").read_bytes(),
        }
        for name, content in files.items():
            self.file(name, content)
        self.file("page.html", tool("report", self.folder / "stored.orsr").output)
        self.executable("right", "echo '{\"H\": 0}'")
        (self.folder / "folder").mkdir()
        (self.folder / "loop").symlink_to("loop")
        os.mkfifo(self.folder / "pipe")
        assert tool("rerun", self.folder / "approved", "--approve").status == 0

    def ended(self, row: Row, output: int = subprocess.PIPE) -> tuple[bytes, str, int]:
        """Returns what a row's command prints, on standard error too, and its status. It leaves no temporary file."""
        with tempfile.TemporaryDirectory() as room:
            (temporary := Path(room, "its")).mkdir()
            command = ["sh", "-c", row.shell, "sh", str(GALLUSPA), *row.words]
            environment = {**os.environ, "TMPDIR": str(temporary), "PYTHONDONTWRITEBYTECODE": "1", "BROWSER": "true"}
            ran = subprocess.run(
                command,
                cwd=self.folder,
                env=environment,
                stdin=subprocess.DEVNULL,
                stdout=output,
                stderr=subprocess.PIPE,
                check=False,
            )
            # A browser may still read the page that `live` made.
            if row.words[0] != "live":
                self.assertEqual(os.listdir(temporary), [], row)
            if "/cut" in row.shell:
                self.assertEqual(Path(room, "cut").stat().st_size, 8, row)
        return ran.stdout or b"", ran.stderr.decode(), ran.returncode

    def all_ended(self, rows: Sequence[Row], output: int = subprocess.PIPE) -> Iterator[tuple[Row, bytes, str, int]]:
        """Yields rows with what they printed, and their statuses; no file in the folder changes."""
        before = self.files()
        with ThreadPoolExecutor(os.cpu_count()) as pool:
            for row, ran in zip(rows, pool.map(lambda it: self.ended(it, output), rows)):
                yield row, *ran
        self.assertEqual(self.files(), before)

    def assert_told(self, rows: Sequence[Row], output: int = subprocess.PIPE, is_silent: bool = True) -> None:
        """Each row ends as it says, and prints nothing else, or nothing on standard error."""
        wrong = []
        for row, printed, errors, status in self.all_ended(rows, output):
            line = errors.removesuffix("\n")
            is_told = re.fullmatch(".*".join(map(re.escape, row.told.split("…"))), line) is not None
            # The debugger prints the commands before the one that is refused.
            if (printed and is_silent and row.words[0] != "debug") or status != row.status or not (is_told and line.isprintable()):
                wrong.append(
                    f"{' '.join(row.words)[:150]} {row.shell}: status {status}, {printed[:99]!r}, {line[:300]}, not {row.told[:300]}"
                )
        self.assertEqual("\n".join(wrong), "")

    def files(self) -> set[tuple[str, int]]:
        """Returns the files of the folder, with their sizes."""
        return {(str(it), it.lstat().st_size) for it in self.folder.rglob("*") if not it.is_dir()}

    def lines(self) -> Iterator[tuple[str, list[str], int]]:
        """Yields each command with its line, and the place of its input in it."""
        for name, line in LINES.items():
            words = shlex.split(line)
            yield name, words, next(at for at, word in enumerate(words) if (self.folder / word).exists())

    def test_those_of_one_command(self) -> None:
        self.assert_told(list(listed()))

    def test_each_command_has_a_line_that_succeeds(self) -> None:
        self.assertEqual(sorted(LINES), sorted(it.name for it in commands() if it.name not in ("build-library", "fuzz")))
        rows = [Row([name, *words], 0, "") for name, words, _ in self.lines()]
        self.assertEqual([(row, errors) for row, _, errors, status in self.all_ended(rows) if status != row.status], [])

    def test_options_that_are_none(self) -> None:
        self.assert_told([Row([it.name, "--bad", "x"], 2, f"{it.full_name}: …") for it in commands()])

    def test_inputs_that_cannot_be_read(self) -> None:
        rows = []
        for name, words, at in self.lines():
            for path, told in INPUTS:
                if name not in FOLDERS or path in ("none", HOSTILE, "loop"):
                    told = FOLDERS.get(name, told)
                    rows.append(Row([name, *words[:at], path, *words[at + 1 :]], 2, f"galluspa {name}: {printable(path)}: {told}"))
        self.assert_told(rows)

    def test_outputs_that_cannot_be_written(self) -> None:
        rows = []
        for name, words, at in self.lines():
            for option in outputs(name):
                told = f"galluspa {name}: "
                rows += [Row([name, option, it, *words], status, f"{told}{it}: {why}") for it, status, why in OUTPUTS]
                if name not in (*FOLDERS, "migrate"):
                    why = "the output would overwrite this input: name another file"
                    rows.append(Row([name, option, words[at], *words], 2, f"{told}{words[at]}: {why}"))
        self.assert_told(rows, is_silent=False)

    def test_standard_outputs_that_fail(self) -> None:
        reader, broken = os.pipe()
        os.close(reader)
        self.addCleanup(os.close, broken)
        lines = [([name, *words], f"galluspa {name}") for name, words, _ in self.lines() if name not in SILENT]
        for shell, told, most in STREAMS:
            # `live` writes a file first, which is cut off then.
            rows = [Row(words, 3, told.format(name=name), shell) for words, name in lines[:most]]
            self.assert_told([it for it in rows if it.words[0] != "live" or "prlimit" not in shell])
        self.assert_told([Row(words, 3, f"{name}: standard output: Broken pipe") for words, name in lines[:6]], broken)
        self.assert_told([Row(words, 3, "", '"$@" 2>&1') for words, _ in lines[:6]], broken)

    def test_a_closed_standard_input_is_an_empty_one(self) -> None:
        rows = [Row([name, *words], 0, "", '"$@" <&-') for name, words, _ in self.lines()]
        self.assertEqual([(row, errors) for row, _, errors, status in self.all_ended(rows) if status != row.status], [])

    def test_no_name_and_no_content_is_shown_raw(self) -> None:
        """Files of a hostile name, with contents that are refused and not."""
        for content in ("bytes", "brace", "false.orsr"):
            shutil.copy(self.folder / content, self.folder / HOSTILE)
            rows = [
                Row([name, *words[:at], HOSTILE, *words[at + 1 :]], 0, "")
                for name, words, at in self.lines()
                if name not in FOLDERS
            ]
            for row, printed, errors, status in self.all_ended(rows):
                self.assertLessEqual(status, 3, (row, errors))
                self.assertNotIn("Traceback", errors)
                self.assertEqual(raw((b"" if row.words[0] in BINARY else printed) + errors.encode()), b"", row)
                self.assertLessEqual(len(errors.splitlines()), 6, row)


def outputs(name: str) -> list[str]:
    """Returns the options of a command that name a file to write."""
    [command] = (it for it in commands() if it.name == name)
    return [it.option_strings[-1] for it in command.parser()._actions if it.type is Output]


def raw(text: bytes) -> bytes:
    """Returns what of a text a terminal would not only show."""
    return bytes(byte for byte in text if byte < 32 and byte != 10 or byte == 127 or byte >= 0xF8)
