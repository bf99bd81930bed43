"""galluspa debug over a terminal, with history, completion and interrupts; its moves and watchpoints in a loop."""

import contextlib
import dataclasses
import fcntl
import os
import pty
import select
import signal
import subprocess
import termios
import time
from collections.abc import Iterator

from galluspa.formats import recording
from tests.tools.samples import GALLUSPA, JUMP, PATIENCE, ToolTest, record, session, tool


class TerminalTest(ToolTest):
    """The debugger over a pseudo-terminal, as a user types."""

    SECONDS = PATIENCE

    def setUp(self) -> None:
        super().setUp()
        self.recording = self.recorded([0x40080001, 0x41080001, JUMP - 2], [1])
        self.file("it.sym", "0 t Top.Loop\n4 t Top.Second\n8 t Top.Last\n")

    @contextlib.contextmanager
    def debugging(self, *words: object) -> Iterator["Talk"]:
        talk = Talk([str(it) for it in (GALLUSPA, "debug", *words)], self.SECONDS)
        try:
            yield talk
        finally:
            talk.end()

    def test_commands_history_and_completion(self) -> None:
        with self.debugging(self.recording) as talk:
            self.assertIn("counts 0 to 1; help lists the commands", talk.until("(0) "))
            self.assertIn("breakpoint 1: Top.Loop at word 0", talk.typed("br\t Top.Lo\t\r", "(0) "))
            self.assertIn("R0 00000000 → 00000001", talk.typed("at 0\r", "(0) "))
            self.assertIn("the recording ends here", talk.typed("stepi\r", "(1) "))
            self.assertIn("breakpoint 1: Top.Loop\r\n         0", talk.typed("rc\r", "(0) "))
            self.assertIn("         1       1  41080001  ADD R1, R0, 1", talk.typed("\x1b[A\x1b[A\x1b[A\x7f1\r", "(1) "))
            self.assertIn("unknown command frob", talk.typed("frob\r", "(1) "))
            talk.typed("not this", "not this")
            self.assertIn("^C", talk.interrupted("(1) "))
            talk.typed("q\r", "")
            self.assertEqual(talk.status(), 0)

    def test_an_empty_line_repeats_a_move_and_the_end_of_the_input_ends(self) -> None:
        path = self.recorded([0x40080001, 0x41080001, JUMP - 2], [100], name="longer.orsr")
        with self.debugging(path) as talk:
            talk.until("(0) ")
            talk.typed("stepi 2\r", "(2) ")
            talk.typed("\r", "(4) ")
            talk.typed("print R0\r", "(4) ")
            talk.typed("\r", "(4) ")
            talk.typed("\x04", "")
            self.assertEqual(talk.status(), 0)

    def test_an_interrupt_ends_a_search_and_not_the_debugger(self) -> None:
        """The run up to its last checkpoint takes hours, and so does a search in it; that claim is the first false one."""
        read = recording.read(record(session([0x40080001, 0x41080001, JUMP - 2], [1])))
        first, last = (dataclasses.replace(read.checkpoints[1], count=count, pc=5) for count in (1, 1 << 40))
        text = recording.write(dataclasses.replace(read, checkpoints=[read.checkpoints[0], first, last]))
        with self.debugging(self.file("long.orsr", text)) as talk:
            talk.until("(0) ")
            talk.typed("watch 0x4000\r", "(0) ")
            talk.write("continue\r")
            talk.until("searched ")
            self.assertIn("interrupted", talk.typed("\x03", "(0) "))
            self.assertIn("R0 00000000 → 00000001", talk.typed("at 0\r", "(0) "))
            talk.write("at end\r")
            talk.until(" of 1,099,511,627,776")
            self.assertIn("interrupted", talk.typed("\x03", "(0) "))
            talk.typed("quit\r", "")
            self.assertEqual(talk.status(), 0)


class Talk:
    """A command on a pseudo-terminal."""

    def __init__(self, command: list[str], seconds: float) -> None:
        self._reader, terminal = pty.openpty()
        environment = {**os.environ, "TERM": "dumb", "PYTHONDONTWRITEBYTECODE": "1", "INPUTRC": "/dev/null"}
        self._process = subprocess.Popen(
            command,
            stdin=terminal,
            stdout=terminal,
            stderr=terminal,
            env=environment,
            start_new_session=True,
            # The terminal is the controlling one, so that Ctrl-C is a signal.
            preexec_fn=lambda: fcntl.ioctl(terminal, termios.TIOCSCTTY, 0),
        )
        os.close(terminal)
        self._seconds = seconds
        self._read = b""

    def write(self, text: str) -> None:
        """Types something."""
        os.write(self._reader, text.encode())

    def typed(self, text: str, wanted: str) -> str:
        """Types something, and returns what is printed up to a prompt; up to the end if none is named."""
        self.write(text)
        return self.until(wanted)

    def interrupted(self, wanted: str) -> str:
        """Types Ctrl-C until something is printed: Python misses one that comes just before it waits for a key."""
        for _ in range(PATIENCE // 2):
            self.write("\x03")
            with contextlib.suppress(TimeoutError):
                return self.until(wanted, 2)
        raise TimeoutError(f"{wanted!r} does not come")

    def until(self, wanted: str, seconds: float | None = None) -> str:
        """Returns what is printed up to a text; of a prompt, one at the beginning of a line."""
        end = time.monotonic() + (seconds or self._seconds)
        mark = wanted.encode()
        while True:
            at = self._read.find(mark) if mark else -1
            if at >= 0:
                found, self._read = self._read[: at + len(mark)], self._read[at + len(mark) :]
                return found.decode()
            if time.monotonic() > end:
                raise TimeoutError(f"{wanted!r} does not come: {self._read[-1000:]!r}")
            if select.select([self._reader], [], [], 0.2)[0]:
                try:
                    part = os.read(self._reader, 1 << 16)
                except OSError:
                    part = b""
                if not part:
                    if mark:
                        raise AssertionError(f"{wanted!r} does not come: {self._read[-1000:]!r}")
                    return self._read.decode()
                self._read += part

    def status(self) -> int:
        """Returns the exit status."""
        return self._process.wait(self._seconds)

    def end(self) -> None:
        """Ends the command, if it still runs."""
        if self._process.poll() is None:
            self._process.send_signal(signal.SIGKILL)
            self._process.wait()
        os.close(self._reader)


# A loop that calls, in a procedure with a frame; it shows R0 on the LEDs.
LOOP = """
Main:   MOV SP, 2000H
        BL Twice
after:  MOV R3, 1
done:   B done
Twice:  SUB SP, SP, 4
        STR LNK, SP, 0
        MOV R0, 5
        MOV R4, LEDS
next:   BL Leaf
        STR R0, R4, 0
        SUB R0, R0, 1
        BNE next
        LDR LNK, SP, 0
        ADD SP, SP, 4
        B LNK
Leaf:   ADD R1, R1, 1
        B LNK
        start Main
        checkpoints 60
"""


class LoopTest(ToolTest):
    """Moves past loops, and watches of registers and devices."""

    def setUp(self) -> None:
        super().setUp()
        self.recording = self.assembled(LOOP)
        self.symbols = self.folder / "it.sym"

    def ran(self, *commands: str) -> list[str]:
        ran = tool("debug", self.recording, "--batch", *(word for it in commands for word in ("-ex", it)))
        self.assertEqual(ran.status, 0, ran.errors)
        return ran.output.decode().splitlines()

    def words(self, *commands: str) -> list[int]:
        """Returns the words at which the machine is after each command."""
        lines = [it.split() for it in self.ran(*commands)]
        return [int(it[1]) for it in lines if len(it) > 2 and it[0].isdigit() and it[1].isdigit()]

    def test_until_runs_past_a_loop_in_the_same_procedure(self) -> None:
        lines = self.symbols.read_text().splitlines()
        # Without lines of a source each instruction is one.
        for text in (self.symbols.read_text(), "".join(f"{it.partition(chr(9))[0]}\n" for it in lines if " t " in it)):
            self.symbols.write_text(text)
            self.assertEqual(self.words("advance next", *["until"] * 8), [8, 9, 10, 11, 12, 13, 14, 2, 3])

    def test_until_a_place_is_advance(self) -> None:
        self.assertEqual(self.words("until Leaf", "u after"), [15, 2])

    def test_a_register_is_watched(self) -> None:
        lines = self.ran("watch SP", "run", "c", "c", "rc", "info breakpoints")
        self.assertEqual(lines[1], "watchpoint 1: change R14")
        changes = [it.partition("R14 ")[2][:19] for it in lines if "R14 0" in it]
        self.assertEqual(changes, ["00000000 → 00002000", "00002000 → 00001FFC", *["00001FFC → 00002000"] * 2])
        self.assertIn("  1  watchpoint  change R14  4 hits", lines)

    def test_flags_and_devices_are_watched(self) -> None:
        lines = self.ran("watch LEDs", "run", "c", "delete", "watch flags", "c")
        self.assertEqual([it.partition("LEDs ")[2][:7] for it in lines if "LEDs 0" in it], ["00 → 05", "05 → 04"])
        self.assertEqual(lines.count("watchpoint 1: change LEDs"), 3)
        self.assertEqual(lines.count("watchpoint 2: change flags"), 2)
        self.assertIn("; flags -", lines[-3])

    def test_all_watchpoints_that_an_instruction_meets_are_named_and_counted(self) -> None:
        lines = self.ran("at 8", "watch R0", "watch R0", "watch LEDs", "awatch LEDS", "c", "c", "rc", "info b")
        pauses = [it for it in lines if it.startswith("watchpoint")][4:]
        names = [f"watchpoint {it}" for it in ("1: change R0", "2: change R0", "3: change LEDs", "4: store LEDS")]
        self.assertEqual(pauses, [*names[2:], *names[:2], *names[:2]])
        self.assertEqual([it.split()[-2] for it in lines if it.endswith((" hit", " hits"))], ["2", "2", "1", "1"])

    def test_memory_at_a_register_is_watched_by_a_star(self) -> None:
        lines = self.ran("at 2", "watch *SP", "watch SP-4", "c", "c")
        self.assertEqual([it for it in lines if it.startswith("watchpoint 1")], ["watchpoint 1: change 0x2000"])
        self.assertEqual(sum("Mem[001FFC] 00000000 → 00000008" in it for it in lines), 1)
