"""Machines that wait: an hour of the machine's time, and all counts that there are, cost the page a moment of a processor."""

import json
import os
import random

from tests.page.driver.desk import Desk, expect, fail
from tests.page.driver.given import ECHOES
from tests.page.driver.shows import JUDGED, LINE
from tests.tools.samples import PROGRAM, record, run, tool

HOUR, LAST = 90_000_000_000, 1 << 40
# How many milliseconds of a processor the check of an hour may take, if twice those of the program are fewer; and a run to the last count, or its check.
HOUR_MS, LAST_MS = 2000, 2000
TRIES = 3


def waiting(desk: Desk, end: int, keys: int) -> bytes:
    """Returns a session of a program that waits for keys and sends them back: so many come before a count, and four checkpoints, the last one there."""
    path = desk.folder / "waits.asm"
    path.write_text(ECHOES.format(more=0))
    counts = sorted(random.Random(7).sample(range(1000, end), keys))
    inputs = [[count, "key", 97 + at % 26] for at, count in enumerate(counts)]
    made = json.loads(tool("assemble", path).output)
    return json.dumps({**made, "inputs": inputs, "checkpoints": [end * quarter // 4 for quarter in range(1, 5)]}).encode()


def milliseconds_to_check(desk: Desk, name: str, recording: bytes) -> float:
    """Opens a recording, and returns how many milliseconds of the processor the page's workers took by the time that it has its line: the least of some tries."""
    took = []
    for _ in range(TRIES):
        with desk.page.measuring() as tasks:
            desk.start(name, recording)
            desk.page.wait(JUDGED)
        took.append(sum(tasks.workers))
    return min(took)


def test_check_hour(desk: Desk) -> None:
    """A recording of an hour in which the program waits for ten thousand keys is checked in twice the time that the program `oberon_replay` takes, or in two seconds."""
    recording = record(waiting(desk, HOUR, 10000))
    before = os.times()
    ran = run([PROGRAM, "check"], recording)
    after = os.times()
    own = 1000 * (after.children_user + after.children_system - before.children_user - before.children_system)
    took = milliseconds_to_check(desk, "hour.orsr", recording)
    expect("the line of an hour", desk.page.answer(LINE), ran.output.decode().rstrip("\n"))
    if took > max(2 * own, desk.page.allowed(HOUR_MS)):
        fail(f"the check of an idle hour takes the page {took:.0f} ms of the processor, and the program {own:.0f} ms")


def test_run_to_last_count(desk: Desk) -> None:
    """A program that waits is run to the last count, 2^40, at full speed, and its recording is checked, in about a second each."""
    page, note = desk.page, waiting(desk, LAST, 200)
    desk.set_speed("fast")
    took = []
    for _ in range(TRIES):
        desk.start("waits.json", note)
        with page.measuring() as tasks:
            desk.press("run")
            page.wait(f"!galluspa.frame().on && galluspa.count() === {LAST}", moving="galluspa.count()")
        took.append(sum(tasks.workers))
    expect("what was sent", page.answer("el('out').textContent.length"), 200)
    checked = milliseconds_to_check(desk, "waits.orsr", record(note))
    expect("the line of its recording", page.answer(LINE), f"accepted 4 checkpoints {LAST} steps")
    desk.set_speed("clock")
    if max(min(took), checked) > page.allowed(LAST_MS):
        fail(f"a run to 2^40 takes {min(took):.0f} ms of the processor, and its check {checked:.0f} ms")
