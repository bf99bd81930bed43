"""Files that are handed in: exported projects that are dropped together come to a board, which says of each where it parts from a model."""

import json
import re

import galluspa.formats.recording
from galluspa.commands.recording_of import recording_in
from tests.page.driver.desk import Desk, expect, fail
from tests.page.driver.exported import exported, exported_echo, exported_with, project_in, run_with_key
from tests.page.driver.given import ECHOES
from tests.tools.samples import record, tool

BOARD = "[...el('board').querySelectorAll('tr')].slice(1).map((row) => [...row.children].map((it) => it.textContent))"
# Whether each row is judged: what is under way ends with two dots.
JUDGED_ALL = f"({BOARD}).every((row) => row[2] && !row.some((text) => text.endsWith('..')))"
# The heads that are shown.
HEADS = "[...el('board').querySelectorAll('th')].filter((it) => it.checkVisibility()).map((it) => it.textContent)"
WITHOUT_LESSON = ["", "project", "its recording", "by the model's checkpoints", "parts from the model"]
# The words of the board's heads that are in two lines.
BROKEN = """
[...el("board").querySelectorAll("th")].filter((it) => it.firstChild && it.checkVisibility()).flatMap((it) => it.textContent.split(" ").filter((word) => {
  const range = document.createRange(), at = it.textContent.indexOf(word);
  range.setStart(it.firstChild, at);
  range.setEnd(it.firstChild, at + word.length);
  return range.getClientRects().length > 1;
}))
"""
DIFFERS = re.compile(r"First difference at line (\d+): (.*?) in the model, at ([\d,]+); (.*?) in this one, at ([\d,]+)\.")
SAME = re.compile(r"nowhere\. The lines that both sources have do the same up to ([\d,]+); in the model that is ([\d,]+)\.")
# Echoes, with one more line that says nothing, and one that changes nothing that is seen.
NOTED = "; Sends back each key.\n" + ECHOES.replace("wait:", "        MOV R9, 5\nwait:")
# Stores what it counts, and never comes to the same state again; and the count of a checkpoint that takes much longer to come to, line by line, than a first turn.
COUNTS = """        MOV R2, 4096
again:  ADD R1, R1, {more}
        STR R1, R2, 0
        B again
"""
FAR = 50_000_000


def test_hand_in(desk: Desk) -> None:
    """Files that are dropped together come to a board: each has a picture, the verdict on its recording, what the model's checkpoints say of it, and the first line at
    which it parts from the model, whatever lines were put in before that. One without a source has the count. One that is refused says so, and a click opens one.
    """
    page = desk.page
    files: dict[str, bytes] = {}
    for name, text, more in (("model", ECHOES, 0), ("same", ECHOES, 0), ("noted", NOTED, 0), ("other", NOTED, 1)):
        desk.open_source(f"{name}.asm", text.format(more=more))
        run_with_key(desk, "a")
        files[f"{name}.html"] = exported(desk, name)
    bare = {**project_in(files["other.html"]), "name": "bare", "file": "", "sources": [], "ran": None}
    files["bare.html"] = exported_with(files["other.html"], json.dumps(bare).encode())
    files["broken.html"] = b"<!doctype html><p>"
    model = galluspa.formats.recording.read(recording_in("model.html", files["model.html"]))
    [key], end = model.events, model.checkpoints[-1].count
    desk.drop(files)
    page.wait(f"el('board').open && ({BOARD}).length === {len(files)} && {JUDGED_ALL}")
    rows = dict(zip(files, page.answer(BOARD), strict=True))
    expect("the heads that are shown, since no lesson came", page.answer(HEADS), WITHOUT_LESSON)
    expect("the row of the model", rows["model.html"][3:5], ["the model", ""])
    expect("the row of the same program", rows["same.html"][3:5], ["the same at its checkpoint", "nowhere"])
    expect("what is seen of one with more lines", rows["noted.html"][3], "the same at its checkpoint")
    both = counts_in(SAME, rows["noted.html"][4])
    if not all(end - 10 < count <= end for count in both):
        fail(f"more lines are compared up to {both}, of {end}")
    if not re.fullmatch(r"not the same at checkpoint 1 of 1, at [\d,]+: .*", rows["other.html"][3]):
        fail(f"what is seen of another program: {rows['other.html']}")
    found = DIFFERS.fullmatch(rows["other.html"][4])
    # The loops that wait have three instructions, and begin at 1 and at 2; the fourth instruction after one that sees the key adds to it.
    wanted = [key.count + (begin - key.count) % 3 + 4 for begin in (1, 2)]
    expect("where another program parts", found and found.group(1, 2, 4), ("8", "R0 = 00000061", "R0 = 00000062"))
    expect("its counts", counts_in(DIFFERS, rows["other.html"][4])[1:], wanted)
    expect("where one without a source parts", rows["bare.html"][4], "at 2")
    expect(
        "the row of what is refused",
        rows["broken.html"][2],
        "refused: no recording in this page: Export makes pages with one, and so does galluspa report",
    )
    expect("the pictures", page.answer("el('board').querySelectorAll('canvas').length"), 5)
    for width, height in ((1400, 900), (800, 600), (400, 800)):
        page.resize(width, height)
        expect(
            f"whether the board is as wide as its window at {width}",
            page.answer("el('board').scrollWidth <= el('board').clientWidth"),
            True,
        )
        expect(f"words of its heads that are broken at {width}", page.answer(BROKEN), [])
    page.resize(1400, 900)
    desk.click_on("[...el('board').querySelectorAll('button')].find((it) => it.textContent === 'other')")
    page.wait("!el('board').open && galluspa.work().name === 'other' && galluspa.source().isRunning")


def counts_in(pattern: re.Pattern[str], text: str) -> list[int]:
    """Returns the numbers of a text that has a pattern, without those that are no number."""
    found = pattern.fullmatch(text)
    if not found:
        fail(f"{text!r} is not {pattern.pattern!r}")
    return [int(it.replace(",", "")) for it in found.groups() if it.replace(",", "").isdigit()]


def made(desk: Desk, file: bytes, name: str, source: str, last: int) -> bytes:
    """Returns an exported file of a source, which is run up to a count."""
    path = desk.folder / f"{name}.asm"
    path.write_text(source)
    session = json.loads(tool("assemble", path).output)
    project = {**project_in(file), "name": name, "file": path.name, "sources": [[path.name, source]], "ran": None, "notes": []}
    return exported_with(file, json.dumps(project).encode(), record({**session, "checkpoints": [last]}))


def test_judge_lesson(desk: Desk) -> None:
    """The steps of a lesson that a model has are judged for each hand-in, in a column that a board without a lesson does not have."""
    page = desk.page
    file = exported_echo(desk)
    # After the first instruction R1 has the address of the key codes; R2 is never written.
    steps = [{"task": "Do it.", "see": "It is done.", "claim": {"at": 1, **claim}} for claim in ({"R1": 0xFFFFFFDC}, {"R2": 1})]
    taught = {**project_in(file), "name": "model", "lesson": {"title": "Echo", "steps": steps}}
    desk.drop({"model.html": exported_with(file, json.dumps(taught).encode()), "own.html": file})
    page.wait(f"el('board').open && ({BOARD}).length === 2 && {JUDGED_ALL}")
    expect("the heads that are shown", page.answer(HEADS), [*WITHOUT_LESSON, "by the lesson"])
    for row in page.answer(BOARD):
        if not row[5].startswith("1 of 2 steps; step 2: "):
            fail(f"what the lesson says: {row}")
    desk.click_on("el('board').querySelector('.close')")
    page.wait("!el('board').open")


def test_take_turns(desk: Desk) -> None:
    """A comparison that takes long is shown as far as it is, holds no other up, and ends with the board."""
    page = desk.page
    file, source = exported_echo(desk), COUNTS.format(more=1)
    slow = source.replace("        B again", "        ADD R9, R9, 1\n        B again")
    files = {"model.html": made(desk, file, "model", source, FAR), "slow.html": made(desk, file, "slow", slow, 100)}
    files["wrong.html"] = made(desk, file, "wrong", COUNTS.format(more=2), 100)
    desk.drop(files)
    page.wait(
        f"el('board').open && ({BOARD})[1]?.[4].startsWith('so far the same up to ') && ({BOARD})[2]?.[4].startsWith('First ')"
    )
    row = page.answer(BOARD)[2]
    expect("what is seen of both", [one[3] for one in page.answer(BOARD)[1:]], ["the same at its checkpoint"] * 2)
    if not row[4].startswith("First difference at line 2: R1 = 00000001 in the model, at 1; R1 = 00000002 in this one, at 1."):
        fail(f"where another program parts: {row}")
    page.press("Escape", number=27)
    page.wait("!el('board').open")
