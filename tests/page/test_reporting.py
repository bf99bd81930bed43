"""A page with a false recording in it, as one attaches it to a bug report: what is in sight when it opens."""

import json
from base64 import b64encode
from dataclasses import replace

from galluspa.commands.recording_of import recording_in
from galluspa.formats import recording
from tests.page.driver.desk import Desk, expect, fail, program
from tests.page.driver.exported import exported, exported_with, project_in
from tests.page.driver.given import FACE, FRAMES, frames
from tests.page.driver.shows import shown
from tests.tools.browser import Page

NOTE = "The mouth is <b>too low</b>:\n\u202esee its row."
FALSE_AT, DISPLAY = 8000000, 0xE7F00
EXPLAINED = "document.querySelector('#g-false-claim .both') && document.querySelector('#g-card .note')"
CARD = "document.getElementById('g-card')"
# How many dots of each picture are of the colours of dots that differ: set, and clear.
COLOURS = """[...document.querySelectorAll('#g-false-claim canvas')].map((it) => {
  const { data } = it.getContext('2d').getImageData(0, 0, it.width, it.height), found = [0, 0];
  for (let at = 0; at < data.length; at += 4) if (data[at] === 208) found[0]++; else if (data[at + 1] === 200) found[1]++;
  return [it.ariaLabel, ...found];
})"""
# Whether an element is in the window as the page opens.
IN_SIGHT = (
    "((box) => box.top >= 0 && box.bottom <= innerHeight && box.width > 0)(document.querySelector({}).getBoundingClientRect())"
)


def with_dots(read: recording.Recording, number: int, address: int, flipped: int) -> bytes:
    """Returns a recording in which a checkpoint claims that dots of a byte of the screen are others."""
    # The page of zeros is not in the pool.
    pool = {bytes(1024): 0}
    checkpoints = []
    for at, checkpoint in enumerate(read.checkpoints):
        table = checkpoint.table[:]
        for slot, page in enumerate(checkpoint.table):
            content = bytearray(read.page(page))
            if (at, slot) == (number, address // 1024):
                content[address % 1024] ^= flipped
            table[slot] = pool.setdefault(bytes(content), len(pool))
        checkpoints.append(replace(checkpoint, table=table))
    return recording.write(replace(read, pool=memoryview(b"".join([*pool][1:])), checkpoints=checkpoints))


def with_project(page: bytes, **more: object) -> bytes:
    """Returns an exported page with other members in its project."""
    return exported_with(page, json.dumps({**project_in(page), **more}).encode())


def expect_in_sight(opened: Page, line: str) -> None:
    """The verdict, the first difference, the notes and the sources are in sight in a laptop's window, without a click."""
    opened.resize(1366, 625)
    opened.wait(f"{EXPLAINED} && galluspa.count() === {FALSE_AT}")
    expect("its line", opened.answer(shown("line")), line)
    for what in ("#g-headline", "#g-false-claim .both", "#g-false-claim canvas", "#g-card .note", "#g-screen"):
        expect(f"whether {what} is in sight", opened.answer(IN_SIGHT.format(json.dumps(what))), True)
    expect("the note", opened.answer(f"{CARD}.querySelector('.note bdi').textContent"), NOTE)
    expect("elements that the note made", opened.answer(f"{CARD}.querySelectorAll('.note bdi *').length"), 0)
    expect("whether the source is there", opened.answer(f"{CARD}.textContent.includes('Source: ')"), True)


def test_false_screen(desk: Desk) -> None:
    """A false recording whose screen differs is exported, and opened as a page, and dropped on one: both screens are beside each other."""
    page, at = desk.page, DISPLAY + 128 * 400 + 60
    false = with_dots(recording.read(FACE), 2, at, 0b11)
    line = program("check", false)[0]
    desk.start("face.orsr", false)
    page.wait("galluspa.file()?.verdict")
    file = exported(desk, "face")
    expect("the recording in it", recording_in("face.html", file), false)
    sources = [["it.asm", "; Nothing\n"], ["Face.Mod", "MODULE Face;\n"]]
    made = with_project(file, notes=[[FALSE_AT, NOTE]], sources=sources, file="it.asm")
    (desk.folder / "report.html").write_bytes(made)
    with desk.browser.page(desk.folder / "report.html") as opened:
        expect_in_sight(opened, line)
        told = opened.answer("document.querySelector('#g-false-claim .both').textContent")
        expect("whether the first difference is named", f"the word at {at:05X}" in told, True)
        claimed, own = opened.answer(COLOURS)
        expect("what the pictures are", [claimed[0], own[0]], ["The screen that is claimed", "The screen that is the machine's"])
        expect("their dots that differ", sorted([claimed[1:], own[1:]]), [[0, 2], [2, 0]])
        expect("its errors", opened.errors, [])
    desk.drop({"report.html": made})
    expect_in_sight(page, line)


def test_accepted(desk: Desk) -> None:
    """A page with an accepted recording opens at its cursor, with its notes, names and sources, which need not be all of its program."""
    parts = frames(desk.folder)
    desk.start("frames.orsr", parts["frames.orsr"])
    desk.page.wait("galluspa.file()?.verdict")
    file = exported(desk, "frames")
    symbols = {"from": "frames.sym", "bytes": b64encode(parts["frames.sym"]).decode()}
    sources = [[name, (FRAMES / name).read_text()] for name in ("shapes.asm", "main.asm", "display.asm")]
    for number, said in (
        (3, "shapes.asm and 2 more files: 81 words, 0 problems"),
        (1, "shapes.asm is a part of a program. To assemble it, open it together with display.asm, main.asm."),
    ):
        shows = {"notes": [[7445, NOTE]], "symbols": symbols, "sources": sources[:number], "file": "shapes.asm", "cursor": 7445}
        (desk.folder / "report.html").write_bytes(with_project(file, **shows))
        with desk.browser.page(desk.folder / "report.html") as opened:
            opened.wait("galluspa.cursor() === 7445 && galluspa.moment()?.exact && document.querySelector('#g-card .note')")
            opened.wait(f"{shown('source-said')} === {json.dumps(said)}")
            told = opened.answer(f"{CARD}.textContent")
            if "names from frames.sym, which are claims of whoever made it." not in told or "Source: shapes.asm" not in told:
                fail(f"the card says {told!r}")
            expect("its errors", opened.errors, [])
