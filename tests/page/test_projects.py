"""Projects: the runs of a source are one entry of the list, and a project is exported as one file and opened again."""

import base64
import gzip
import json
import re

from galluspa.commands.recording_of import recording_in
from tests.page.driver.desk import LONGEST_TASK_MS, Desk, expect, fail, program
from tests.page.driver.exported import exported, exported_echo, exported_with, project_in, run_with_key
from tests.page.driver.given import DRAWS, ECHOES
from tests.page.driver.records import NUMBER, PARTED, WITH_STORE
from tests.page.driver.shows import REFUSED_LINE, SENT, shown
from tests.tools.samples import EXAMPLES, rejoining

ENTRIES = "[...el('kept-list').children].filter((it) => it.tagName === 'P').map((it) => it.textContent)"
LABELS = "[...el('kept-list').children].filter((it) => it.tagName === 'BUTTON').map((it) => it.textContent)"
# What is compared of a project that was exported: the count, the source, the breakpoints, the notes, the name, what was sent, and the line of the instruction.
STATE = "[galluspa.cursor(), galluspa.count(), sourceField.text, breakpoints(), notes(), galluspa.work().name, el('out').textContent, el('where').textContent]"


def test_fold_runs(desk: Desk) -> None:
    """The runs of a source are one entry, named at the first run; a run without inputs gives way to the next one; a pinned run is an entry of its own; what is deleted
    comes back whole; another name is that of all."""
    page = desk.page
    desk.open_source("draws.asm", DRAWS)
    first = run_with_key(desk, "a")
    run_with_key(desk, "b")
    desk.run_source()
    page.wait("galluspa.frame().on && galluspa.count() > 1000")
    desk.pause()
    page.wait("galluspa.work().isStored")
    run_with_key(desk, "c")
    desk.start("keys.json", (EXAMPLES / "keys.json").read_bytes())
    page.wait("el('kept-list').querySelector('summary')?.textContent.startsWith('2 older runs, ')")
    expect("the number of projects", page.answer(f"({ENTRIES}).length"), 1)
    expect("the buttons of the project", page.answer(LABELS), ["Resume", "Pin", "Delete"])
    pictures, number = page.answer("el('kept-list').querySelectorAll('canvas').length"), page.answer(NUMBER)
    expect("the pictures, and the records", [pictures, number], [3, 6])
    page.answer("el('kept').open = true")
    desk.click_on("el('kept-list').querySelector('summary')")
    desk.click_on("[...el('kept-list').querySelectorAll('.runs button')].filter((it) => it.textContent === 'Pin').at(-1)")
    page.wait(f"({ENTRIES}).length === 2 && ({ENTRIES}).some((it) => it.startsWith('Pinned: draws, of '))")
    expect("how many older runs there are still", page.answer("el('kept-list').querySelectorAll('.runs p').length"), 1)
    project = "[...el('kept-list').children].find((it) => it.tagName === 'P' && !it.textContent.startsWith('Pinned: '))"
    page.answer(f"void (window.found = {project})")
    desk.click_on("(() => { let it = found; while (it.textContent !== 'Delete') it = it.nextElementSibling; return it; })()")
    page.wait(f"({ENTRIES})[0].startsWith('Deleted: draws, of ')")
    expect("the records that are left", page.answer(NUMBER), 2)
    desk.click_on("el('kept-list').querySelector('button')")
    page.wait(f"!({ENTRIES})[0].startsWith('Deleted: ')")
    expect("the records that came back", page.answer(NUMBER), number)
    page.answer("void (window.found = [...el('kept-list').children].find((it) => it.textContent.startsWith('Pinned: ')))")
    desk.click_on("found.nextElementSibling")
    page.wait(f"galluspa.work().isPinned && galluspa.count() === {first}")
    desk.press("project-name")
    page.answer("el('project-name').select()")
    page.insert("lines")
    page.press("Enter")
    page.wait(f"{shown('name')} === 'lines'")
    desk.press("pin-run")
    page.wait("galluspa.work().head.name === 'lines' && !galluspa.work().head.pinned && !galluspa.isUnsafe()")
    desk.reload()
    page.wait(f"({ENTRIES}).length === 1")
    expect("the name of the project", page.answer(ENTRIES)[0].split(",")[0], "lines")


# Keeps a hundred projects: a source, and a run with its picture.
PUT_MANY = """
for (let at = 1; at <= 100; at++) {
  const own = `source ${at}`, id = `run ${at}`, desk = { ...run.desk, source: own };
  store.put({ ...bodies[source.of], id: own }), store.put({ ...source, id: `head ${own}`, of: own, name: `project ${at}` });
  store.put({ ...bodies[run.of], id }), store.put({ ...run, id: `head ${id}`, of: id, desk });
}
"""
MANY = f"""
{PARTED.strip()}.then(({{ heads, bodies }}) => {{
  const run = heads.find(({{ of }}) => bodies[of].recording), source = heads.find(({{ of }}) => bodies[of].parts);
  return {(WITH_STORE % PUT_MANY).strip()};
}})
"""


def test_list_hundred(desk: Desk) -> None:
    """To bring one back in a list of a hundred projects costs a fifth of a second on a fast machine."""
    page = desk.page
    desk.open_source("draws.asm", DRAWS)
    run_with_key(desk, "a")
    page.answer("sourceField.goTo(0, 0)")
    page.insert(";")
    page.wait("galluspa.isUnsafe()")
    page.wait("!galluspa.isUnsafe()")
    page.answer(MANY)
    took = []
    desk.reload()
    page.wait(f"{shown('kept-number')} === '101'")
    page.answer("el('kept').open = true")
    for _ in range(3):
        desk.click_on("[...el('kept-list').querySelectorAll('button')].find((it) => it.textContent === 'Delete')")
        undo = "[...el('kept-list').querySelectorAll('button')].find((it) => it.textContent === 'Undo')"
        page.wait(undo)
        before = page.task_seconds()
        page.answer(f"{undo}.click()")
        page.wait(f"!{undo} && {shown('kept-number')} === '101'")
        took.append(1000 * (page.task_seconds() - before))
    expect("the pictures", page.answer("el('kept-list').querySelectorAll('canvas').length"), 101)
    if min(took) > page.allowed(2 * LONGEST_TASK_MS):
        fail(f"a list of a hundred projects took {took} ms")


def test_export(desk: Desk) -> None:
    """A project is exported as one file, which has a recording that the program accepts, and opens where it was left: as a page, and dropped on one. It is kept only
    once something is done in it."""
    page = desk.page
    desk.open_source("echo.asm", ECHOES.format(more=0))
    run_with_key(desk, "a")
    old = page.answer("galluspa.count()")
    desk.look_at(0)
    page.wait("galluspa.cursor() === 0 && galluspa.moment()?.exact")
    desk.press("take-here")
    page.wait("!galluspa.isPast() && galluspa.count() === 0")
    desk.go_on()
    page.press("b")
    page.wait(f"{SENT} === 'b'")
    desk.pause()
    desk.click_on("el('source').querySelector('[data-line=\"4\"]')")
    desk.press("back")
    page.wait("galluspa.isPast() && galluspa.moment()?.exact")
    desk.press("tab-log")
    desk.press("note")
    page.insert("The key <b>is taken</b> here")
    page.press("Enter")
    page.wait("notes().length === 1")
    desk.press("tab-source")
    was = page.answer(STATE)
    file = exported(desk, "echo")
    recording = recording_in("echo.html", file)
    expect("the verdict on its recording", program("check", recording)[1], 0)
    path = desk.folder / "echo.html"
    path.write_bytes(file)
    with desk.browser.page(path) as other:
        opened = Desk(desk.browser, other, desk.folder)
        other.wait("galluspa.cursor() !== null && galluspa.moment()?.exact && galluspa.source().isRunning")
        expect("what the file opens with", other.answer(STATE), was)
        expect("its branch", other.answer("branchesShown().length"), 1)
        expect("the line that it shows", other.answer(shown("line")), program("check", recording)[0])
        other.answer("document.querySelector('#g-branches button').click()")
        other.wait(f"galluspa.count() === {old} && galluspa.work().number === 1 && galluspa.source().isRunning")
        opened.expect_sound()
    page.save_into(desk.folder)
    desk.begin_empty()
    desk.drop({"echo.html": file})
    page.wait("galluspa.frame() && galluspa.cursor() !== null && galluspa.moment()?.exact && galluspa.source().isRunning")
    expect("what opens when it is dropped", page.answer(STATE), was)
    page.wait("!galluspa.isUnsafe()")
    expect("what is kept of a file that is only opened", page.answer(NUMBER), 0)
    desk.press("back-now")
    # Else the machine stops there.
    desk.click_on("el('source').querySelector('[data-line=\"4\"]')")
    page.wait("!breakpoints().length")
    desk.go_on()
    page.press("c")
    page.wait(f"{SENT} === 'bc'")
    desk.pause()
    page.wait("galluspa.work().kept.startsWith(`${galluspa.count()} `) && !galluspa.isUnsafe()")
    desk.reload()
    page.wait(f"({ENTRIES}).length === 1")
    expect("the branches that are kept", page.answer("el('kept-list').querySelectorAll('p').length"), 2)
    expect("what one continues with, as it was worked on last", "branch 2" in page.answer(shown("continue-what")), True)
    desk.press("continue")
    page.wait(f"galluspa.work().number === 2 && {SENT} === 'bc' && galluspa.source().isRunning")
    desk.press("save-recording")
    desk.saved("echo-live.orsr")
    desk.expect_notice("a recording of a source", r"A recording has no source: Export, under Saved, writes both in one file\.")
    desk.open_source("other.asm", DRAWS)
    exported(desk, "echo")
    desk.expect_notice("a source that the run is not of", r"other\.asm is not in the file, since this run is not of it\.")


def test_keep_noted(desk: Desk) -> None:
    """A project that was opened from a file is kept once a note is pinned in it, though the page is loaded anew right after that."""
    page = desk.page
    file = exported_echo(desk)
    desk.begin_empty()
    desk.drop({"echo.html": file})
    page.wait(f"galluspa.frame() && galluspa.source().isRunning && {SENT} === 'a'")
    desk.press("tab-log")
    desk.press("note")
    page.insert("here it is")
    page.press("Enter")
    page.wait("notes().length === 1 && galluspa.frame().hasOwn")
    desk.reload()
    page.wait("el('continue').checkVisibility() && !el('continue').disabled")
    desk.press("continue")
    page.wait(f"{SENT} === 'a' && notes().length === 1 && galluspa.source().isRunning")
    expect("the note", page.answer("notes()"), ["here it is"])


def test_keep_without_inputs(desk: Desk) -> None:
    """A run without inputs that was kept for its note is kept on once it is resumed: that the note is deleted, and a breakpoint."""
    page = desk.page
    desk.run_to_end("watched.orsr", rejoining(1))
    desk.press("tab-log")
    desk.press("note")
    page.insert("look here")
    page.press("Enter")
    page.wait("galluspa.work().head?.desk.notes.length === 1")
    for notes, breaks in ((1, 0), (0, 1)):
        desk.reload()
        desk.press("continue")
        page.wait("galluspa.frame()?.hasOwn")
        if notes:
            desk.press("tab-log")
            desk.click_on("el('notes').querySelector('[aria-label]')")
            desk.press("tab-code")
            desk.press("code-at")
            page.insert("0")
            desk.click_on("el('code-form').querySelector('[value=break]')")
            page.wait("galluspa.work().head.desk.notes.length === 0 && galluspa.work().head.desk.breaks.length === 1")
        else:
            page.wait(f"notes().length === {notes} && breakpoints().length === {breaks}")


def test_ask_noted(desk: Desk) -> None:
    """A note in a replay that is not over is not kept yet, which the page says; it asks before it is left or opens another machine."""
    page = desk.page
    desk.start("watched.orsr", rejoining(1))
    desk.press("tab-log")
    desk.press("note")
    page.insert("look here")
    page.press("Enter")
    desk.expect_notice("a note in a replay", "The note is kept once the replay is over, or you continue from here.")
    expect("whether the page asks before it is left", page.is_kept_open(), True)
    page.dialogs.clear()
    desk.click("draw")
    page.wait("galluspa.work().name === 'draw'")
    expect("what the page asks before it opens another machine", page.dialogs, ["confirm"])
    desk.start("watched.orsr", rejoining(1))
    desk.press("tab-log")
    desk.press("note")
    page.insert("look here")
    page.press("Enter")
    page.wait("notes().length === 1")
    desk.click("run")
    page.wait("!galluspa.frame().on && galluspa.frame().hasOwn && galluspa.work().isStored")
    expect("whether the page asks once the replay is over", page.is_kept_open(), False)
    desk.ready()


def test_refuse_hostile(desk: Desk) -> None:
    """An exported file that somebody tampered with is refused by name, runs nothing, and leaves what is open as it is."""
    page = desk.page
    file = exported_echo(desk)
    project = project_in(file)
    recording = recording_in("echo.html", file)
    bomb = gzip.compress(bytes(170_000_000), 1)
    cases: list[tuple[bytes, str]] = [
        (exported_with(file, b"{"), "the project in this file is not JSON"),
        (exported_with(file, b"\xff"), "the project in this file is not a text in UTF-8"),
        (exported_with(file, b"[]"), "the project in this file is not valid: format"),
        (
            exported_with(file, json.dumps({**project, "version": 2}).encode()),
            "the project in this file has version 2, and this page reads version 1",
        ),
        (exported_with(file, json.dumps({**project, "breaks": [-1]}).encode()), "the project in this file is not valid: breaks"),
        (
            exported_with(file, json.dumps({**project, "breaks": list(range(100000))}).encode()),
            "the project in this file is not valid: breaks",
        ),
        (
            exported_with(file, json.dumps({**project, "sources": [["a", 1]]}).encode()),
            "the project in this file is not valid: sources",
        ),
        (exported_with(file, json.dumps({**project, "file": "none"}).encode()), "the project in this file is not valid: file"),
        (
            exported_with(file, json.dumps({**project, "lesson": {"title": "x", "steps": []}}).encode()),
            "the project in this file is not valid: lesson",
        ),
        (
            exported_with(
                file,
                json.dumps(
                    {**project, "branches": [{"number": 1, "parent": 0, "end": 1, "recording": "*", "inputs": ""}]}
                ).encode(),
            ),
            "the project in this file is not valid: branches",
        ),
        (exported_with(file, recording=recording[:-1]), program("check", recording[:-1])[0]),
        (exported_with(file, recording=b"ORSR"), program("check", b"ORSR")[0]),
        (
            re.sub(rb'(id="g-recording">)[^<]*', lambda it: it[1] + base64.b64encode(bomb), file),
            "the recording in this page is longer than any recording",
        ),
        (re.sub(rb'(id="g-recording">)[^<]*', rb"\1????", file), "the recording in this page is not compressed data"),
        (file + b'<script type="text/plain" id="g-recording"></script>', "2 recordings in this page: an exported page has one"),
        (b"<!doctype html><p>", "no recording in this page: Export makes pages with one, and so does galluspa report"),
    ]
    before = page.answer("[galluspa.work().generation, sourceField.text, galluspa.count()]")
    for content, line in cases:
        page.answer("document.querySelector('.refusal').click()")
        path = desk.folder / "hostile.html"
        path.write_bytes(content)
        page.choose("#g-file", path)
        page.wait(REFUSED_LINE)
        expect("what is refused", page.answer(REFUSED_LINE), line)
        expect("what is open still", page.answer("[galluspa.work().generation, sourceField.text, galluspa.count()]"), before)
    name = "\u202eevil\n<script>window.ran = 1</script>"
    odd = {**project, "name": name, "notes": [[1, "<img src=x onerror='window.ran = 1'>"]]}
    evil = exported_with(file, json.dumps(odd).encode()).replace(b"<body>", b"<body><script>window.ran = 1</script>")
    page.answer("document.querySelector('.refusal').click()")
    desk.drop({"evil.html": evil})
    page.wait("galluspa.frame() && galluspa.source().isRunning && notes().length === 1")
    expect(
        "what its name is, and whether a script ran",
        page.answer("[galluspa.work().name, window.ran ?? null]"),
        ["[U+202E]evil[U+000A]<script>window.ran = 1</script>", None],
    )


def test_open_false(desk: Desk) -> None:
    """A project whose recording is false opens at its first false checkpoint, with the verdict and what differs."""
    page = desk.page
    file = exported_echo(desk)
    recording = bytearray(recording_in("echo.html", file))
    # The last bytes are those that were sent.
    expect("what was sent last", recording[-1:], b"a")
    recording[-1:] = b"b"
    desk.drop({"false.html": exported_with(file, recording=bytes(recording))})
    page.wait("document.querySelector('#g-false-claim .both')?.textContent.includes('sent after checkpoint')")
    expect("the line", page.answer(shown("line")), program("check", bytes(recording))[0])
    expect("whether its source runs", page.answer("Boolean(galluspa.source().isRunning)"), True)


def test_teach(desk: Desk) -> None:
    """A lesson is written in the page, exported with its project, asked about before it is shown, and its claims judge what is handed in."""
    page = desk.page
    desk.open_source("echo.asm", ECHOES.format(more=0))
    run_with_key(desk, "a")
    desk.press("tab-source")
    page.answer("el('lessons').open = true")
    page.wait("el('lessons-list').querySelector('button')")
    desk.click_on("[...el('lessons-list').querySelectorAll('button')].find((it) => it.textContent === 'Write a lesson')")
    page.wait("el('lesson').querySelector('textarea')")
    for number, text in ((0, "Count the LEDs"), (1, "Do <b>nothing</b>"), (2, "They stay dark")):
        page.answer(f"el('lesson').querySelectorAll('input, textarea')[{number}].focus()")
        page.insert(text)
    desk.click_on("[...el('lesson').querySelectorAll('button')].find((it) => it.textContent === 'Show the lesson')")
    desk.expect_notice("a step without a claim", 'Step 1 claims nothing: press "Claim what is shown".')
    desk.look_at(1000)
    desk.click_on("[...el('lesson').querySelectorAll('button')].find((it) => it.textContent === 'Claim what is shown')")
    desk.click_on("[...el('lesson').querySelectorAll('button')].find((it) => it.textContent === 'Show the lesson')")
    page.wait("el('lesson').textContent.includes('Count the LEDs, step 1 of 1')")
    desk.click_on("[...el('lesson').querySelectorAll('button')].find((it) => it.textContent === 'Check it')")
    page.wait("el('lesson').textContent.includes('accepted 1 checkpoints 1000 steps')")
    file = exported(desk, "echo")
    desk.begin_empty()
    page.answer("window.confirm = (said) => { window.asked = said; return true; }")
    desk.drop({"lesson.html": file})
    page.wait("el('lesson').checkVisibility() && el('lesson').textContent.includes('Do <b>nothing</b>')")
    expect("what is asked", page.answer("asked.includes('\"Count the LEDs\", 1 step, in words of its author. Show it?')"), True)
