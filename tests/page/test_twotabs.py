"""One project in two tabs of a browser: what is typed in either is kept, neither writes over the work of the other, and a project that is open in one is not deleted in
the other. All that the pages get are keys and clicks; each task has a profile of its own."""

from collections.abc import Iterator
from contextlib import contextmanager
from pathlib import Path
from tests.page.driver.desk import expect
from tests.page.driver.given import ECHOES
from tests.page.driver.person import NUMBER, TEXT, Person, begun, continue_with, open_kept, write_first
from tests.page.driver.shows import NOTICE, SENT, WORD


COPY = "This recording is open in another page: what you do here is kept as a copy."
OPEN_THERE = "This project is open in another page, so it cannot be changed or deleted here."
# What is open: what was written at the beginning of the source, what was sent, and the notes.
OPEN = f"[{TEXT}.split('; Echo')[0].trim(), {SENT}, notes()]"
HEADS = "[...document.querySelectorAll('#g-kept-list > button')].filter((it) => it.textContent === 'Resume')"
# Has the browser deny a page all that it could keep something in.
DENY = """
{
  const denied = () => new DOMException("The user denied permission.", "SecurityError");
  for (const [owner, name] of [[IDBFactory.prototype, "open"], [IDBFactory.prototype, "deleteDatabase"], [Storage.prototype, "setItem"]]) owner[name] = () => { throw denied(); };
  LockManager.prototype.request = () => Promise.reject(denied());
}
"""


@contextmanager
def another(who: Person, name: str) -> Iterator[Person]:
    """Another tab of the same browser with the page, which is in front from then on."""
    folder = who.folder / name
    folder.mkdir()
    tab = Person(who.browser, folder)
    tab.page.show()
    yield tab
    tab.expect_sound()
    if tab.page in who.browser.pipe.pages:
        tab.page.close()


def open_echo(who: Person) -> None:
    """Opens the source that sends back each key, and writes in it."""
    who.choose("echo.asm", f"; Echo\n{ECHOES.format(more=0)}".encode())
    who.page.wait(f"{TEXT}.includes('MOV R1, KEY')")
    write_first(who, ";One ")


def begin_project(who: Person) -> None:
    """Opens the source, and runs it."""
    open_echo(who)
    run(who)


def run(who: Person) -> None:
    """Runs the source from its beginning."""
    who.press("#g-tab-source")
    before = who.page.answer("galluspa.work().generation")
    who.press("#g-source-run")
    who.page.wait(f"galluspa.work().generation !== {before} && {WORD} === 'LIVE' && document.activeElement.id === 'g-screen'")


def pin(who: Person, text: str) -> None:
    """Pins a note to where the machine is."""
    who.press("#g-tab-log")
    who.press("#g-note")
    for sign in text:
        who.page.press(sign)
    who.press("#g-note-form button")
    who.page.wait(f"notes().includes('{text}')")
    who.press("#g-tab-source")


def wait_until_noted(who: Person) -> None:
    """Waits until what was typed is kept, and the notes, too, which the page does by itself half a second later."""
    who.wait_until_kept()
    who.page.wait("galluspa.work().head?.desk.notes.length === notes().length")


def begin_noted(who: Person) -> None:
    """Runs the source, types a key, pauses, pins a note there, and waits until all of it is kept."""
    begin_project(who)
    who.type("a")
    who.run_or_pause()
    pin(who, "first")
    wait_until_noted(who)


def go_on(who: Person, keys: str) -> None:
    """Goes on with the run that is paused, types, and pauses."""
    who.run_or_pause()
    who.type(keys)
    who.run_or_pause()


def take_up(who: Person) -> None:
    """Goes on with the project that was worked on last, and waits until all of it is there: its notes come last."""
    continue_with(who, "echo")
    who.page.wait(f"{WORD} === 'PAUSED' && {TEXT}.includes('MOV R1, KEY') && galluspa.source().isRunning && notes().length")


def kept_of(who: Person) -> list[object]:
    """Returns what is open of each project of the list once its last run is resumed."""
    who.page.wait(f"{HEADS}.length")
    found = []
    for number in range(who.page.answer(f"{HEADS}.length")):
        who.reload()
        who.page.wait(f"{HEADS}[{number}]")
        who.press("#g-kept summary")
        who.click_on(f"{HEADS}[{number}]")
        who.page.wait(f"{WORD} === 'PAUSED' && {TEXT}.includes('MOV R1, KEY') && galluspa.source().isRunning && notes().length")
        found.append(who.page.answer(OPEN))
    who.reload()
    return sorted(found, key=str)


def test_work_in_both(tmp_path: Path) -> None:
    """Both tabs write in the source, run it, type, and pin notes. Both are loaded anew right after that, and each has a project of its own, with all of it."""
    with begun(tmp_path) as one:
        begin_noted(one)
        with another(one, "two") as two:
            take_up(two)
            expect("what the second tab says", two.page.answer(NOTICE), COPY)
            expect("what it has", two.page.answer(OPEN), [";One", "a", ["first"]])
            write_first(two, ";Two ")
            run(two)
            two.type("b")
            two.run_or_pause()
            one.page.show()
            write_first(one, ";More ")
            go_on(one, "c")
            two.page.show()
            go_on(two, "d")
            pin(two, "second")
            two.reload()
            one.page.show()
            pin(one, "third")
            one.reload()
            wanted = [[";More ;One", "ac", ["first", "third"]], [";Two ;One", "bd", ["second"]]]
            for who in (one, two):
                who.page.show()
                expect("what is kept of both", kept_of(who), wanted)


def test_note_in_copy(tmp_path: Path) -> None:
    """A note in a copy that nothing was typed into is kept though the page is loaded anew right after it; so is a line of its source."""
    with begun(tmp_path) as one:
        begin_noted(one)
        with another(one, "two") as two:
            take_up(two)
            write_first(two, ";Two ")
            pin(two, "second")
            two.reload()
            one.page.show()
            one.reload()
            two.page.show()
            expect("what is kept", kept_of(two), [[";One", "a", ["first"]], [";Two ;One", "a", ["second"]]])


def test_copy_source(tmp_path: Path) -> None:
    """A source that was never run and is opened in both tabs is a copy in the second one, which says so; both are kept with what is written in each."""
    with begun(tmp_path) as one:
        open_echo(one)
        one.page.wait("!galluspa.isUnsafe()")
        with another(one, "two") as two:
            continue_with(two, "Source echo.asm")
            two.page.wait(f"{TEXT}.includes(';One ')")
            expect("what the second tab says", two.page.answer(NOTICE), COPY.replace("recording", "source"))
            write_first(two, ";Two ")
            two.reload()
            one.page.show()
            write_first(one, ";More ")
            one.reload()
            found = set()
            for number in (1, 2):
                open_kept(one, "Open", number)
                one.page.wait(f"{TEXT}.includes('MOV R1, KEY')")
                found.add(one.page.answer(OPEN)[0])
                one.reload()
            expect("what is kept", found, {";More ;One", ";Two ;One"})


def test_take_logged(tmp_path: Path) -> None:
    """What was typed while the database was writing something else, in a tab that was closed right after that, is there in a tab that was open before."""
    with begun(tmp_path) as one:
        begin_noted(one)
        with another(one, "two") as two:
            two.page.wait("el('continue').checkVisibility() && !el('continue').disabled")
            one.page.show()
            one.hold_up_writes()
            write_first(one, ";More ")
            go_on(one, "b")
            one.page.close()
            two.page.show()
            take_up(two)
            expect("what is there", two.page.answer(OPEN), [";More ;One", "ab", ["first"]])


def test_lock_at_once(tmp_path: Path) -> None:
    """A run is locked though its first key came a moment before its tab was hidden."""
    with begun(tmp_path) as one, another(one, "two") as two:
        one.page.show()
        one.begin_drawing()
        one.page.press("a")
        two.page.show()
        one.page.wait("document.hidden && galluspa.work().isStored")
        two.reload()
        two.page.wait(f"{HEADS}.length === 1")
        open_kept(two, "Delete")
        two.page.wait(f"{NOTICE} === '{OPEN_THERE}'")


def test_delete_open(tmp_path: Path) -> None:
    """What is open in one tab is not deleted in the other, neither alone nor with all; what was deleted in one is not opened in the other."""
    with begun(tmp_path) as one, another(one, "two") as two:
        one.page.show()
        begin_project(one)
        one.type("a")
        one.wait_until_kept()
        two.page.show()
        for press in ("Delete", "all"):
            two.reload()
            two.page.wait(f"{HEADS}.length === 1")
            if press == "Delete":
                open_kept(two, "Delete")
                two.page.wait(f"{NOTICE} === '{OPEN_THERE}'")
            else:
                two.press("#g-kept summary")
                two.press("#g-forget-all")
                two.page.wait(f"{NOTICE} === 'What is open in another page is not deleted.'")
        one.page.show()
        one.run_or_pause()
        go_on(one, "b")
        pin(one, "first")
        one.reload()
        expect("what is kept of it", kept_of(one), [[";One", "ab", ["first"]]])
        # Once nobody has it open, it is deleted, which the other tab does not know yet.
        one.page.wait(f"{NUMBER} === '1'")
        two.page.show()
        two.reload()
        two.page.wait("el('continue').checkVisibility() && !el('continue').disabled")
        one.page.show()
        open_kept(one, "Delete")
        one.page.wait("document.querySelector('#g-kept-list').textContent.startsWith('Deleted: ')")
        two.page.show()
        two.press("#g-continue")
        two.page.wait(f"{NOTICE} === 'What was kept is no longer there.'")
        expect("whether something is open", two.page.answer("galluspa.work().generation"), 0)


def test_end_one(tmp_path: Path) -> None:
    """A tab whose process is ended leaves its project to the other one, which has all that was kept, and goes on with it."""
    with begun(tmp_path) as one:
        begin_noted(one)
        with another(one, "two") as two:
            two.choose("other.asm", b"        MOV R1, 1\n")
            two.page.wait(f"{TEXT}.includes('MOV R1, 1')")
            one.page.show()
            go_on(one, "b")
            write_first(one, ";More ")
            wait_until_noted(one)
            one.page.wait("!galluspa.isUnsafe()")
            one.page.crash()
            two.page.show()
            two.reload()
            take_up(two)
            expect(
                "what the other tab says, and has", two.page.answer(f"[{NOTICE}, {OPEN}]"), ["", [";More ;One", "ab", ["first"]]]
            )
            go_on(two, "c")
            two.reload()
            expect("what is kept of it", kept_of(two), [[";More ;One", "abc", ["first"]]])


def test_deny_one(tmp_path: Path) -> None:
    """A tab in which nothing can be kept says so, asks before it is left, and changes nothing of what the other one keeps."""
    with begun(tmp_path) as one:
        begin_noted(one)
        with another(one, "two") as two:
            two.page.begin_with(DENY)
            two.reload()
            two.page.wait(
                "document.querySelector('#g-kept-list p')?.textContent.startsWith('What this browser keeps cannot be read: ')"
            )
            begin_project(two)
            two.page.wait(f"{NOTICE}.startsWith('This browser cannot keep ')")
            two.page.press("b")
            two.page.wait(f"{SENT} === 'b'")
            two.run_or_pause()
            pin(two, "second")
            expect("whether the browser asks before it is left", two.page.is_kept_open(), True)
            expect("what it has still", two.page.answer(OPEN), [";One", "b", ["second"]])
            one.page.show()
            go_on(one, "c")
            one.reload()
            expect("what is kept of the other", kept_of(one), [[";One", "ac", ["first"]]])
