"""What a person made is there again, however the page ends: after a take-over, on a branch that was returned to, and a moment after a key. The
page is loaded anew, left, closed, or its browser's process is ended. All that the page gets are keys and clicks."""

from pathlib import Path

from tests.page.driver.desk import PAGE, expect, fail
from tests.page.driver.person import COUNT, KEPT, Person, begun
from tests.page.driver.shows import SENT, WORD
from tests.tools import browser

KEY = 4


def reload(who: Person) -> None:
    """Loads the page anew, at once."""
    who.reload()


def leave(who: Person) -> None:
    """Leaves the page for another one, and opens it again."""
    who.page.leave_for("about:blank")
    who.page.leave_for(who.page.url)
    who.ready()


def close(who: Person) -> None:
    """Closes the page, and opens it again in the same browser."""
    old = who.page
    old.close()
    who.page = browser.Page(who.browser.pipe, PAGE)
    who.ready()
    who.page.save_into(who.folder)


def take_over(who: Person) -> tuple[int, int]:
    """Draws and types for two seconds of the machine, goes to the beginning, takes over there, types a key, and pauses. Returns the counts of both runs."""
    who.begin_drawing()
    left, top, width = who.screen()
    who.page.point("mousePressed", left + 20, top + 20, 1)
    for step in range(20):
        who.page.point("mouseMoved", left + width * (0.1 + step / 40), top + 60 + 4 * step, 1)
    who.page.point("mouseReleased", left + width * 0.6, top + 140)
    who.type("old")
    who.page.wait("galluspa.count() > 50000000")
    who.run_or_pause()
    old = who.count()
    who.press("#g-begin-at")
    # The answer of the look moves the buttons of the past.
    who.page.wait(f"{WORD}.startsWith('VIEWING ') && {COUNT} === 0")
    who.press("#g-take-here")
    who.page.wait(f"{WORD} === 'PAUSED' && {COUNT} === 0")
    who.run_or_pause()
    who.type("n")
    who.run_or_pause()
    who.page.wait("galluspa.work().kept.startsWith(`${galluspa.count()} `)")
    return old, who.count()


def keep_what_is_taken_over(who: Person, old: int, new: int) -> None:
    """What was there before a take-over and what came of it are both kept, each a branch of the other."""
    kept = who.kept()
    expect("the runs that are kept", [(branch, count) for branch, count, _ in kept], [("1", old), ("2", new)])
    expect("whether all inputs of the old one are kept", kept[0][2] > 20, True)
    who.resume()
    expect("where the newer one goes on", who.count(), new)
    expect("its keys", who.keys(), "n")
    who.press("#g-branches button")
    who.page.wait(f"{COUNT} === {old}")
    expect("the keys of the older one", who.keys(), "old")
    expect(
        "the branch beside it",
        who.page.answer("document.getElementById('g-branches').textContent").split(" from")[0],
        "Other branches: branch 2",
    )


def go_on_with_branch(who: Person) -> None:
    """Goes on with the branch that is open."""
    who.run_or_pause()
    who.type("er")


def keep_branch(who: Person) -> None:
    """What was done on a branch that was returned to is kept."""
    who.resume() if who.kept()[-1][0] == "1" else resume_branch(who, 1)
    expect("the keys on the branch that was returned to", who.keys(), "older")


def resume_branch(who: Person, number: int) -> None:
    """Resumes the branch of a number from the list of what is kept."""
    texts = who.page.answer(KEPT)
    at = next(at for at, text in enumerate(texts) if f", branch {number}, " in text)
    who.press("#g-kept summary")
    who.press("#g-kept-list .runs > summary")
    who.click_on(f"document.querySelectorAll('#g-kept-list p')[{at}].nextElementSibling")
    who.page.wait(f"{WORD} === 'PAUSED' && document.getElementById('g-run').textContent === 'Run' && {SENT}")


def forget_all(who: Person) -> None:
    """Forgets all that is kept, by its buttons."""
    who.reload()
    for _ in who.kept():
        before = who.page.answer("document.querySelectorAll('#g-kept-list button').length")
        if not who.page.answer("document.getElementById('g-kept').open"):
            who.press("#g-kept summary")
        at = who.page.answer("[...document.querySelectorAll('#g-kept-list button')].findIndex((it) => it.textContent === 'Delete')")
        who.press(f"#g-kept-list button:nth-of-type({at + 1})")
        who.page.wait(f"document.querySelectorAll('#g-kept-list button').length !== {before}")
    who.reload()


def test_end_at_once(tmp_path: Path) -> None:
    """A key is kept though the page is loaded anew, left or closed in the moment after it, also the first one of a run, with which the memory is kept,
    too; and the browser asks first, unless the key is kept already."""
    asked = 0
    with begun(tmp_path) as who:
        for end in (reload, leave, close):
            for keys in ("a", "bc"):
                who.begin_drawing() if keys == "a" else who.run_or_pause()
                who.page.answer(
                    "addEventListener('beforeunload', () => (localStorage.unsafe = galluspa.isUnsafe() ? 'beforeunload' : ''))"
                )
                for key in keys:
                    who.page.press(key)
                    if key == "b":
                        who.wait_until_kept()
                dialogs = len(who.page.dialogs)
                page = who.page
                end(who)
                wanted = [word for word in [who.page.answer("localStorage.unsafe")] if word]
                expect(f"what is asked by {end.__name__}", page.dialogs[dialogs:], wanted)
                asked += len(wanted)
                expect(f"how much is kept after {end.__name__}", len(who.kept()), 1)
                who.resume()
            # The last key may have waited until the machine went on.
            who.run_or_pause()
            who.page.wait(f"{SENT} === 'abc'")
            who.run_or_pause()
            expect(f"the keys after {end.__name__}", who.keys(), "abc")
            who.wait_until_kept()
            dialogs = len(who.page.dialogs)
            who.reload()
            expect("what is asked once all is kept", who.page.dialogs[dialogs:], [])
            forget_all(who)
        expect("whether the browser asked", asked > 0, True)


def test_end_before_written(tmp_path: Path) -> None:
    """What was typed is kept though the page is loaded anew, left or closed while the database still writes something else, which the browser then drops
    with all that waits for it."""
    with begun(tmp_path) as who:
        for end in (reload, leave, close):
            who.begin_drawing()
            who.hold_up_writes()
            who.page.press("a")
            end(who)
            expect(f"how much is kept after {end.__name__}", len(who.kept()), 1)
            who.resume()
            who.run_or_pause()
            who.page.wait(f"{SENT} === 'a'")
            who.run_or_pause()
            who.wait_until_kept()
            who.hold_up_writes()
            who.run_or_pause()
            who.page.press("b")
            end(who)
            who.resume()
            who.run_or_pause()
            who.page.wait(f"{SENT} === 'ab'")
            who.run_or_pause()
            expect(f"the keys after {end.__name__}", who.keys(), "ab")
            who.wait_until_kept()
            # What others wrote to the log is taken out of it, too.
            who.page.answer("Object.assign(localStorage, { 'galluspa-log 1': '{', 'galluspa-log 2': '[{\"id\":true,\"at\":1}]' })")
            forget_all(who)
            expect(
                "what is logged still",
                who.page.answer("Object.keys(localStorage).filter((key) => key.startsWith('galluspa-log'))"),
                [],
            )


def test_end_process(tmp_path: Path) -> None:
    """A key is kept half a second later, though the browser's process is ended, without a pause and without a word."""
    counts: list[int] = []
    for keys in ("a", "b", "c"):
        with begun(tmp_path) as who:
            if counts:
                expect("how much is kept of a browser that was ended", len(who.kept()), 1)
                who.resume()
                who.run_or_pause()
            else:
                who.begin_drawing()
            who.type(keys)
            who.wait_until_kept()
            counts.append(who.count())
            who.browser.kill()
    with begun(tmp_path) as who:
        who.resume()
        expect("the keys of three browsers that were ended", who.keys(), "abc")
        if not counts[-1] - 60000000 < who.count() <= counts[-1] + 60000000:
            fail(f"a browser that was ended at {counts[-1]:,} goes on at {who.count():,}")


def test_take_over_and_reload(tmp_path: Path) -> None:
    """A take-over, and then a branch that is returned to, with the page loaded anew after each."""
    with begun(tmp_path) as who:
        old, new = take_over(who)
        who.wait_until_kept()
        who.reload()
        keep_what_is_taken_over(who, old, new)
        go_on_with_branch(who)
        who.wait_until_kept()
        who.reload()
        keep_branch(who)


def test_take_over_and_end(tmp_path: Path) -> None:
    """A take-over, and then a branch that is returned to, with the browser's process ended after each."""
    with begun(tmp_path) as who:
        old, new = take_over(who)
        who.wait_until_kept()
        who.browser.kill()
    with begun(tmp_path) as who:
        keep_what_is_taken_over(who, old, new)
        go_on_with_branch(who)
        who.wait_until_kept()
        who.browser.kill()
    with begun(tmp_path) as who:
        keep_branch(who)
