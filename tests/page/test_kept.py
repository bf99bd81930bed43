"""What the browser keeps: the user's work and nothing else, in each page that goes on with it, and whatever other pages write there."""

import json
from collections.abc import Iterator
from contextlib import contextmanager

from tests.page.driver.desk import PAGE, Desk, expect, fail
from tests.page.driver.given import DRAW
from tests.page.driver.records import CLEAR, PARTED, WITH_STORE
from tests.page.driver.shows import IS_KEPT, SENT
from tests.tools import browser
from tests.tools.samples import EXAMPLES, rejoining

ITEMS = f"{PARTED.strip()}.then(({{ heads, bodies }}) => heads.map(({{ of, name, until }}) => [name, until, bodies[of].sent]))"
BUTTONS = "[...document.querySelectorAll('#g-kept-list button')]"


def items(page: browser.Page) -> list[list]:
    """Returns the name, the count and the output of each item that is kept."""
    return page.answer(ITEMS)


def forget_all(desk: Desk) -> None:
    """Forgets all that is kept. What was open is written as the page is left, so all is deleted after that."""
    desk.reload()
    desk.page.answer(CLEAR)
    desk.reload()


def type_and_pause(desk: Desk, key: str) -> int:
    """Types a key that the program sends back, pauses, and waits until that is kept. Returns the count."""
    page = desk.page
    page.press(key)
    page.wait(f"{SENT}.endsWith({key!r})")
    desk.pause()
    page.wait(IS_KEPT)
    return page.answer("galluspa.count()")


@contextmanager
def another(desk: Desk, name: str) -> Iterator[Desk]:
    """The page once more, in another tab of the browser."""
    folder = desk.folder / name
    folder.mkdir()
    page = desk.page.beside(PAGE)
    yield Desk(desk.browser, page, folder)
    page.close()
    desk.page.save_into(desk.folder)


def test_keep_each(desk: Desk) -> None:
    """A recording is kept though the one before stopped at the same count; one that only replays is not kept; none is dropped for another."""
    page = desk.page
    page.answer("el('speed').value = 'fast'; el('each').value = 1")
    for name in ("draw.json", "draw.json", "third.json", "fourth.json", "fifth.json"):
        desk.start(name, DRAW)
        page.answer("el('mouse-x').value = 7; el('mouse-x').dispatchEvent(new Event('change', { bubbles: true }))")
        desk.click("next" if name == "draw.json" else "step")
        page.wait(
            f"galluspa.count() === {25000000 if name == 'draw.json' else 1} && !galluspa.frame().on && galluspa.frame().hasOwn"
        )
        page.wait("galluspa.work().isStored && !galluspa.isUnsafe()")
    wanted = [["draw", 25000000, ""]] * 2 + [[name, 1, ""] for name in ("third", "fourth", "fifth")]
    expect("what is kept of five recordings", items(page), wanted)
    for number in range(5):
        desk.start(f"watched-{number}.orsr", rejoining(1))
        desk.click("run")
        page.wait("!galluspa.frame().on && galluspa.count() === 4")
        desk.go_on()
        page.wait("galluspa.count() > 1000000")
        desk.pause()
    page.wait("!galluspa.isUnsafe()")
    expect("what is kept after five replays", items(page), wanted)
    desk.reload()
    page.wait("el('kept-list').firstChild")
    expect("what is offered", page.answer("document.querySelectorAll('#g-kept p').length"), 5)
    forget_all(desk)


def test_keep_under_its_name(desk: Desk) -> None:
    """A machine that runs while a file is opened is kept once, under its own name, with all of its inputs."""
    page = desk.page
    desk.draw()
    page.press("q")
    page.wait(f"{SENT} === 'q'")
    page.press("r")
    desk.start("keys.json", (EXAMPLES / "keys.json").read_bytes())
    page.wait("!galluspa.isUnsafe()")
    found = items(page)
    expect("the names of what is kept", [name for name, *_ in found], ["draw"])
    page.wait("el('kept-list').firstChild")
    page.answer(f"{BUTTONS}[0].click()")
    page.wait("galluspa.work().name === 'draw' && galluspa.frame().hasOwn")
    desk.go_on()
    page.wait(f"{SENT} === 'qr'")
    desk.pause()
    forget_all(desk)


def test_keep_seldom(desk: Desk) -> None:
    """A machine that waits is kept less often, checkpoints by time or not, until something comes for it; and whenever it is paused."""
    page = desk.page
    desk.draw()
    page.press("k")
    page.wait("galluspa.work().sent === 'k' && galluspa.frame().isQuiet && galluspa.work().kept.endsWith(' 1 0')")
    kept = page.answer("galluspa.work().kept")
    page.wait(f"galluspa.count() > Number({kept!r}.split(' ')[0]) + 275000000 && galluspa.frame().isQuiet")
    expect("what is kept of it eleven seconds later, after two checkpoints by time", page.answer("galluspa.work().kept"), kept)
    page.press("l")
    page.wait("galluspa.work().kept.endsWith(' 2 0')")
    desk.pause()
    page.wait("galluspa.work().kept.startsWith(`${galluspa.count()} `)")


def test_resume_twice(desk: Desk) -> None:
    """Two tabs that resume one recording keep two."""
    desk.draw()
    first = type_and_pause(desk, "a")
    with another(desk, "two") as tab:
        tab.page.wait("el('kept-list').firstChild")
        tab.page.answer(f"{BUTTONS}[0].click()")
        tab.page.wait("galluspa.work().generation && galluspa.frame().hasOwn")
        tab.expect_notice("a second resume", "This recording is open in another page: what you do here is kept as a copy.")
        tab.go_on()
        second = type_and_pause(tab, "b")
        expect("what two tabs keep", sorted(items(desk.page)), sorted([["draw", first, "a"], ["draw", second, "ab"]]))
        desk.go_on()
        third = type_and_pause(desk, "c")
        expect("what two tabs keep of both", sorted(items(desk.page)), sorted([["draw", third, "ac"], ["draw", second, "ab"]]))
        tab.expect_sound()
    forget_all(desk)
    desk.reload()


def test_forget_and_undo(desk: Desk) -> None:
    """What was forgotten can be brought back; what another tab has open is not forgotten."""
    page = desk.page
    desk.draw()
    type_and_pause(desk, "f")
    with another(desk, "other") as tab:
        tab.page.wait("el('kept-list').firstChild")
        tab.page.answer(f"{BUTTONS}[1].click()")
        tab.expect_notice(
            "what another tab has open", "This project is open in another page, so it cannot be changed or deleted here."
        )
    desk.start("keys.json", (EXAMPLES / "keys.json").read_bytes())
    page.wait("!galluspa.isUnsafe()")
    before = items(page)
    page.wait(f"{BUTTONS}.length === 2")
    desk.click_on("el('kept').querySelector('summary')")
    desk.click_on(f"{BUTTONS}[1]")
    page.wait(f"{BUTTONS}[0].textContent === 'Undo'")
    page.press("Escape")
    expect("whether Esc leaves the list open", page.answer("el('kept').open"), False)
    expect("what is kept once it is forgotten", items(page), [])
    page.answer(f"{BUTTONS}[0].click()")
    page.wait(f"{BUTTONS}[0].textContent === 'Resume'")
    expect("what is kept once that is undone", items(page), before)
    forget_all(desk)


# The browser's storage has no room, and has room again.
NO_ROOM = "window.puts = IDBObjectStore.prototype.put; IDBObjectStore.prototype.put = () => { throw new Error('no room'); };"
ROOM = "IDBObjectStore.prototype.put = puts"


def test_hold_unkept(desk: Desk) -> None:
    """What the browser can't keep stays in the page, which says so: another machine is opened beside it, it is resumed, and it is kept once there is room."""
    page = desk.page
    page.answer(NO_ROOM)
    desk.draw()
    page.press("d")
    page.wait(f"{SENT} === 'd'")
    desk.pause()
    desk.expect_notice("what cannot be kept", "This browser cannot keep the recording of draw, so save it to a file: no room")
    desk.start("keys.json", (EXAMPLES / "keys.json").read_bytes())
    page.wait(f"{BUTTONS}.length === 2")
    text = page.answer("el('kept-list').textContent")
    if "it is in this page only, since this browser cannot keep it" not in text:
        fail(f"what is listed: {text}")
    page.answer(f"{BUTTONS}[0].click()")
    page.wait(f"galluspa.work().name === 'draw' && {SENT} === 'd' && galluspa.isUnsafe()")
    desk.start("keys.json", (EXAMPLES / "keys.json").read_bytes())
    page.answer(ROOM)
    page.wait("!galluspa.isUnsafe()")
    expect("what is kept", [[name, sent] for name, _, sent in items(page)], [["draw", "d"]])
    forget_all(desk)


def test_return_unkept(desk: Desk) -> None:
    """Branches that the browser can't keep stay in the page."""
    page = desk.page
    page.answer(NO_ROOM)
    desk.draw()
    for key in "ab":
        page.press(key)
    page.wait(f"{SENT} === 'ab'")
    desk.pause()
    end = page.answer("galluspa.count()")
    desk.look_at(0)
    page.wait("galluspa.cursor() === 0 && galluspa.moment()?.exact")
    desk.click("take-here")
    page.wait("!galluspa.isPast() && galluspa.count() === 0")
    desk.go_on()
    page.press("c")
    page.wait(f"{SENT} === 'c'")
    desk.pause()
    own = page.answer("galluspa.count()")
    for number, count, sent in ((1, end, "ab"), (2, own, "c")):
        page.answer("document.querySelector('#g-branches button').click()")
        page.wait(f"galluspa.count() === {count} && galluspa.work().number === {number}")
        expect(f"what branch {number} sent", page.answer(SENT), sent)
    page.answer(ROOM)
    page.wait("!galluspa.isUnsafe()")
    expect("what is kept", sorted(items(page)), sorted([["draw", end, "ab"], ["draw", own, "c"]]))
    forget_all(desk)


# Records that another page may have written: their shapes are wrong, or only what they say is.
ODD = """
const bytes = (length) => new Uint8Array(length), waiting = { keys: bytes(0), serial: bytes(0), taken: { keys: 0, serial: 0 } };
const desk = { breaks: [], cursor: null, source: "", watches: [], notes: [] };
const body = { by: "x", sent: "", recording: bytes(30), sentSince: bytes(0), count: 0, inputs: bytes(0), waiting };
const head = { by: "x", at: 1, name: "odd", size: 0, until: 0, inputs: 0, desk };
const heads = [{ ...head, name: 5 }, { ...head, at: "now" }, { ...head, until: -1 }, { ...head, desk: null }, { ...head, since: {} }, { ...head, shades: bytes(7) }];
const bodies = [{ ...body, inputs: bytes(7) }, { ...body, live: { state: bytes(8), words: [] } }, { ...body, waiting: { ...waiting, keys: ["a"] } }, body];
const put = (id, one, other) => (store.put({ ...one, id: `head ${id}`, of: id }), store.put({ ...other, id }));
heads.forEach((one, at) => put(`run ${at}`, one, body));
bodies.forEach((other, at) => put(`run 1${at}`, head, other));
return [{ id: 7 }, { id: [1, "x"] }, { id: "about 7", of: 7 }, { id: "head source 1", of: "source 1", at: 1 }].map((one) => store.put(one)).at(-1);
"""
ANEW = """
new Promise((done) => {
  indexedDB.deleteDatabase("galluspa").onsuccess = () => {
    const asked = indexedDB.open("galluspa", 9);
    asked.onsuccess = () => { asked.result.close(); done(); };
  };
})
"""


def test_survive_other_pages(desk: Desk) -> None:
    """What another page from disk wrote to the storage is shown as unreadable or refused, and never keeps the page from starting."""
    page, blank = desk.page, desk.folder / "other.html"
    blank.write_text("<!doctype html><title>Another page</title>")
    forget_all(desk)
    other = page.beside(blank)
    other.answer(WITH_STORE % ODD)
    page.show()
    desk.reload()
    page.wait("el('kept-list').firstChild")
    texts = page.answer("[...document.querySelectorAll('#g-kept p')].map((it) => it.textContent)")
    expect("what is listed of another shape", texts[0], "9 records cannot be read: this page did not write them.")
    expect("how much else is", len(texts), 5)
    page.answer(f"{BUTTONS}[0].click()")
    expect("what is saved of them", len(json.loads(desk.saved("kept.json"))), 9)
    desk.draw()
    for number, why in enumerate((*["What was kept is no longer there."] * 3, "the file is not a recording")):
        page.answer(f"{BUTTONS}.filter((it) => it.textContent === 'Resume')[{number}].click()")
        desk.expect_notice("an item that says what cannot be", why)
        page.answer("el('notice').click()")
    expect("what is open still", page.answer("[galluspa.work().name, galluspa.frame().on]"), ["draw", True])
    page.answer(f"{BUTTONS}[1].click()")
    page.wait(f"{BUTTONS}[0].textContent !== 'Save as a file'")
    forget_all(desk)
    other.answer(ANEW)
    desk.reload()
    page.wait("el('kept-list').firstChild")
    told = page.answer("el('kept').textContent")
    if "What this browser keeps cannot be read: " not in told:
        fail(f"a database of another version: {told}")
    page.answer(f"window.confirm = (said) => said.endsWith('That cannot be undone.'); {BUTTONS}[0].click()")
    page.wait("!el('kept-list').firstChild")
    desk.draw()
    type_and_pause(desk, "k")
    expect("what is kept after all was forgotten", [name for name, *_ in items(page)], ["draw"])
    other.close()
    forget_all(desk)
