"""Where things are: on laptops all is in the window but what the panel scrolls, nothing moves when a text changes, empty lanes take no room, the wheel
scrolls the page, and on a phone the screen stays in sight."""

from tests.page.driver.shows import CARD, JUDGED, LINE, OWN_JUDGED
from tests.page.driver.desk import Desk, expect
from tests.page.driver.given import FACE
from tests.page.driver.windows import LAPTOPS, OVERLAPS, WHOLE, WINDOWS
from tests.tools.samples import EXAMPLES

SPAN = "drawnAnew().then(() => galluspa.span())"


def test_fit_laptops(desk: Desk) -> None:
    """In a window of 1,024 by 600 points and more nothing scrolls but the panel: the screen, the buttons and the lanes are in it, now and in the past."""
    page = desk.page
    desk.run_to_end("face.orsr", FACE)
    for where in ("now", "past"):
        if where == "past":
            desk.look_at(8000000)
        for width, height in LAPTOPS:
            page.resize(width, height)
            desk.settle()
            what = f"at {width} by {height}, {where}"
            expect(
                f"the page {what}",
                page.answer("[document.documentElement.scrollWidth, document.documentElement.scrollHeight]"),
                [width, height],
            )
            expect(f"what overlaps or is outside {what}", page.answer(OVERLAPS), [])
            parts = "['screen', 'stay', 'track'].every((it) => el(it).getBoundingClientRect().bottom <= innerHeight)"
            expect(f"whether screen, buttons and lanes are in sight {what}", page.answer(parts), True)
    page.resize(1366, 625)
    desk.settle()
    expect(
        "the panel beside it",
        page.answer("el('screen').getBoundingClientRect().right < document.querySelector('.side').getBoundingClientRect().left"),
        True,
    )


def test_move_nothing(desk: Desk) -> None:
    """Buttons, registers and what is said of the state stay where they are while the machine runs, is paused and is looked at."""
    page = desk.page
    page.resize(1366, 625)
    places = "['examples', 'save-recording', 'kept', 'about', 'run', 'step', 'count', 'mode', 'state', 'when', 'screen', 'track', 'more'].map((it) => Math.round(el(it).getBoundingClientRect().left) + 10000 * Math.round(el(it).getBoundingClientRect().top))"
    cells = "[...el('state').children].map((it) => Math.round(it.getBoundingClientRect().left))"
    desk.run_to_end("face.orsr", FACE)
    desk.settle()
    wanted = page.answer(f"[{places}, {cells}]")
    expect("the columns of the registers", sorted(set(wanted[1][:16])) == sorted(wanted[1][:4]), True)
    desk.click("run")
    page.wait("galluspa.frame().on && galluspa.count() > 30000000")
    expect("where things are while it runs", page.answer(f"[{places}, {cells}]"), wanted)
    desk.click("run")
    page.wait("!galluspa.frame().on")
    desk.look_at(12345678)
    desk.settle()
    # What one may do in the past has its place between what is said and the last menu.
    expect("where things are in the past", page.answer(f"[{places}, {cells}]"), wanted)


def test_show_chip(desk: Desk) -> None:
    """The verdict is a chip in the first row; a click on it has the program's line, and a click elsewhere takes that away."""
    page = desk.page
    page.resize(1366, 625)
    desk.start("face.orsr", FACE)
    page.wait(JUDGED)
    expect(
        "whether the chip and the line are shown",
        page.answer("[el('headline').checkVisibility(), el('line').checkVisibility()]"),
        [True, False],
    )
    x, y = page.answer(
        "(({ left, top, width, height }) => [left + width / 2, top + height / 2])(el('headline').getBoundingClientRect())"
    )
    expect("whether it is in the first row", y < 40, True)
    inside = "(el('line').checkVisibility() && el('line').getBoundingClientRect().bottom < innerHeight)"
    for kind in ("mouseMoved", "mousePressed", "mouseReleased"):
        page.point(kind, x, y, int(kind == "mousePressed"))
    page.wait(inside)
    expect("the line", page.answer(LINE), "accepted 4 checkpoints 20000000 steps")
    desk.press("count")
    page.wait(f"!{inside}")


def test_hide_empty_lanes(desk: Desk) -> None:
    """Lanes without anything take no room, until something comes for them."""
    page, names = desk.page, "[...el('names').children].map((it) => it.textContent).filter(Boolean)"
    page.resize(1366, 625)
    page.answer("el('speed').value = 'clock'; el('each').value = 0")
    desk.draw()
    # What was open before is shown until the lanes are drawn anew.
    page.wait(f"({names}).join() === 'keyframes'")
    high = page.answer("el('track').offsetHeight")
    page.press("a")
    page.wait(f"({names}).includes('keys')")
    desk.press("run")
    page.wait(
        f"!galluspa.frame().on && ({names}).join() === 'keys,serial,screen,keyframes' || ({names}).join() === 'keys,serial,keyframes'"
    )
    expect("the height of the timeline", page.answer("el('track').offsetHeight"), high)
    page.answer("el('each').value = 5")


def test_turn_wheel(desk: Desk) -> None:
    """The wheel over the timeline scrolls the page, and zooms with Ctrl."""
    page = desk.page
    page.resize(800, 700)
    desk.run_to_end("face.orsr", FACE)
    middle = "(({ left, top, width, height }) => [left + width / 2, top + height / 2])(el('track').getBoundingClientRect())"
    page.answer("window.scrollTo(0, 0); el('track').scrollIntoView({ block: 'nearest' })")
    before, place = page.answer(SPAN), page.answer("scrollY")
    x, y = page.answer(middle)
    page.turn_wheel(x, y, 200)
    page.wait(f"scrollY > {place} + 50")
    expect("the span after the wheel", page.answer(SPAN), before)
    x, y = page.answer(middle)
    page.turn_wheel(x, y, -200, ctrl=True)
    page.wait(f"galluspa.span()[1] - galluspa.span()[0] < {before[1] - before[0]}")
    page.answer("window.scrollTo(0, 0)")


def test_fit_phone(desk: Desk) -> None:
    """On a phone the first rows are low, and an answer leaves the screen and the buttons in sight."""
    page = desk.page
    page.resize(400, 800)
    desk.run_to_end("face.orsr", FACE)
    page.answer("window.scrollTo(0, 0); drawnAnew()")
    left, top, width = desk.screen()
    page.point("mousePressed", left + 0.586 * width, top + 0.715 * width * 0.75, 1)
    page.point("mouseReleased", left + 0.586 * width, top + 0.715 * width * 0.75)
    page.wait(f"{CARD}.includes(': sure') || {CARD}.includes('Never written since the start')")
    desk.settle()
    shown = page.answer(
        "[scrollY, el('screen').getBoundingClientRect().bottom <= el('card').getBoundingClientRect().top + 1, "
        "el('card').getBoundingClientRect().bottom <= el('stay').getBoundingClientRect().top + 1 || el('stay').getBoundingClientRect().bottom <= innerHeight]"
    )
    expect("where the page is, and whether the screen and the buttons are in sight beside the answer", shown, [0, True, True])
    expect("the width of the page", page.answer("document.documentElement.scrollWidth"), 400)
    page.resize(1400, 900)


def test_fit_source(desk: Desk) -> None:
    """In a laptop's window neither the source nor what is beside it moves as the machine runs."""
    page = desk.page
    desk.set_speed("clock")
    desk.open_source("snake.asm", (EXAMPLES / "snake.asm").read_text())
    for width, height in ((1024, 600), (1366, 625)):
        page.resize(width, height)
        desk.settle()
        desk.run_source()
        desk.settle()
        places = "['source', 'pad', 'status', 'stay'].map((it) => { const { top, bottom } = el(it).getBoundingClientRect(); return [top, bottom]; })"
        before = page.answer(places)
        page.wait("el('status').textContent.includes(' MHz, ')")
        expect(f"where things are at {width} by {height} while it runs", page.answer(places), before)
        expect("what is said where the mouse rests", page.answer("el('status').title === el('status').textContent"), True)
        desk.pause()
        expect(f"where things are at {width} by {height} after it", page.answer(places), before)


def test_end_game(desk: Desk) -> None:
    """When a game is over its card is in sight, in each window; beside it are the registers on a laptop, and the buttons below it elsewhere."""
    page = desk.page
    page.resize(1024, 600)
    desk.set_speed("clock")
    desk.press("tab-state")
    desk.press("snake")
    page.wait("galluspa.frame()?.on && el('pad').checkVisibility() && !galluspa.frame().isReplay && galluspa.count() > 8000000")
    page.press("d")
    page.wait(f"{CARD}.includes('Game over') && {CARD}.includes('accepted')")
    page.wait("el('state').checkVisibility() && galluspa.isPast()")
    for width, height in WINDOWS:
        page.resize(width, height)
        page.answer("window.scrollTo(0, 0); drawnAnew()")
        parts = "[...el('card').children].filter((it) => it.checkVisibility() && it.offsetHeight), ...el('stay').querySelectorAll('.keys button:not(.wide)')"
        expect(
            f"what is out of sight at {width} by {height}",
            page.answer(f"[...{parts}].filter((it) => !({WHOLE})(it)).map((it) => it.outerHTML)"),
            [],
        )
        if width == 400:
            expect(
                "whether what is below the screen is one row",
                page.answer("document.querySelector('.under').offsetHeight < 40"),
                True,
            )
        if width >= 1024:
            cells = "[...el('state').querySelectorAll('dd')].slice(0, 16)"
            expect(
                f"the registers out of sight at {width} by {height}",
                page.answer(f"{cells}.filter((it) => !({WHOLE})(it)).length"),
                0,
            )
    page.resize(*WINDOWS[0])
    page.answer("el('card').querySelector('.close')?.click()")


def test_cut_nothing(desk: Desk) -> None:
    """In a laptop's window chips have both their ends, a long notice covers no tab, and the columns of the code are straight beside counts of nine digits."""
    page = desk.page
    page.resize(1366, 625)
    desk.run_to_end("face.orsr", FACE)
    desk.go_on()
    page.wait("galluspa.count() > 400000000", moving="galluspa.count()")
    desk.pause()
    desk.look_at(8000000)
    desk.press("save-recording")
    page.wait(OWN_JUDGED)
    desk.saved("face-live.orsr")
    box = "((it) => it.getBoundingClientRect())"
    ends = f"[...el('verdicts').querySelectorAll('b')].map((it) => [{box}(it), {box}(it.parentElement)])"
    expect("the ends of the chips", page.answer(f"{ends}.map(([a, b]) => a.left >= b.left && a.right <= b.right)"), [True, True])
    expect(
        "a long notice",
        page.answer(f"{box}(el('notice')).width > 300 && {box}(el('notice')).right < {box}(el('tab-state')).left"),
        True,
    )
    desk.look_at(300000000)
    desk.press("tab-code")
    page.wait("[...el('listing').querySelectorAll('.times')].some((it) => it.textContent.length > 10)")
    places = page.answer(f"[...el('listing').querySelectorAll('.place')].map((it) => {box}(it).left)")
    expect("the columns of the places", len(set(places)), 1)
