"""The page under fingers: cards are tapped, Snake is played by its buttons, the cursor is dragged, the timeline is pinched, a dot is asked about."""

import pytest

from tests.page.driver.shows import CARD, EXACT, IS_ON, NOTICE, WORD
from tests.page.driver.desk import Desk, expect, fail
from tests.page.driver.given import FACE


def tap_cards(desk: Desk) -> None:
    """The card of Snake is tapped, and then the buttons below the screen turn the snake."""
    page = desk.page
    # The cards may move until the list of what is kept is shown, and the game behind them is played.
    page.wait("darkDots() > 1000 && !el('welcome').hidden && el('screen').getBoundingClientRect().width > 0")
    page.tap(*desk.middle_of("el('play')"))
    page.wait(f"{IS_ON} && el('welcome').hidden && el('pad').checkVisibility()")
    page.answer("el('pad').scrollIntoView({ block: 'center' })")
    for number, key in enumerate("dw", 1):
        page.tap(*desk.middle_of(f"el('pad').querySelector('[data-key={key}]')"))
        page.wait(f"galluspa.frame().inputs === {number}")
    page.wait("lane('keys').length === 2")
    expect("the keys of two taps", [it.split(" at ")[0] for it in page.answer("lane('keys')")], ["key 64", "key 77"])
    desk.pause()


def drag_cursor(desk: Desk) -> None:
    """A finger drags the cursor into the past, and leaves it where it is lifted."""
    page = desk.page
    desk.run_to_end("face.orsr", FACE)
    page.answer("window.scrollTo(0, 0)")
    left, top, width = track(desk)
    page.touch("touchStart", (left + 0.9 * width, top + 30))
    for step in range(1, 30):
        page.touch("touchMove", (left + (0.9 - step / 60) * width, top + 30))
    page.wait(f"{WORD}.startsWith('VIEWING ')")
    page.touch("touchEnd")
    page.wait(f"{EXACT}")
    share = page.answer("galluspa.cursor() / (galluspa.span()[1] - galluspa.span()[0])")
    if abs(share - (0.9 - 29 / 60)) > 0.02:
        fail(f"a finger that is lifted at {0.9 - 29 / 60:.3f} of the track leaves the cursor at {share:.3f}")


def track(desk: Desk) -> tuple[float, float, float]:
    """Returns the left and the upper end of the track, and its width."""
    return desk.page.answer("(({ left, top, width }) => [left, top, width])(el('track').getBoundingClientRect())")


def pinch(desk: Desk) -> None:
    """Two fingers that go apart zoom in around where they are, and back when they come together; the cursor stays."""
    page = desk.page
    left, top, width = track(desk)
    at, (begin, end) = page.answer("[galluspa.cursor(), galluspa.span()]")
    apart = lambda by: ((left + (0.5 - by) * width, top + 30), (left + (0.5 + by) * width, top + 30))
    page.touch("touchStart", apart(0.1)[0])
    page.touch("touchStart", *apart(0.1))
    for step in range(1, 16):
        page.touch("touchMove", *apart(0.1 + step / 50))
    near = page.answer("galluspa.span()")
    if not (near[1] - near[0] < (end - begin) / 3 and begin < near[0] < begin + (end - begin) / 2 < near[1] < end):
        fail(f"two fingers that go apart show {near} of {begin} to {end}")
    for step in range(14, -1, -1):
        page.touch("touchMove", *apart(0.1 + step / 50))
    page.touch("touchEnd")
    back = page.answer("galluspa.span()")
    expect("the span after both are where they were", back[1] - back[0] > 0.8 * (end - begin), True)
    expect("where the cursor is after a pinch", page.answer("galluspa.cursor()"), at)
    page.tap(left + 0.25 * width, top + 30)
    page.wait(f"{EXACT} && galluspa.cursor() < 0.27 * {end - begin}")


def pinch_running(desk: Desk) -> None:
    """A pinch does not pause a machine that runs."""
    page = desk.page
    desk.set_speed("clock")
    desk.draw()
    page.wait("galluspa.count() > 10000000")
    page.answer("window.scrollTo(0, 0)")
    left, top, width = track(desk)
    page.touch("touchStart", (left + 0.3 * width, top + 30))
    page.touch("touchStart", (left + 0.3 * width, top + 30), (left + 0.6 * width, top + 30))
    page.touch("touchMove", (left + 0.2 * width, top + 30), (left + 0.8 * width, top + 30))
    page.touch("touchEnd")
    expect("whether it runs after a pinch", page.answer("[galluspa.frame().on, galluspa.isPast()]"), [True, False])
    desk.pause()
    desk.click("zoom-all")


def tap_dot(desk: Desk) -> None:
    """A tap on the screen of a machine that is paused asks who drew the dot."""
    page = desk.page
    desk.click("back-now")
    page.wait("!galluspa.isPast()")
    page.answer("el('screen').scrollIntoView()")
    page.tap(*desk.point_at_dot(600, 219))
    page.wait(f"{CARD}.includes('Who drew the dot') && {CARD}.includes(': sure')")
    page.tap(*desk.middle_of("el('card').querySelector('.close')"))
    page.wait("el('card').hidden")


@pytest.mark.parametrize(("width", "height"), [(400, 850), (1400, 900)])
def test_touch(desk: Desk, width: int, height: int) -> None:
    """All of it, in a window of 400 points and in a wide one."""
    desk.page.use_touch(True)
    desk.page.resize(width, height)
    tap_cards(desk)
    drag_cursor(desk)
    pinch(desk)
    tap_dot(desk)
    pinch_running(desk)
    expect("what is said at the end", desk.page.answer(NOTICE), "")
