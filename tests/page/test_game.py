"""Snake, as somebody plays it: into the wall, the check of the game, a claim of another score, and back before the crash."""

import json
import re

import galluspa.formats.recording
from tests.page.driver.given import KEY
from tests.page.driver.desk import Desk, expect, fail
from tests.page.driver.shows import EXACT, SENT, shown

CARD, LINE_OF_CARD, CHEAT = (
    shown("card"),
    "el('card').querySelector('.line').textContent",
    "el('card').querySelector('.cheat .line.false')",
)
POINTS = "el('card').querySelector('h2')?.textContent"


def press_card(desk: Desk, text: str) -> None:
    """Clicks a button of the card."""
    desk.page.answer(f"[...el('card').querySelectorAll('button')].find((it) => it.textContent === {json.dumps(text)}).click()")


def click_card(desk: Desk, name: str) -> None:
    """Clicks on a card of the empty page with the mouse, once the list of what is kept is shown, with which the cards may move."""
    desk.page.wait("darkDots() > 1000")
    desk.click_on(f"el('{name}')")


def play(desk: Desk) -> None:
    """A game by keys and arrows ends at the wall. Its recording is accepted; another score is false, and the line names what the machine has."""
    page = desk.page
    page.resize(1400, 900)
    page.wait("!el('welcome').hidden && el('screen').getBoundingClientRect().width > 0")
    click_card(desk, "play")
    page.wait("galluspa.frame()?.on && el('welcome').hidden")
    page.press("ArrowRight")
    page.press("w")
    page.wait(f"{POINTS}?.startsWith('Game over') && {LINE_OF_CARD}.startsWith('accepted')")
    points, keys = page.answer(f"[{POINTS}, el('card').querySelector('p').textContent]")
    if not re.fullmatch(r"Game over: \d+ points?, 2 keys", points) or not re.fullmatch(
        r"Verified: 1 checkpoint, [\d,]+ steps; [\d,]+ bytes", keys
    ):
        fail(f"the card of the game says {points!r}, {keys!r}")
    press_card(desk, "Try to cheat")
    page.wait(CHEAT)
    if not re.fullmatch(r"false checkpoint \d+ at \d+ part LEDs", page.answer(f"{CHEAT}.textContent")):
        fail(f"the line of the cheat is {page.answer(f'{CHEAT}.textContent')!r}")
    own = int(points.split()[2])
    page.wait(f"el('card').querySelector('.cheat').textContent.includes('The machine has {own} point')")


def go_on_before_crash(desk: Desk) -> None:
    """One goes back before the crash, takes over, turns, and lives on; the recording has the one score and is accepted."""
    page = desk.page
    crash = page.answer("galluspa.count()")
    press_card(desk, "Go back before the crash")
    page.wait(f"galluspa.isPast() && {EXACT}")
    at = page.answer("galluspa.cursor()")
    desk.click("take-here")
    page.wait(f"!galluspa.isPast() && galluspa.count() === {at}")
    desk.go_on()
    page.press("a")
    page.wait(f"galluspa.count() > {crash + 5000000}")
    expect("whether it is over", page.answer(SENT), "")
    desk.pause()
    recording = galluspa.formats.recording.read(desk.save("snake", "the game that went on"))
    expect("its keys", [event.value for event in recording.events if event.kind == KEY], [ord("d"), ord("w"), ord("a")])


def continue_after(desk: Desk) -> None:
    """After a reload the card of the empty page continues the game."""
    page = desk.page
    count = page.answer("galluspa.count()")
    page.wait("galluspa.work().kept.startsWith(`${galluspa.count()} `)")
    desk.reload()
    page.wait("!el('continue').disabled")
    click_card(desk, "continue")
    page.wait(f"galluspa.work().name === 'snake' && galluspa.count() === {count}")


def test_play_on(desk: Desk) -> None:
    """Plays to the end, and goes on from before it."""
    play(desk)
    go_on_before_crash(desk)
    continue_after(desk)
