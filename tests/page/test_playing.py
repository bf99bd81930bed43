"""What goes on and what stays: the past is played up to now while the machine stays where it is, hits have buttons of their own, and a machine that is
taken over goes on at the first key."""

from tests.page.driver.shows import EXACT, MODE, SENT, WORD, button_of, shown
from tests.page.driver.desk import Desk, expect, fail
from tests.page.driver.given import FACE


END, NEVER = 20000000, 77777
# Pauses in the first frame after this count: now comes half a second later, which the clicks of a busy machine may miss.
PAUSE_SOON = """new Promise((done) => {
    const look_on = () => {
        if (galluspa.cursor() <= 8500000 || el('run').textContent !== 'Pause') return requestAnimationFrame(look_on);
        el('run').click();
        done();
    };
    look_on();
})"""


def test_play(desk: Desk) -> None:
    """The past is played from the cursor up to now, at both speeds, and paused at one; the machine stays where it is."""
    page = desk.page
    desk.run_to_end("face.orsr", FACE)
    expect("what a machine is whose program ended", page.answer(WORD), "DONE")
    for speed in ("clock", "fast"):
        desk.set_speed(speed)
        desk.look_at(8000000)
        expect("what the button does", page.answer(shown("run")), "Play")
        desk.press("run")
        # At full speed now may come before a second click.
        if speed == "clock":
            page.answer(PAUSE_SOON)
            page.wait(f"{EXACT} && {shown('run')} === 'Play'")
            paused_at = page.answer("galluspa.cursor()")
            for _ in range(20):
                desk.settle()
            expect("where it stays once it is paused", page.answer("galluspa.cursor()"), paused_at)
            desk.press("run")
        page.wait("!galluspa.isPast()")
        expect("the machine", page.answer(f"[galluspa.count(), galluspa.frame().on, {shown('run')}]"), [END, False, "Run"])
    desk.look_at(8000000)
    desk.press("run")
    page.wait("galluspa.cursor() > 8000000")
    page.answer("el('cursor').focus()")
    page.press("[")
    # At full speed the last checkpoint may be another one by then.
    page.wait(f"[8000000, 12000000].includes(galluspa.cursor()) && {EXACT}")


def test_go_to_hits(desk: Desk) -> None:
    """The buttons of hits go to breakpoints and to inputs; where there is none after the cursor, the machine does not go on."""
    page = desk.page
    desk.run_to_end("face.orsr", FACE)
    desk.look_at(8000000)
    desk.set_break(f"·{NEVER}")
    page.answer("el('cursor').focus()")
    for does in ("Shift", "button"):
        desk.press("next-run") if does == "button" else page.press("ArrowRight", modifiers=8)
        page.wait(f"{shown('found')}.endsWith(': none after it, up to now.')")
        expect(
            "where the machine and the cursor are",
            page.answer("[galluspa.count(), galluspa.frame().on, galluspa.cursor()]"),
            [END, False, 8000000],
        )
        page.answer("el('found').textContent = ''; el('cursor').focus()")
    desk.click_on(button_of("el('break-list')", "×"))
    page.answer("el('cursor').focus()")
    page.press("b")
    desk.press("next-run")
    page.wait(f"galluspa.cursor() > 8000000 && {EXACT}")
    desk.press("back-run")
    page.wait(f"galluspa.cursor() === 8000000 && {EXACT}")


def test_go_on_at_key(desk: Desk) -> None:
    """What is taken over goes on at the first key, and the program gets that: the drawing program, and Snake by an arrow."""
    page = desk.page
    desk.set_speed("clock")
    desk.draw()
    desk.type("ab")
    desk.press("run")
    page.wait(f"{WORD} === 'PAUSED'")
    page.press("Tab")
    desk.press("begin-at")
    desk.press("take-here")
    page.wait(f"{WORD} === 'PAUSED' && galluspa.count() === 0")
    expect("what is said of it", page.answer(MODE), "draw PAUSED Press a key to resume.")
    page.press("z")
    page.wait(f"{WORD} === 'LIVE' && {SENT} === 'z'")
    desk.press("run")
    page.wait("!galluspa.frame().on")
    page.answer("el('screen').focus()")
    page.press("y")
    desk.expect_notice("a key once it is paused again", r"The machine is paused: keys and the mouse go to it while it runs\.")
    desk.press("snake")
    page.wait("galluspa.frame()?.on && el('pad').checkVisibility() && galluspa.count() > 10000000")
    desk.press("run")
    page.wait("!galluspa.frame().on")
    desk.press("begin-at")
    desk.press("take-here")
    page.wait("galluspa.count() === 0 && !galluspa.isPast()")
    page.press("ArrowUp")
    page.wait("galluspa.frame().on && galluspa.frame().inputs === 1")
    desk.press("run")
    page.wait("!galluspa.frame().on")
    if page.answer(shown("notice")):
        fail(f"what is said of an arrow: {page.answer(shown('notice'))!r}")
