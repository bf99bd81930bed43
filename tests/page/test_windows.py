"""What has to be in sight as soon as it is opened, in windows of several sizes: a false verdict with its button, where a value comes from, what menus have, and the form of
a lesson."""

from tests.page.driver.shows import EXACT, FOLLOWED
from tests.page.driver.desk import Desk, expect, fail
from tests.page.driver.given import DRAWS, FACE
from tests.page.driver.windows import LAPTOPS, OVERLAPS, WHOLE, WINDOWS
from tests.tools.samples import rejoining


def test_show_false(desk: Desk) -> None:
    """Beside a false verdict there is room for its button, in the past, too."""
    page = desk.page
    desk.run_to_end("false.orsr", rejoining(9))
    desk.press("show-false")
    page.wait(EXACT)
    for width, height in WINDOWS:
        page.resize(width, height)
        desk.settle()
        if width >= 1024:
            expect(f"what overlaps or is outside at {width} by {height}", page.answer(OVERLAPS), [])
        seen = page.answer(f"[document.querySelector('.verdicts summary'), el('show-false')].map({WHOLE})")
        expect(f"whether the verdict and its button are whole at {width} by {height}", seen, [True, True])
    page.resize(*WINDOWS[0])


def test_show_links(desk: Desk) -> None:
    """On a laptop the first links of where a value comes from are in sight as soon as they are asked for, beside a source and beside registers; a link that is cut says
    so, and has all of its text where the mouse rests."""
    page = desk.page
    desk.set_speed("clock")
    desk.run_text("draws.asm", DRAWS)
    page.wait("galluspa.frame().on && galluspa.count() > 100000")
    page.press("a")
    page.wait("galluspa.frame().inputs === 1 && darkDots() > 0")
    desk.pause()
    desk.click_dot(0, 0)
    page.wait(f"el('why-list')?.childElementCount > 3 && {FOLLOWED}")
    for name in ("source", "state"):
        desk.press(f"tab-{name}")
        for width, height in LAPTOPS:
            page.resize(width, height)
            desk.settle()
            links = page.answer(f"[...el('why-list').children].slice(0, 3).map({WHOLE})")
            expect(f"whether the first links are whole at {width} by {height}, beside {name}", links, [True] * 3)
            ends = "[...el('why-list').querySelectorAll('li, li button')].every((it) => it.scrollWidth <= it.clientWidth || getComputedStyle(it).textOverflow === 'ellipsis')"
            expect(f"whether links that are cut say so at {width} by {height}", page.answer(ends), True)
        page.resize(*WINDOWS[0])
    page.wait("el('why-list').firstChild.title.startsWith('dot 0,0 = 1 · STR R0, R4, 0 · draws.asm:13 · at ')")
    page.answer("el('card').querySelector('.close').click()")


def test_open_menus(desk: Desk) -> None:
    """What a menu has is in the window, also where that is narrow."""
    page = desk.page
    desk.open_source("draws.asm", DRAWS)
    desk.run_to_end("face.orsr", FACE)
    desk.look_at(8000000)
    desk.press("tab-source")
    menus = "[...document.querySelectorAll('#galluspa .menu')].filter((it) => it.querySelector('summary').checkVisibility())"
    for width, height in WINDOWS:
        page.resize(width, height)
        desk.settle()
        number = page.answer(f"({menus}).length")
        for at in range(number):
            menu = f"({menus})[{at}]"
            page.answer(f"{menu}.querySelector('summary').scrollIntoView({{ block: 'center' }})")
            desk.click_on(f"{menu}.querySelector('summary')")
            page.wait(f"{menu}.open && {menu}.querySelector('.sheet').offsetWidth")
            desk.settle()
            left, right = page.answer(
                f"(({{ left, right }}) => [left, right])({menu}.querySelector('.sheet').getBoundingClientRect())"
            )
            if left < 0 or right > width:
                fail(f"{page.answer(f'{menu}.textContent.slice(0, 40)')!r} is from {left} to {right} at {width} by {height}")
            desk.click_on("document.querySelector('.top h1')")
            page.wait(f"!{menu}.open")
    page.resize(*WINDOWS[0])


def test_write_lesson(desk: Desk) -> None:
    """The form of a lesson with several steps leaves room for the source, and the wheel comes to its last button; it can be closed."""
    page = desk.page
    button = "[...el('lesson').querySelectorAll('button')].find((it) => it.textContent === '{}')".format
    for width, height in LAPTOPS:
        page.resize(width, height)
        desk.open_source("draws.asm", DRAWS)
        page.answer("el('lessons').open = true")
        page.wait("el('lessons-list').querySelector('button')")
        desk.click_on("[...el('lessons-list').querySelectorAll('button')].find((it) => it.textContent === 'Write a lesson')")
        for steps in (2, 3, 4):
            desk.click_on(button("One more step"))
            page.wait(f"el('lesson').querySelectorAll('textarea').length === {2 * steps}")
        expect("the room for the source", page.answer("el('source').clientHeight >= 90"), True)
        page.answer("el('lesson').scrollTop = 0")
        x, y = page.answer("(({ left, top }) => [left + 4, top + 40])(el('lesson').getBoundingClientRect())")
        page.turn_wheel(x, y, 3000)
        page.wait(f"({WHOLE})({button('Show the lesson')})")
        desk.click_on("el('lesson').querySelector('.close')")
        page.wait("el('lesson').hidden")
    page.resize(*WINDOWS[0])
