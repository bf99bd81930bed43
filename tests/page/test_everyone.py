"""The page for everybody: what is seen first, all of it by the key Tab, contrast, fingers, a window at 200 %, and one source of colours and sizes."""

from collections.abc import Iterator

from tests.page.driver.desk import SHIFT, Desk, expect, fail
from tests.page.driver.given import FACE
from tests.page.driver.shows import SENT
from tests.tools.samples import EXAMPLES

TABS = ("state", "source", "code", "memory", "devices", "log")
SCHEMES = ("light", "dark")
# What has the focus: its name, and what is wrong with how it is shown, or nothing. A file is chosen by its label, and a frame may be that of a whole field.
STOP = """
(() => {
  const it = document.activeElement, seen = it.closest(".button, .source") ?? it, { left, right, top, bottom, width, height } = seen.getBoundingClientRect();
  const style = getComputedStyle(seen), name = it.id || it.textContent || it.className;
  if (it === document.body) return null;
  if (!seen.checkVisibility({ opacityProperty: true, visibilityProperty: true })) return [name, "it is not shown"];
  if (width < 8 || height < 8) return [name, `it has ${width} by ${height} points`];
  if (style.outlineStyle === "none" || parseFloat(style.outlineWidth) < 2) return [name, "nothing shows the focus"];
  if (bottom <= 0 || top >= innerHeight || right <= 0 || left >= innerWidth) return [name, "it is not in the window"];
  const x = Math.min(innerWidth - 1, Math.max(0, left + width / 2)), y = Math.min(innerHeight - 1, Math.max(0, Math.max(top, 0) + Math.min(height, innerHeight) / 2));
  // Of what is higher than half of the window a part is in sight.
  const lines = height > innerHeight / 2 ? [y, Math.max(0, top) + 4, Math.min(innerHeight, bottom) - 4] : [y], met = lines.map((line) => document.elementFromPoint(x, line));
  return met.some((one) => seen.contains(one) || one?.contains(seen)) ? [name, ""] : [name, "something lies over it"];
})()
"""
# The texts of the page that are in sight and have less contrast to what is behind them than 4.5 : 1, or 3 : 1 where they are large.
FAINT = """
(() => {
  const pen = new OffscreenCanvas(1, 1).getContext("2d", { willReadFrequently: true }), found = [];
  // The colour as the browser paints it over another one: red, green and blue.
  const over = (colour, below, opacity = 1) => {
    pen.globalAlpha = 1;
    pen.fillStyle = `rgb(${below.join()})`;
    pen.fillRect(0, 0, 1, 1);
    pen.globalAlpha = opacity;
    pen.fillStyle = colour;
    pen.fillRect(0, 0, 1, 1);
    return [...pen.getImageData(0, 0, 1, 1).data.slice(0, 3)];
  };
  const behind = (it) => (it ? over(getComputedStyle(it).backgroundColor, behind(it.parentElement)) : [255, 255, 255]);
  const opacityOf = (it) => (it ? Number(getComputedStyle(it).opacity) * opacityOf(it.parentElement) : 1);
  const light = (colour) => colour.map((part) => part / 255).map((part) => (part <= 0.03928 ? part / 12.92 : ((part + 0.055) / 1.055) ** 2.4))
    .reduce((sum, part, at) => sum + part * [0.2126, 0.7152, 0.0722][at], 0);
  const walker = document.createTreeWalker(document.getElementById("galluspa"), NodeFilter.SHOW_TEXT);
  while (walker.nextNode()) {
    const text = walker.currentNode, it = text.parentElement, style = getComputedStyle(it);
    if (!text.data.trim() || !it.checkVisibility({ opacityProperty: true, visibilityProperty: true }) || it.closest(":disabled, .unseen, script, option, canvas")) continue;
    const back = behind(it), front = over(style.color, back, opacityOf(it)), [low, high] = [light(back), light(front)].sort((one, other) => one - other);
    const ratio = (high + 0.05) / (low + 0.05), size = parseFloat(style.fontSize), isLarge = size >= 24 || (size >= 18.66 && style.fontWeight >= 600);
    if (ratio < (isLarge ? 3 : 4.5)) found.push(`${ratio.toFixed(2)}: ${text.data.trim().slice(0, 40)} in ${it.outerHTML.slice(0, 60)}`);
  }
  return [...new Set(found)];
})()
"""
# The controls in sight that have less than 44 points in height or width for a finger. Words that can be followed, in a text or in a row of a list, have no size of
# their own, and what is chosen by a check box has its label.
SMALL = """
[...document.querySelectorAll("#galluspa :is(button, .button, summary, select, input, textarea)")].filter((it) => {
  const { width, height } = it.getBoundingClientRect(), isWord = it.matches("dd *, .gutter, .trace *, .breaks *, .variables *, [id$=calls] *, .unseen, .button > *, [type=checkbox]");
  return it.checkVisibility() && !isWord && (height < 43.5 || width < 43.5) && width > 1;
}).map((it) => `${it.id || it.textContent}: ${it.getBoundingClientRect().width} by ${it.getBoundingClientRect().height}`)
"""
# The texts of buttons that are cut, and what is wider than the window.
CUT = """
[...document.querySelectorAll("#galluspa :is(button, summary, h2, label, legend)")].filter((it) => it.checkVisibility() && !it.closest(".unseen, .track, .listing")).filter((it) => {
  const { left, right } = it.getBoundingClientRect();
  return it.scrollWidth > it.clientWidth + 1 && it.clientWidth > 0 || right > innerWidth + 0.5 || left < -0.5;
}).map((it) => it.id || it.textContent)
"""

# The controls that are seen and cannot be used.
IDLE = """
[...document.querySelectorAll("#galluspa :is(button, input, select, textarea)")].filter((it) => it.disabled && it.checkVisibility({ visibilityProperty: true })).map((it) => it.id || it.textContent)
"""
# Where that is which is seen beside the panels and has a name.
PLACES = """
Object.fromEntries([...document.querySelectorAll("#galluspa [id]")].filter((it) => it.checkVisibility({ visibilityProperty: true }) && it.offsetHeight > 1 && !it.closest(".unseen, .side > section")).map((it) => {
  const { left, top } = it.getBoundingClientRect();
  return [it.id, [Math.round(left), Math.round(top)]];
}))
"""
# What a panel says until a machine is open.
FIRST = {"code": "its instructions", "memory": "its bytes", "devices": "its LEDs", "log": "your notes"}


# How strongly the axis of the timeline is drawn: the opacity of its strongest dot, of 255.
AXIS = """
(() => {
  const { width } = el("lanes"), copy = new OffscreenCanvas(width, 12).getContext("2d", { willReadFrequently: true });
  copy.drawImage(el("lanes"), 0, 0);
  const { data } = copy.getImageData(0, 0, width, 12);
  return data.reduce((most, part, at) => (at % 4 === 3 ? Math.max(most, part) : most), 0);
})()
"""


def each_tab(desk: Desk) -> Iterator[str]:
    """Opens each tab in turn."""
    for name in TABS:
        desk.page.answer(f"el('tab-{name}').click()")
        desk.settle()
        yield name


def test_look_first(desk: Desk) -> None:
    """An empty page plays a recorded game behind its cards until a key is pressed, says in a sentence what it is, and shows neither registers nor words for nothing."""
    page = desk.page
    page.resize(1366, 625)
    desk.reload()
    page.wait("darkDots() > 10000")
    page.answer("void (window.firstDots = screenBytes())")
    page.wait("screenBytes() !== firstDots")
    parts = "['when', 'state', 'run-again', 'state-word'].map((it) => el(it).checkVisibility({ visibilityProperty: true }))"
    expect("whether parts of a machine are shown", page.answer(parts), [False] * 4)
    said = page.answer("document.getElementById('galluspa').innerText")
    for word in ("EMPTY", "o machine yet"):
        if word in said:
            fail(f"an empty page says {word}")
    expect("whether it is said what this is", "A workstation that you can rewind." in said, True)
    expect("the lessons that are offered", page.answer("el('first').querySelectorAll('button').length > 6"), True)
    page.press("Shift")
    desk.settle()
    still = desk.dots()
    for _ in range(30):
        desk.settle()
    expect("whether the game stands still by then", desk.dots() == still, True)
    expect("what is opened by then", page.answer("[galluspa.frame() ?? null, galluspa.work().generation]"), [None, 0])
    desk.draw()
    expect("whether the registers are shown", page.answer(parts)[:2], [True, True])
    page.press("a")
    page.wait(f"{SENT} === 'a' && galluspa.work().isStored && !galluspa.work().isNewer")
    desk.reload()
    page.wait("el('continue').checkVisibility() && !el('continue').disabled")
    first = "[...el('welcome').querySelectorAll('button')].filter((it) => it.checkVisibility())[0].id"
    expect("the first card", page.answer(first), "g-continue")


def places(desk: Desk) -> dict[tuple[int, int], dict[str, list[int]]]:
    """Returns where everything is that is seen, by the sizes of the window."""
    found = {}
    for size in ((1400, 900), (1366, 625), (1024, 600), (800, 600), (400, 800)):
        desk.page.resize(*size)
        desk.page.answer("scrollTo(0, 0); drawnAnew()")
        found[size] = desk.page.answer(PLACES)
    return found


def expect_places(what: str, before: dict[str, list[int]], after: dict[str, list[int]]) -> None:
    """Expects all that is seen before and after something to be where it was."""
    expect(f"what moved {what}", {it: (at, after[it]) for it, at in before.items() if it in after and at != after[it]}, {})


def test_reserve_places(desk: Desk) -> None:
    """Until a machine is open, nothing is seen that cannot be used, and a sentence says what will be there. Nothing moves when something is kept, or as a machine is opened;
    on a phone, the cards below the screen give way to it."""
    page = desk.page
    for scheme in SCHEMES:
        page.prefer(scheme)
        for size in ((1366, 625), (400, 800)):
            page.resize(*size)
            for name in each_tab(desk):
                expect(f"what cannot be used of {name} at {size}, {scheme}", page.answer(IDLE), [])
                expect(f"faint texts of {name} at {size}, {scheme}", page.answer(FAINT), [])
                said = page.answer("document.getElementById('galluspa').innerText")
                for text in (
                    "The machine's time will be here",
                    *([f"Once a machine is open, {FIRST[name]}"] if name in FIRST else []),
                ):
                    expect(f"whether {name} says {text!r}", text in said, True)
                for text in ("Saved", "Continue", "EMPTY", "none"):
                    expect(f"whether {name} says {text!r}", text in said, False)
    page.prefer("light")
    page.answer("el('tab-state').click()")
    fresh = places(desk)
    page.resize(1366, 625)
    desk.draw()
    page.press("a")
    page.wait(f"{SENT} === 'a' && galluspa.work().isStored && !galluspa.work().isNewer")
    desk.click_on("el('kept').querySelector('summary')")
    expect(
        "what is said of a list without anything",
        page.answer("el('kept').innerText.includes('Other projects will be here: ')"),
        True,
    )
    desk.click_on("el('kept').querySelector('summary')")
    opened = places(desk)
    desk.reload()
    page.wait("el('continue').checkVisibility() && !el('continue').disabled")
    kept = places(desk)
    for size, before in fresh.items():
        expect_places(f"at {size} as something is kept", before, kept[size])
        if size[0] > 400:
            expect_places(f"at {size} as a machine is opened", before, opened[size])
    page.answer("el('kept').open = true")
    expect("whether a list says that it is empty", page.answer("el('kept-none').checkVisibility()"), False)
    page.resize(1400, 900)


def stops_of(desk: Desk, what: str, is_back: bool = False) -> list[str]:
    """Goes through the whole page by Tab, from its first control on, or back by Shift+Tab from its last one, and returns the names of its stops. Each is in sight,
    and shows that it has the focus."""
    page, names = desk.page, list[str]()
    page.answer(
        "document.body.tabIndex = -1; document.body.focus(); document.body.removeAttribute('tabindex'); window.scrollTo(0, 0)"
    )
    for _ in range(200):
        page.press("Tab", modifiers=SHIFT if is_back else 0)
        stop = page.answer(STOP)
        if stop is None or (len(names) > 2 and stop[0] == names[0]):
            return names
        if stop[1]:
            fail(f"{what}, stop {len(names) + 1}, {stop[0]!r}: {stop[1]}")
        names.append(stop[0])
    fail(f"{what}: 200 stops do not end")


def test_walk_stops(desk: Desk) -> None:
    """By Tab one comes to no control that is not seen, empty and with each tab in sight, also in small windows and back; the tabs are one stop, and arrows go from one to
    the next."""
    page = desk.page
    page.resize(1366, 768)
    desk.reload()
    numbers = [len(stops_of(desk, "the empty page"))]
    desk.run_to_end("face.orsr", FACE)
    desk.look_at(8000000)
    for name in each_tab(desk):
        stops = stops_of(desk, f"the tab {name}")
        expect(f"the stops among the tabs, with {name}", [it for it in stops if it.startswith("g-tab-")], [f"g-tab-{name}"])
        numbers.append(len(stops))
    page.answer("el('tab-state').click(); el('tab-state').focus()")
    for key, wanted in (("ArrowRight", "source"), ("End", "log"), ("ArrowRight", "state"), ("ArrowLeft", "log"), ("Home", "state")):
        page.press(key)
        expect(
            f"the tab after {key}",
            page.answer(f"[document.activeElement.id, !el('panel-{wanted}').hidden]"),
            [f"g-tab-{wanted}", True],
        )
    for size in ((800, 600), (400, 800), (683, 384)):
        page.resize(*size)
        for name in each_tab(desk):
            for is_back in (False, True):
                stops_of(desk, f"the tab {name} at {size}{' back' if is_back else ''}", is_back)
    page.resize(1400, 900)


def test_tell_parts(desk: Desk) -> None:
    """The page has one main part, a heading for each panel, and an editor that says how one leaves it."""
    page = desk.page
    expect("the main part", page.answer("document.querySelectorAll('main').length"), 1)
    for name in each_tab(desk):
        found = page.answer(f"el('panel-{name}').querySelector('h2')?.textContent.trim()")
        expect(f"whether {name} has a heading", bool(found), True)
    desk.open_source("snake.asm", (EXAMPLES / "snake.asm").read_text())
    page.answer("sourceField.field.focus()")
    said = page.answer("sourceField.field.getAttribute('aria-description') ?? ''")
    expect("what the editor says of leaving it", "Esc leaves" in said, True)
    page.press("Tab")
    expect("whether Tab stays in it", page.answer("document.activeElement === sourceField.field"), True)
    page.press("Escape")
    expect("whether Esc leaves it", page.answer("document.activeElement === sourceField.field"), False)
    page.answer("el('source-save').focus()")
    for where, key in ((True, "Tab"), (False, "Tab")):
        page.press(key)
        expect(
            "whether Tab comes to the editor, and goes on from it",
            page.answer("document.activeElement === sourceField.field"),
            where,
        )


def test_see_contrast(desk: Desk) -> None:
    """Each text in sight has a contrast of 4.5 : 1 at least, light and dark, empty and with each tab in sight."""
    page = desk.page
    page.resize(1400, 900)
    desk.reload()
    for scheme in SCHEMES:
        page.prefer(scheme)
        expect(f"faint texts of an empty page, {scheme}", page.answer(FAINT), [])
    desk.open_source("snake.asm", (EXAMPLES / "snake.asm").read_text())
    desk.press("source-run")
    page.wait("galluspa.frame()?.on && galluspa.count() > 3000000")
    desk.pause()
    desk.look_at(2000000)
    for scheme in SCHEMES:
        page.prefer(scheme)
        for name in each_tab(desk):
            expect(f"faint texts of {name}, {scheme}", page.answer(FAINT), [])
    page.prefer("light")
    desk.run_to_end("face.orsr", FACE)
    # Once all is known, nothing is hatched.
    page.wait("!el('lists').textContent.includes('not known')")
    # Each scheme has the lanes drawn once more.
    for scheme in ("dark", "light"):
        page.prefer(scheme)
        desk.settle()
        expect(f"how strongly the axis of the timeline is drawn, {scheme}", page.answer(AXIS), 255)


def test_fit_fingers(desk: Desk) -> None:
    """For a finger each control has 44 points at least, on a phone, on a tablet and in a wide window; nothing is outside these."""
    page = desk.page
    page.use_touch(True)
    for width, height in ((400, 800), (800, 1100), (1400, 900)):
        page.resize(width, height)
        desk.run_to_end("face.orsr", FACE)
        expect("whether the pointer is coarse", page.answer("matchMedia('(pointer: coarse)').matches"), True)
        for name in each_tab(desk):
            expect(f"small controls of {name} at {width} by {height}", page.answer(SMALL), [])
        expect(f"the width of the page at {width}", page.answer("document.documentElement.scrollWidth"), width)
    page.use_touch(False)
    page.resize(1400, 900)


def test_fit_twice(desk: Desk) -> None:
    """Nothing is cut where a window of 1,366 by 768 points is shown at 200 %."""
    page = desk.page
    page.resize(683, 384)
    desk.run_to_end("face.orsr", FACE)
    for name in each_tab(desk):
        expect(f"what is cut of {name}", page.answer(CUT), [])
        expect(f"the width of the page with {name}", page.answer("document.documentElement.scrollWidth"), 683)
    page.resize(1400, 900)
