"""What the user does reaches the machine whole: clicks and strokes, text for the serial line, composed characters, controls; or the page says so."""

import json
import time

import galluspa.formats.recording
from tests.page.driver.desk import SHIFT, Desk, expect, fail
from tests.page.driver.given import DRAW, MOUSE, PER_SECOND, json_of
from tests.page.driver.shows import NOTICE, SENT
from tests.tools import browser
from tests.tools.samples import EXAMPLES, JUMP, record, session

# The bits of the mouse's word that are its keys, and the counts of a millisecond.
KEYS, PER_MS = 7 << 24, 25000
# The bytes of the display's lines in which something is drawn, each as often as there are such lines.
PLACES = """(() => {
  const places = new Set();
  darkPixels().forEach((isDark, at) => isDark && places.add((at & 1023) >> 3));
  return places.size;
})()"""
# Counts the messages that the worker of the live machine posts from here on: it is the next one that is asked for something.
COUNT_POSTED = """
(() => {
  const { postMessage } = Worker.prototype;
  window.posted = 0;
  Worker.prototype.postMessage = function (...given) {
    Worker.prototype.postMessage = postMessage;
    this.addEventListener("message", () => window.posted++);
    return this.postMessage(...given);
  };
  return galluspa.live("inputNear", { at: 0, isBefore: true });
})()
"""
# The page hears of its workers as many milliseconds later as `lateBy` says.
LATE = """
{
  const { set } = Object.getOwnPropertyDescriptor(Worker.prototype, "onmessage");
  Object.defineProperty(Worker.prototype, "onmessage", {
    set(hear) {
      set.call(this, (event) => (window.lateBy ? setTimeout(() => hear.call(this, event), window.lateBy) : hear.call(this, event)));
    },
  });
}
"""
# The least counts of a turn of a machine that waits: 40 of its 50 milliseconds.
LONG_TURN = 1_000_000


def click(page: browser.Page, x: float, y: float, hold: float = 0) -> None:
    """Goes to a place, and clicks there for a number of seconds; the page may see all of it at once."""
    now = time.time()
    page.send_mouse("mouseMoved", x, y, now)
    page.send_mouse("mousePressed", x, y, now, 1)
    time.sleep(hold)
    page.send_mouse("mouseReleased", x, y, now + hold)


def key_changes(recording: bytes) -> list[int]:
    """Returns the counts at which the mouse's keys change."""
    words = [(0, 0), *((it.count, it.value) for it in galluspa.formats.recording.read(recording).events if it.kind == MOUSE)]
    return [count for (_, before), (count, now) in zip(words, words[1:]) if (before ^ now) & KEYS]


def test_click_fast(desk: Desk) -> None:
    """The program sees each click, however short, and a longer one for its time."""
    page = desk.page
    page.resize(1280, 1100)
    for speed, hold in (("fast", 0), ("clock", 0), ("clock", 0.005)):
        page.answer(f"el('speed').value = '{speed}'")
        desk.draw()
        page.wait("!darkDots()")
        left, top, width = desk.screen()
        for number in range(10):
            click(page, left + width * (0.1 + number * 0.08), top + 100, hold)
            time.sleep(0.03)
        page.wait(f"galluspa.frame().inputs >= 30 && {PLACES} === 10")
        if speed == "fast":
            continue
        changes = key_changes(desk.save("draw", "ten clicks"))
        holds = [up - down for down, up in zip(changes[::2], changes[1::2])]
        if len(holds) != 10 or min(holds) < PER_MS or (hold and sorted(holds)[6] > 2 * hold * PER_SECOND):
            fail(f"clicks of {hold} seconds are held for {holds}")


def test_stroke(desk: Desk) -> None:
    """A fast stroke has the positions of the mouse between two frames, however late the browser delivers them."""
    page = desk.page
    desk.draw()
    left, top, _ = desk.screen()
    begun = time.time() - 0.4
    page.send_mouse("mousePressed", left + 50, top + 50, begun, 1)
    for number in range(1, 200):
        page.send_mouse("mouseMoved", left + 50 + 3 * number, top + 50 + number, begun + 0.002 * number, 1)
    page.send_mouse("mouseReleased", left + 650, top + 250, begun + 0.4)
    page.wait("galluspa.frame().inputs > 1 && !(galluspa.part('mouse') >> 24)")
    recording = desk.save("draw", "a stroke")
    places = {it.value & ~KEYS for it in galluspa.formats.recording.read(recording).events if it.kind == MOUSE}
    expect("the changes of the mouse's keys", len(key_changes(recording)), 2)
    if len(places) < 190:
        fail(f"a stroke of 200 positions has {len(places)}")


def test_send_lines(desk: Desk) -> None:
    """Lines pasted into the field are sent as lines, several bytes a frame; in a replay the text stays, and keys typed while paused are said to have no effect."""
    page = desk.page
    page.answer("el('serial-return').checked = true")
    desk.draw()
    page.answer("el('serial').focus()")
    page.insert("one\ntwo")
    page.press("Enter", modifiers=SHIFT)
    page.insert("three")
    page.press("Enter")
    page.wait(f"{SENT} === 'one\\\\0dtwo\\\\0dthree\\\\0d'")
    expect("the field after it was sent", page.answer("el('serial').value"), "")
    frames = page.answer("galluspa.frame().frames")
    page.answer("el('serial').value = 'x'.repeat(400); el('serial-form').requestSubmit()")
    page.wait(f"{SENT}.endsWith('x'.repeat(400) + '\\\\0d')")
    if page.answer("galluspa.frame().frames") - frames > 200:
        fail(f"400 bytes took {page.answer('galluspa.frame().frames') - frames} frames")
    desk.pause()
    page.answer("el('screen').focus()")
    page.press("k")
    desk.expect_notice("a key typed while paused", "The machine is paused: keys and the mouse go to it while it runs.")
    desk.start("keys.json", (EXAMPLES / "keys.json").read_bytes())
    page.answer("el('serial').value = 'later'; el('serial-form').requestSubmit()")
    desk.expect_notice("text in a replay", "REPLAY: the inputs are the file's until you continue from here. The text stays here.")
    expect("the text in a replay", page.answer("el('serial').value"), "later")
    page.answer("el('serial').value = ''")


def test_type_at_once(desk: Desk) -> None:
    """Keys that are typed right after *Run* go to the machine, though it has not answered yet."""
    page = desk.page
    page.begin_with(LATE)
    desk.reload()
    desk.draw()
    desk.pause()
    page.answer("window.lateBy = 500")
    desk.click_on("el('run')")
    page.press("a")
    page.press("b")
    page.wait(f"{SENT} === 'ab'")
    expect("what the page says", page.answer(NOTICE), "")


def test_compose_text(desk: Desk) -> None:
    """Composed characters are sent by their Latin-1 codes, and what has none is said not to be sent."""
    page = desk.page
    desk.draw()
    page.compose("´", "é")
    page.insert("ü")
    page.press("ß")
    page.wait(f"{SENT} === '\\\\e9\\\\fc\\\\df'")
    page.insert("日本")
    desk.expect_notice("composed text that has no codes", "日本: keys send the characters of Latin-1 only.")
    page.answer("el('notice').click()")
    page.press("€")
    desk.expect_notice("a key that has no code", "€: keys send the characters of Latin-1 only.")
    page.answer("el('notice').click(); el('keys').value = 'ps2'")
    page.insert("é")
    desk.expect_notice("composed text as PS/2 codes", "é: PS/2 codes have no composed text.")
    page.answer(
        "el('notice').click(); el('keys').value = 'characters'; window.context = el('screen').editContext; el('screen').editContext = null"
    )
    page.press("Dead")
    desk.expect_notice(
        "a dead key where nothing is composed", "This browser composes no characters here: send them over the serial line."
    )
    page.answer("el('screen').editContext = context")
    expect("what was sent", page.answer(SENT), "\\e9\\fc\\df")
    page.press("ArrowUp")
    desk.expect_notice("an arrow", "Arrow keys need PS/2 mode: choose keys as PS/2 codes among the devices.")
    page.answer("el('notice').click()")
    desk.click("keyboard")
    page.insert("k")
    page.press("Backspace", number=8)
    page.wait(f"{SENT} === '\\\\e9\\\\fc\\\\dfk\\\\08'")


def test_go_to_checkpoints(desk: Desk) -> None:
    """A session without checkpoints has an end to go to; a change of the speed keeps the goal and the focus; controls show what is opened."""
    page = desk.page
    page.answer("el('speed').value = 'clock'; el('each').value = 0")
    keys = json_of("keys.json", checkpoints=[])
    desk.start("keys.json", keys)
    desk.click("next")
    page.wait("!galluspa.frame().on && galluspa.count() === 51 && !galluspa.frame().isReplay")
    page.answer("el('each').value = 1")
    desk.start("draw.json", DRAW)
    desk.click("next")
    page.wait("galluspa.frame().on")
    page.answer("el('speed').focus()")
    page.press("ArrowDown")
    page.answer("el('more').open = true; el('each').focus()")
    page.press("ArrowUp")
    page.wait("!galluspa.frame().on")
    expect(
        "the goal after a change of the speed",
        page.answer("[galluspa.count(), el('speed').value, el('each').value]"),
        [25000000, "fast", "2"],
    )
    expect("what has the focus after an arrow", page.answer("document.activeElement.id"), "g-each")
    page.answer("el('speed').value = 'clock'; el('switches').querySelector('input[value=\"3\"]').click()")
    desk.click("step")
    page.wait("galluspa.part('switches') === 8")
    desk.start("draw.json", DRAW)
    expect("the switches of another machine", page.answer("el('switches').querySelectorAll('input:checked').length"), 0)
    switched = record(session([JUMP], [20], [(5, "switches", 5), (6, "mouse", 7)]))
    desk.start("switched.orsr", switched)
    desk.click("next")
    page.wait("galluspa.count() === 20 && !galluspa.frame().on")
    expect(
        "the controls after a replay",
        page.answer("[el('switches').querySelectorAll('input:checked').length, el('mouse-x').value]"),
        [2, "7"],
    )


def test_wait_quietly(desk: Desk) -> None:
    """A machine that waits takes long turns and posts few frames, until something comes for it; its registers and its code are seen as it runs."""
    page = desk.page
    desk.set_speed("clock")
    desk.draw()
    page.wait("galluspa.frame().frames > 100")
    page.answer(COUNT_POSTED)
    frames, posted, seconds = page.answer(frames_in(1500))
    if frames > 24 * seconds or posted > 8 * seconds:
        fail(f"a machine that waits takes {frames} turns in {seconds:.1f} s, and posts {posted} frames")
    press_until_short(desk)
    desk.start("counting.json", json.dumps(session([0x40080001, 0x41080001, 0xE7FFFFFD], [])).encode())
    desk.go_on()
    cell = "stateCell('R0').textContent"
    expect("whether registers follow", page.answer(changing(cell)), True)
    desk.click("tab-code")
    page.wait("el('listing').querySelectorAll('.here').length === 1")
    expect("whether the listing follows", page.answer(changing("el('listing').querySelector('.here').textContent")), True)
    desk.click("tab-state")
    desk.pause()


def frames_in(ms: int) -> str:
    """Returns the expression for how many turns the machine takes in some ms, how many frames it posts, and how many seconds that was: a browser beside much
    else ends a wait late."""
    ended = "done([galluspa.frame().frames - frames, window.posted, (performance.now() - begun) / 1000])"
    return f"new Promise((done) => {{ const {{ frames }} = galluspa.frame(), begun = performance.now(); window.posted = 0; setTimeout(() => {ended}, {ms}); }})"


def press_until_short(desk: Desk) -> None:
    """Presses keys until one is followed by turns as short as those of a machine that does not wait, by its counts. Where much else runs the first
    ones may not be."""
    page, pressed = desk.page, ""
    for key in "klmnopqrstuvwxyz":
        pressed += key
        page.press(key)
        page.wait(f"{SENT} === {pressed!r}")
        frames, count = page.answer("[galluspa.frame().frames, galluspa.count()]")
        page.wait(f"galluspa.frame().frames >= {frames + 8}")
        turns, counts = page.answer(f"[galluspa.frame().frames - {frames}, galluspa.count() - {count}]")
        if counts < LONG_TURN * turns:
            return
    fail(f"turns stay long after each of the keys {pressed}")


def changing(expression: str) -> str:
    """Returns whether a value becomes another one within twenty seconds."""
    return f"""(async () => {{
      const first = {expression};
      for (let k = 0; k < 400 && {expression} === first; k++) await new Promise((done) => setTimeout(done, 50));
      return {expression} !== first;
    }})()"""
