"""Replays of recordings with thousands of checkpoints, true and false, and what is said while the browser's storage does not answer."""

import struct
from functools import cache

import galluspa.formats.recording
from tests.page.driver.desk import LONGEST_TASK_MS, Desk, expect, fail, program
from tests.page.driver.shows import CARD, EXACT, OWN_LINE, SENT, shown
from tests.tools.samples import record, session

# Counts in R0, and sends its lowest byte each time: so no step of it is skipped.
COUNTING = [0x5100FFC8, 0x40080001, 0xA0100000, 0xE7FFFFFD]
MANY, APART, FALSE = 4096, 600, 300
PASSED = "[...document.querySelectorAll('#g-passed li')].map((it) => it.textContent)"
# A turn of a fast run takes 12 ms. With a checkpoint each, it would be more than four thousand of them.
MOST_TURNS = 1500
TRIES = 3


@cache
def many(number: int) -> bytes:
    """Returns a recording with a number of checkpoints."""
    return record(session(COUNTING, range(APART, APART * number + 1, APART)))


def test_replay_many(desk: Desk) -> None:
    """Four thousand checkpoints are passed in few turns and short tasks, each as true; the recording that was made on the way has them all."""
    page = desk.page
    desk.set_speed("fast")
    text = many(MANY)
    # What else runs on the machine makes some tasks longer, so the shortest of some tries counts.
    for _ in range(TRIES):
        with page.measuring() as tasks:
            desk.start("many.orsr", text)
            desk.press("run")
            page.wait("!galluspa.frame().isReplay && !galluspa.frame().on", moving="galluspa.count()")
        if max(tasks) <= LONGEST_TASK_MS:
            break
    if (turns := page.answer("galluspa.frame().frames")) > MOST_TURNS:
        fail(f"{MANY} checkpoints are passed in {turns} turns")
    if max(tasks) > page.allowed(LONGEST_TASK_MS):
        fail(f"a task took {max(tasks):.0f} ms of the processor when {MANY} checkpoints were passed")
    expect("what was passed", page.answer(PASSED), [f"at {APART * number:,}: true" for number in range(1, MANY + 1)])
    expect("the machine's checkpoints", page.answer("galluspa.frame().marks"), MANY)
    saved = desk.save("many", "a replay of many checkpoints")
    own, other = [galluspa.formats.recording.read(text) for text in (saved, many(MANY))]
    expect("whether the same is claimed", [it.output for it in own.checkpoints] == [it.output for it in other.checkpoints], True)


def test_search_many(desk: Desk) -> None:
    """A replay of four thousand checkpoints is searched in short tasks, of the page and of its workers: the byte that was sent before, the next one, who wrote a register,
    the checkpoints before and after, and a jump."""
    page = desk.page
    desk.set_speed("fast")
    desk.start("many.orsr", many(MANY))
    desk.press("run")
    page.wait("!galluspa.frame().isReplay && !galluspa.frame().on", moving="galluspa.count()")
    desk.choose_option("search-kind", "any byte sent")
    for _ in range(TRIES):
        with page.measuring() as tasks:
            desk.look_at(APART * MANY // 2 + 1)
            for name, sign in (("find-before", "<"), ("find-next", ">"), ("find-next", ">")):
                at = page.answer("galluspa.cursor()")
                desk.press(name)
                page.wait(f"galluspa.cursor() {sign} {at} && {EXACT} && !galluspa.isSearching()")
            desk.ask_who_wrote("R3")
            page.wait(f"{CARD}.includes('Never written since the start.')")
            page.answer("el('card').querySelector('.close').click(); el('cursor').focus()")
            for key, at in (("[", MANY // 2), ("[", MANY // 2 - 1), ("]", MANY // 2)):
                page.press(key)
                page.wait(f"galluspa.cursor() === {APART * at} && {EXACT}")
        if max(*tasks, *tasks.workers) <= LONGEST_TASK_MS:
            break
    if max(*tasks, *tasks.workers) > page.allowed(LONGEST_TASK_MS):
        fail(
            f"a task took {max(tasks):.0f} ms of the processor when {MANY} checkpoints were searched, and one of a worker {max(tasks.workers):.0f} ms"
        )


def falsified(text: bytes, numbers: range) -> bytes:
    """Returns a recording in which checkpoints claim another R3."""
    false, read = bytearray(text), galluspa.formats.recording.read(text)
    at = len(false) - sum(len(it.output) for it in read.checkpoints)
    for number in range(len(read.checkpoints) - 1, 0, -1):
        changes = next(n for n in range(1025) if struct.unpack_from("<I", false, at - 144 - 8 * n + 140)[0] == n)
        at -= 144 + 8 * changes
        if number in numbers:
            struct.pack_into("<I", false, at + 8 + 4 * 3, 7)
    return bytes(false)


def test_replay_false(desk: Desk) -> None:
    """One or more of many checkpoints are false: those before are true, each one is named with its part, and the recording has what the machine
    came to."""
    page = desk.page
    for numbers in (range(200, 201), range(100, FALSE)):
        false = falsified(many(FALSE), numbers)
        first = numbers[0]
        expect("the program's line", program("check", false)[0], f"false checkpoint {first} at {first * APART} part R3")
        desk.start("false.orsr", false)
        desk.press("run")
        page.wait("!galluspa.frame().isReplay && !galluspa.frame().on", moving="galluspa.count()")
        wanted = [
            f"at {APART * number:,}: {'false, first in R3' if number in numbers else 'true'}" for number in range(1, FALSE + 1)
        ]
        expect("what was passed", page.answer(PASSED), wanted)
        expect("whether the machine's own is recorded", desk.save("false", "a replay of a false recording"), many(FALSE))
        expect("its line", page.answer(OWN_LINE).split()[:2], ["accepted", f"{FALSE}"])


def test_wait_for_storage(desk: Desk) -> None:
    """While a storage does not answer, another machine is opened at once; the one before stays in the page."""
    page = desk.page
    page.begin_with("IDBFactory.prototype.open = () => ({})")
    desk.reload()
    desk.set_speed("clock")
    desk.draw()
    page.press("a")
    page.wait(f"{SENT} === 'a'")
    desk.press("face")
    page.wait(f"{shown('name')} === 'face'")
    page.wait("el('kept-list').textContent.includes('storage does not answer')")
    page.wait("[...el('kept-list').querySelectorAll('p')].some((it) => it.textContent.startsWith('draw, of '))")
