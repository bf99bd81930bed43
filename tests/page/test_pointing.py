"""What one points at in the page, by real events: a dot, a register or a word, with where its value comes from."""


from tests.page.driver.shows import ANSWERED, CARD, EXACT, FOLLOWED, WHY, WORD
from tests.page.driver.desk import Desk, expect, fail
from tests.page.driver.given import DRAWS


# A loop that is done ten times, and then one instruction for ever.
LOOPS = """        MOV R1, 0
        MOV R2, 8000H
loop:   ADD R1, R1, 3
        STR R1, R2, 0
        LDR R3, R2, 0
        SUB R4, R3, 30
        BNE loop
done:   B done
"""


def test_ask_why(desk: Desk) -> None:
    """A click on a dot has the links to the key that was typed, as a list and as arcs; a click on a link goes there, and so does one beside the middle of
    its mark, also in a narrower window."""
    page = desk.page
    desk.run_text("draws.asm", DRAWS)
    page.wait("galluspa.frame().on && galluspa.count() > 100000")
    page.press("a")
    page.wait("galluspa.frame().inputs === 1 && galluspa.count() > 3000000 && darkDots() > 0")
    desk.pause()
    desk.click_dot(0, 0)
    page.wait(f"el('why-list')?.childElementCount && {FOLLOWED}")
    rows = page.answer(WHY)
    expect("the first link", rows[0], "1 dot 0,0 = 1 STR R0, R4, 0 · draws.asm:13")
    for wanted in (
        "2 R0 = 00000061 LDR R0, R1, 0 · draws.asm:9",
        "3 keys = 00000061 the input key 61",
        "R4 = 000E7F00 (address) ADD R4, R2, R5 · draws.asm:12",
    ):
        if not any(wanted in row for row in rows):
            fail(f"no link {wanted!r}: {rows}")
    expect(
        "what is said of branches",
        page.answer("el('why').innerText").endswith("It follows values, and not the branches that led to an instruction."),
        True,
    )
    marks = page.answer("lane('why')")
    expect("the arcs", len(marks), page.answer("[...el('why-list').querySelectorAll('button')].length"))
    typed = page.answer("galluspa.live('inputs').then(({ inputs }) => inputs[0][0])")
    desk.click_on("el('why-list').children[2].querySelector('button')")
    page.wait(f"{EXACT} && galluspa.cursor() === {typed}")
    drew = int(marks[0].rpartition(" at ")[2].replace(",", ""))
    desk.zoom_in(1000)
    page.resize(1000, 800)
    desk.settle()
    # A count has less than a point there.
    desk.click_at(desk.column_of(drew) + 4, page.answer("el('track').getBoundingClientRect().bottom") - 8)
    page.wait(f"{EXACT} && galluspa.cursor() !== {typed}")
    expect("the count of the mark", page.answer("galluspa.cursor()"), drew)
    page.resize(1400, 900)
    desk.click_on("el('card').querySelector('.close')")
    page.wait("!lane('why').length && el('card').hidden")


def test_ask_why_elsewhere(desk: Desk) -> None:
    """A register and a word of memory have their links, too; and what only an input set has none."""
    page = desk.page
    desk.run_text("pointing.asm", LOOPS)
    page.wait(f"{WORD} === 'DONE'")
    page.wait("sourceField.rows.some((row) => row.dataset.did)")
    desk.press("tab-state")
    desk.ask_who_wrote("R4")
    page.wait(f"el('why-list')?.childElementCount && {FOLLOWED}")
    rows = page.answer(WHY)
    expect(
        "the links of R4",
        [row.split(" · ")[0] for row in rows[:3]],
        ["1 R4 = 00000000 SUB R4, R3, 30", "2 R3 = 0000001E LDR R3, R2, 0", "3 Mem[008000] = 0000001E STR R1, R2, 0"],
    )
    expect("where the links end", any(row.endswith("a constant") for row in rows), True)
    desk.ask_who_wrote("R4")
    desk.press("tab-memory")
    desk.write_to("memory-at", "8000")
    page.wait("!el('wrote').disabled && el('memory').textContent.startsWith('08000')")
    desk.press("wrote")
    page.wait(f"el('card').textContent.startsWith('Who wrote the byte') && el('why-list')?.childElementCount && {FOLLOWED}")
    expect("the links of a byte", page.answer(WHY)[0].split(" · ")[0], "1 Mem[008000] byte 0 = 0000001E STR R1, R2, 0")
    desk.press("tab-state")
    desk.ask_who_wrote("mouse")
    page.wait(f"{CARD}.startsWith('Who wrote mouse') && {ANSWERED}")
    expect("links of what inputs set", page.answer("[el('why-list'), lane('why').length]"), [None, 0])
    page.answer("el('card').querySelector('.close')?.click()")


def test_click_live(desk: Desk) -> None:
    """A short click in the timeline of a machine that runs goes to the count that is pressed."""
    page = desk.page
    desk.draw()
    page.wait("galluspa.count() > 20_000_000")
    desk.click_at(desk.column_of(5_000_000), page.answer("el('track').getBoundingClientRect().top") + 20)
    page.wait(f"{EXACT} && !galluspa.frame().on")
    at, now = page.answer("[galluspa.cursor(), galluspa.count()]")
    # (the machine goes on between the look at the timeline and the press)
    if not 2_000_000 < at < now / 2:
        fail(f"it goes to {at:,} of {now:,}")
