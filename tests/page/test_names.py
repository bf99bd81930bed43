"""What files are called, and which of them is opened: names that turn the words around them, long names, and two files one after the other."""

from tests.page.driver.desk import Desk, expect, program
from tests.page.driver.shows import shown
from tests.tools.samples import EXAMPLES, STORED

KEYS, FACE = (EXAMPLES / "keys.json").read_bytes(), (EXAMPLES / "face.orsr").read_bytes()
NAME = shown("name")
# A name that turns the direction of what comes after it, with a control character, and what is shown of it.
TURNING, TURNED = "oops\u202egnp.\x01keys", "oops[U+202E]gnp.[U+0001]keys"
# The first file is read half a second later than others, as from a slow disk.
SLOW = """
(() => {
  const { arrayBuffer } = Blob.prototype;
  let read = 0;
  Blob.prototype.arrayBuffer = async function () {
    const isFirst = !read++, bytes = await arrayBuffer.call(this);
    if (isFirst) await new Promise((done) => setTimeout(done, 500));
    window.isLate = isFirst;
    return bytes;
  };
})()
"""


def test_show_name_plainly(desk: Desk) -> None:
    """A name with a character that turns the direction is shown with that written out, wherever the page says it."""
    page = desk.page
    desk.start(f"{TURNING}.json", KEYS)
    expect("the name of what is open", page.answer(NAME), TURNED)
    desk.start(f"{TURNING}.orsr", FACE)
    page.wait("el('claims-of').textContent")
    for place, wanted in (("judged", f"The file {TURNED}.orsr"), ("claims-of", f"of 4 in {TURNED}.orsr, ")):
        expect(f"the name in {place}", page.answer(shown(place))[: len(wanted)], wanted)
    desk.choose(f"{TURNING}.short.orsr", STORED[:-1])
    desk.expect_refused(f"{TURNED}.short.orsr", program("check", STORED[:-1])[0])
    apart = (
        "['name', 'judged', 'refused-name', 'claims-of'].map((it) => document.querySelectorAll(`bdi#g-${it}, #g-${it} bdi`).length)"
    )
    expect("the elements that keep a name apart", page.answer(apart), [1] * 4)
    desk.choose(f"{TURNING}.bin", STORED[24:1048])
    page.wait("el('image').checkVisibility()")
    expect("the name of an image", page.answer(shown("image-name")), f"{TURNED}.bin, 1,024 bytes,")


def test_shorten_name(desk: Desk) -> None:
    """A name of two hundred characters moves nothing out of the window, and can be read whole."""
    page = desk.page
    name = "a" * 200
    for width in (1400, 800, 400):
        page.resize(width, 800)
        desk.start(f"{name}.json", KEYS)
        right, whole = page.answer("[el('track').getBoundingClientRect().right, document.documentElement.scrollWidth]")
        expect(f"whether the timeline is in a window of {width} points", (right <= width, whole), (True, width))
        expect(
            "whether the name is shortened, and the whole one",
            page.answer("[el('name').scrollWidth > el('name').clientWidth, el('name').title]"),
            [True, name],
        )
    page.resize(1400, 900)


def test_open_later(desk: Desk) -> None:
    """Of two files that are chosen one after the other the second is opened, also if the first is read later."""
    page = desk.page
    page.answer(SLOW)
    desk.choose("slow.orsr", FACE)
    desk.choose("quick.json", KEYS)
    page.wait("window.isLate && galluspa.work().generation")
    # What the first file would ask for is answered before this.
    page.answer("galluspa.live('lanes', { from: 0, to: 1, columns: 1, of: 0 })")
    expect("what is open", page.answer(NAME), "quick")
