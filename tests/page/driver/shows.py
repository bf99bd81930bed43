"""What the page shows, as expressions: seen.js and web/ui/testing.js have what they name."""


def shown(name: str) -> str:
    """Returns the expression for the text of an element of the page."""
    return f"document.getElementById('g-{name}').textContent"


def button_of(place: str, text: str) -> str:
    """Returns the expression for a button of an element, by its text."""
    return f"[...{place}.querySelectorAll('button')].find((it) => it.textContent === '{text}')"


def lane(name: str) -> str:
    """Returns the expression for the texts of a lane, as a screen reader has them."""
    return f"lane('{name}')"


# The verdict line of the file that is open and how it came, that of the recording that was saved, and what is said of a file that is refused.
LINE, HOW, OWN_LINE, REFUSED_LINE = shown("line"), shown("how"), shown("own-line"), shown("refused")
HEADLINE, NOTICE, SENT = shown("headline"), shown("notice"), shown("out")
# The state of the machine in a word; the machine's name, its state, and what that means; the card of an answer.
WORD, CARD = shown("state-word"), shown("card")
MODE = f"({shown('mode')} + ' ' + {shown('mode-text')})"
JUDGED = f"{LINE} && !galluspa.isChecking('file') && {LINE} !== 'cancelled: no verdict'"
OWN_JUDGED = f"{OWN_LINE} && !galluspa.isChecking('own')"
# Whether what is shown of the past is exact; whether what was asked about a value is answered, and its links are followed.
EXACT = "galluspa.moment()?.exact && galluspa.moment().listing && galluspa.moment().at === galluspa.cursor()"
ANSWERED = "!el('card').hidden && !el('writer-search')"
FOLLOWED = "/It follows values|The search was cancelled/.test(el('why')?.textContent)"
# Whether the machine is run or paused, and whether what came is kept.
IS_ON, IS_PAUSED = "galluspa.frame()?.on", "galluspa.frame() && !galluspa.frame().on"
IS_STORED = "galluspa.work().isStored && !galluspa.work().isNewer"
IS_KEPT = "galluspa.work().kept.startsWith(`${galluspa.count()} `)"
# A replay that has come to its end.
IS_OVER = "!galluspa.frame().isReplay && !galluspa.frame().on"
# How many dots of the screen are dark.
DRAWN = "darkDots()"
# The source that is open: whether it is assembled as it is, what is said of it, of a run that differs, and of a stop; the line of PC, counted from 1.
ASSEMBLED, SOURCE_SAID = "galluspa.source().isAssembled", shown("source-said")
PARTS, STOP = shown("source-parts"), shown("source-stop")
SOURCE_LINE = "(sourceField.rows.findIndex((row) => row.classList.contains('here')) + 1)"
# The links of where a value comes from.
WHY = "[...el('why-list').children].map((it) => it.innerText.replace(/\\s+/g, ' '))"
