"""The conditions of a search: what is sought in a run, as it is written on a command line and as the library takes it.

`galluspa find`, `galluspa trace`, scripts of events and the debugger read the same words: those of CONDITIONS.
"""

from collections.abc import Callable, Sequence
from dataclasses import dataclass, replace
from itertools import product

from galluspa.analysis.valueconditions import stated, tested
from galluspa.analysis.conditionwords import ANDS, ORS, PC_WORDS, WANTED_NUMBER, Words, place_of, range_of
from galluspa.analysis.expressions import Moment, Node, negated
from galluspa.analysis.expressiontexts import Parser, literal
from galluspa.analysis.rawconditions import (
    BECOMES,
    CHANGE,
    COUNTER,
    IS,
    IS_WORD,
    KIND_NUMBERS,
    LOAD,
    MOST_CONDITIONS,
    MOST_JOINED,
    REGISTER_NUMBERS,
    SENDS,
    SENDS_BYTE,
    STOPS,
    STORE,
    TAKES,
    WRITES,
    WRITTEN,
    Condition,
    Raw,
)
from galluspa.engine.tracing import Step, dropped
from galluspa.formats import states
from galluspa.formats.recording import FLAGS, KINDS, MOUSE, WORD
from galluspa.formats.symbols import NONE, Symbols, address_of, shown
from galluspa.process.cli import Refused

# The parts that may become a value, with the bits that they can have.
BITS = {
    **dict.fromkeys((*states.REGISTERS, "H"), WORD),
    "flags": 15,
    "switches": 0xFFF,
    "LEDs": 0xFF,
    "mouse": MOUSE,
    "serial": 0x1FF,
    "disk": WORD,
}
# What a condition may begin with, whatever the case of its letters, and what it is called.
STARTS = {it.lower(): it for it in (*BITS, "PC", "store", "write", "writes", "load", "change", "sent", "input", "stop")}
STARTS |= {"sp": "R14", "lnk": "R15"}
DROPPED = "dropped"
EVENTS = ("store", "write", "writes", "load", "change", "sent", "input", "stop")
WANTED = (
    "expected PC=N; store, load or change with a PLACE; NAME=VALUE for R0 to R15, SP, LNK, H, flags, LEDs, switches, "
    "mouse, serial or disk; writes NAME, NAME is VALUE or ADDRESS is VALUE; a comparison such as R0 == 13; sent, input or stop"
)
NOT_SEARCHED = "no search finds this alone: join it by and to what one does, such as PC=N, store PLACE or R0 == 13"
# What the help of a tool says of them.
CONDITIONS = """\
A CONDITION holds at an instruction; if there are several, one of them has to hold:
  PC=N, PC=N-M              the instruction is at this word, or at one of these
  store PLACE               the instruction stores to the place, whatever the value
  change PLACE [mask M]     the instruction changes a bit there; with a mask, one that M has in its word
  load PLACE                the instruction loads from the place
  NAME=VALUE                R0 to R15, SP, LNK, H, flags (as NZ), LEDs, switches, mouse, serial or disk becomes the value
  writes NAME               the instruction writes R0 to R15, SP, LNK, H or flags, whatever the value
  NAME is VALUES            R0 to R15, SP, LNK, H or flags has one of the VALUES before the instruction
  ADDRESS is VALUES         so has the word of memory
  VALUE == VALUE            values before the instruction compare so: also != < <= > >=, with not before it, or in brackets
  sent [BYTE]               the instruction sends a byte, or this byte
  input [KIND]              the machine takes an input just before: timer, switches, mouse, key, serial or disk
  input dropped             it takes a key that it drops, since sixteen wait
  stop                      the instruction stops the machine
  A and B                   up to four of these hold at the same instruction; more comparisons may be joined to them
  A or B                    one of these holds, as if they were given one after the other
  VALUES                    VALUE; LEAST..MOST, of which LEAST may be negative; or not VALUE
  PLACE                     ADDRESS, which names its word; FIRST-LAST, bytes; page N; or dot X,Y of the screen
  ADDRESS                   a number of bytes, or a device: TIMER, SWITCHES, LEDS, SERIAL, STATUS, MOUSE, KEY, -64 to -4
  NAME                      of a symbol file, in place of an ADDRESS or a PC: PC=Texts.Write, store Texts.buf+8
Numbers are decimal, or hexadecimal with 0x in front or H after them. Several words may be in quotation marks, as in "input key".
A comparison has expressions as galluspa debug has them: "Edit.len >= 16", "Mem[SP + 4] & 0FFH == 32". One of the PC, a
register or a word at an address that does not change, with a number, is searched for. Any other has to be joined to something
that is, and is tested wherever that holds."""


@dataclass(frozen=True)
class _Part:
    """What has to hold with other parts: as it is written; the alternatives of which one holds where it does, each of
    conditions that are joined; and what else is tested there. Of a comparison, which may be tested in place of a search, its
    test is known, too."""

    text: str
    alternatives: tuple[tuple[Raw, ...], ...]
    is_so: Callable[[Step], bool] | None = None
    test: Callable[[Moment], bool] | None = None
    node: Node | None = None


def conditions_of(words: Sequence[str], symbols: Symbols = NONE, there: Raw | None = None) -> list[Condition]:
    """Returns the conditions that the words of a command line say, which may use names; refused if they say none, or too
    many. A condition of the library that is given has to hold with each."""
    left, conditions = Words(words, symbols, is_if=there is not None), list[Condition]()
    while left or not conditions:
        if conditions and left.next.lower() in ORS:
            left.take()
        conditions.append(_condition(left, there))
        if sum(len(it.raws) for it in conditions) > MOST_CONDITIONS:
            raise Refused(f"more than {MOST_CONDITIONS} conditions; each kind of input is one")
    return conditions


def breaking(text: str, symbols: Symbols = NONE) -> Condition:
    """Returns the condition that a comparison does not hold. Refused if a text is not a comparison, or if no search finds where it
    does not hold."""
    try:
        return _all_of([_compared(negated(Parser(text, symbols).whole()), f"not ({text})")], None)
    except ValueError as why:
        raise Refused(f"not ({shown(text)}): {why}") from why


def _condition(words: Words, there: Raw | None) -> Condition:
    """Returns the next of the conditions that words say: one alone, or several with AND between them."""
    parts = [_part(words)]
    while words.next.lower() in ANDS:
        words.take()
        parts.append(_part(words))
        if len(parts) > MOST_CONDITIONS:
            raise Refused(f"more than {MOST_CONDITIONS} conditions")
    return _all_of(parts, there)


def _part(words: Words) -> _Part:
    """Returns the condition that words say up to an AND."""
    words.taken = []
    is_value = words.second == "is"
    try:
        if not is_value and not words.is_name and words.next.lower() not in EVENTS and (found := words.comparison()):
            return _compared(*found)
        if words.is_if and words.is_name and words.next.lower() not in EVENTS and words.next.upper() != "PC":
            raise ValueError(f"{words.take()}=.. is the instruction that makes it so: write == to compare")
        name, (raws, is_so) = STARTS.get(words.next.lower()), _is(words) if is_value else _read(words)
    except ValueError as why:
        raise Refused(f"{shown(' '.join(it for it in words.taken if it)) or 'no condition'}: {why}") from why
    is_assigned = (name in BITS or name == "PC") and not is_value
    return _Part(("=" if is_assigned else " ").join(words.taken), tuple((it,) for it in raws), is_so)


def _compared(node: Node, text: str) -> _Part:
    """Returns the condition that a comparison is."""
    found = stated(node, MOST_JOINED)
    if not found.alternatives:
        raise ValueError("it never holds")
    return _Part(text, found.alternatives, None, None if found.is_exact else tested(node), node)


def _all_of(parts: Sequence[_Part], there: Raw | None) -> Condition:
    """That all of some conditions hold at one instruction."""
    text = " and ".join(it.text for it in parts)
    if sum(it.node is None for it in parts) + (there is not None) > MOST_JOINED:
        raise Refused(f"{shown(text)}: at most {MOST_JOINED} conditions can be joined")
    parts = _fitting(parts, MOST_JOINED - (there is not None))
    number = 1
    for it in parts:
        number *= len(it.alternatives)
    if number > MOST_CONDITIONS:
        raise Refused(f"{shown(text)}: more than {MOST_CONDITIONS} conditions; each kind of input is one")
    first = (there,) if there else ()
    alternatives = [first + sum(them, ()) for them in product(*(it.alternatives for it in parts))]
    if not all(alternatives):
        raise Refused(f"{shown(text)}: {NOT_SEARCHED}")
    raws = [replace(raw, is_joined=at < len(them)) for them in alternatives for at, raw in enumerate(them, 1)]
    steps, tests = [it.is_so for it in parts if it.is_so], [it.test for it in parts if it.test]
    return Condition(
        text,
        tuple(raws),
        (lambda step: all(is_so(step) for is_so in steps)) if steps else None,
        test=(lambda moment: all(test(moment) for test in tests)) if tests else None,
    )


def _fitting(parts: Sequence[_Part], most: int) -> list[_Part]:
    """Returns the parts with comparisons that are tested for as many as cannot be joined, or have too many alternatives."""
    room, fitting = most - sum(it.node is None for it in parts), list[_Part]()
    for it in parts:
        if it.node and (max(map(len, it.alternatives)) > room or len(it.alternatives) > 2 * MOST_JOINED):
            found = stated(it.node, room).alternatives if len(it.alternatives) <= MOST_JOINED else ((),)
            it = replace(it, alternatives=found, test=tested(it.node))
        room -= max(map(len, it.alternatives)) if it.node else 0
        fitting.append(it)
    return fitting


def _is(words: Words) -> tuple[tuple[Raw, ...], None]:
    """That a register or a word of memory has one of some values before the instruction."""
    if words.next.lower() in STARTS:
        name = STARTS[words.take().lower()]
        if name not in REGISTER_NUMBERS:
            raise ValueError("expected R0 to R15, SP, LNK, H, flags or the address of a word before is")
        words.take()
        least, most = _values(name, words)
        return (Raw(IS, REGISTER_NUMBERS[name], least=least, most=most),), None
    place = place_of(words, has_devices=False)
    if place.end != place.first + 4:
        raise ValueError("expected the address of one word before is")
    words.take()
    least, most = _values("R0", words)
    return (Raw(IS_WORD, place.first, value=place.mask, least=least, most=most),), None


def _values(name: str, words: Words) -> tuple[int, int]:
    """Returns the first and the last of the values that the next words say, of a register or of a word; they go round 0."""
    if words.next.lower() == "not":
        words.take()
        value = _value(name, words.take())
        return value + 1 & BITS[name], value - 1 & BITS[name]
    least, dots, most = words.take().partition("..")
    return _value(name, least), _value(name, most if dots else least)


def _read(words: Words) -> tuple[tuple[Raw, ...], Callable[[Step], bool] | None]:
    """Returns what the next condition is to the library; a ValueError says what is wrong with it."""
    name = STARTS.get(words.next.lower())
    if _is_number(words.next) or name is None and address_of(words.symbols, words.next) is not None:
        return (Raw(COUNTER, *range_of(words, "a PC", PC_WORDS, WANTED)),), None
    words.take()
    if name == "PC":
        return (Raw(COUNTER, *range_of(words, "a PC", PC_WORDS)),), None
    if name in BITS:
        return _becomes(name, _value(name, words.take()))
    if name == "writes":
        return (_writes(words.take()),), None
    if name in ("store", "write", "load"):
        place = place_of(words, has_devices=True)
        return (Raw(LOAD if name == "load" else STORE, place.first, place.end),), None
    if name == "change":
        return (_change(words),), None
    if name == "sent":
        return (_sends(words),), None
    if name == "input":
        return _takes(words)
    if name == "stop":
        return (Raw(STOPS),), None
    raise ValueError(WANTED)


def _is_number(text: str) -> bool:
    """Returns whether a word is N or N-M."""
    return literal(text.partition("-")[0]) is not None


def _writes(text: str) -> Raw:
    """That a register is written."""
    name = STARTS.get(text.lower(), "")
    if name not in REGISTER_NUMBERS:
        raise ValueError("expected R0 to R15, SP, LNK, H or flags")
    return Raw(WRITES, REGISTER_NUMBERS[name])


def _becomes(name: str, value: int) -> tuple[tuple[Raw, ...], Callable[[Step], bool] | None]:
    """That a register or a device becomes a value."""
    if name in REGISTER_NUMBERS:
        return (Raw(BECOMES, REGISTER_NUMBERS[name], value=value),), None

    def is_so(step: Step) -> bool:
        old, new = (states.values(it)[name] for it in (step.before, step.after))
        return old != new == value

    return WRITTEN[name], is_so


def _value(name: str, text: str) -> int:
    """Returns the value that a part is to have."""
    value = literal(text.removeprefix("-"))
    if value is not None and text.startswith("-"):
        value = -value & (WORD if value <= 1 << 31 else -1)
    if name == "flags" and text and set(text) <= {*FLAGS, "-"}:
        value = sum(8 >> FLAGS.index(letter) for letter in set(text) - {"-"})
    if value is None:
        raise ValueError(WANTED_NUMBER + (f", or letters of {FLAGS}" if name == "flags" else ""))
    if value & ~BITS[name]:
        raise ValueError(f"{name} can have no bit but those of {BITS[name]:X} (hexadecimal)")
    return value


def _change(words: Words) -> Raw:
    """That a place is changed, or those bits of its words that a mask has."""
    place = place_of(words, has_devices=False)
    if words.next != "mask":
        return Raw(CHANGE, place.first, place.end, place.mask)
    words.take()
    mask = literal(words.take())
    if mask is None or not 0 < mask <= WORD:
        raise ValueError("expected a mask from 1 to FFFFFFFF (hexadecimal)")
    return Raw(CHANGE, place.first, place.end, mask)


def _takes(words: Words) -> tuple[tuple[Raw, ...], Callable[[Step], bool] | None]:
    """That an input is taken: any, or one of the kind that the next word says, or a key that is dropped. The name of a kind may
    also begin the next condition, as in switches=3."""
    if words.next == DROPPED:
        words.take()
        return (Raw(TAKES, value=KIND_NUMBERS["key"]),), lambda step: any(dropped(step))
    if words.next in KIND_NUMBERS and not words.is_name:
        return (Raw(TAKES, value=KIND_NUMBERS[words.take()]),), None
    is_next = not words or words.next.lower() in (*STARTS, *ANDS, *ORS) or _is_number(words.next)
    if not is_next:
        words.take()
        raise ValueError(f"expected input alone, or with one of {', '.join((*KIND_NUMBERS, DROPPED))}")
    return tuple(Raw(TAKES, value=it) for it in KINDS), None


def _sends(words: Words) -> Raw:
    """That a byte is sent: any, or the one that the next word says. The letter H may begin the next condition, H=VALUE,
    or be meant as a character."""
    value, character = literal(words.next), words.next.strip("'")
    is_assignment = words.next.lower() in STARTS and words.value is not None
    if value is None and len(character) == 1 and not is_assignment:
        register = f", or {words.next}=VALUE for the register" if words.next.lower() in STARTS else ""
        words.take()
        raise ValueError(f"expected a byte as its number, which is {ord(character)}{register}")
    if value is None:
        return Raw(SENDS)
    if words.take() and value > 0xFF:
        raise ValueError("a byte is at most FF (hexadecimal)")
    return Raw(SENDS_BYTE, value=value)
