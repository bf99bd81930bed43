"""Recordings that are checked, each with its verdict line."""

from collections.abc import Iterator, Mapping, Sequence
from dataclasses import replace

from galluspa.formats.recording import WORD, Recording
from tests.programs import named
from tests.programs.answers import Call, prints, writes
from tests.programs.named import claiming, first, jumps, second, third, with_register

# Few workers and many, jobs of one segment and of more.
CREWS = ["check", *(f"check --workers {workers} --cut {cut}" for workers in (1, 2, 64) for cut in (1, 3, 4, 100))]
ONE, THREE, TEN = jumps(1), jumps(3), jumps(10)

OPERATIONS: Sequence[tuple[Recording, str]] = [
    (named.EMPTY, "accepted 0 checkpoints 0 steps"),
    (named.MOVE_FIVE, "accepted 1 checkpoints 1000 steps"),
    (named.ADD_WITH_CARRY, "accepted 1 checkpoints 1 steps"),
    (claiming(named.ADD_WITH_CARRY, 1, flags=0), "false checkpoint 1 at 1 part flags"),
    (named.LINK_AND_JUMP, "accepted 1 checkpoints 1 steps"),
    (with_register(named.LINK_AND_JUMP, 1, 15, 8), "false checkpoint 1 at 1 part R15"),
    (named.BORROW, "accepted 1 checkpoints 1 steps"),
    (named.BORROW_FROM_THE_LEAST, "accepted 1 checkpoints 1 steps"),
]
STOPS: Sequence[tuple[Recording, str]] = [
    (named.JUMP_OFF_THE_END, "accepted 2 checkpoints 2 steps"),
    (claiming(named.JUMP_OFF_THE_END, 1, stop=3), "false checkpoint 1 at 1 part stop"),
    (named.DIVISOR_STOP, "accepted 2 checkpoints 9 steps"),
    (named.OFF_THE_END, "accepted 1 checkpoints 262145 steps"),
    (named.STOPPED, "accepted 1 checkpoints 1099511627776 steps"),
]
INPUTS_AND_OUTPUT: Sequence[tuple[Recording, str]] = [
    (named.KEY_AT_A_CHECKPOINT, "accepted 2 checkpoints 20 steps"),
    (claiming(named.KEY_AT_A_CHECKPOINT, 1, keys=b"A"), "false checkpoint 1 at 10 part keys"),
    (named.REJOINING, "accepted 2 checkpoints 4 steps"),
    (with_register(named.REJOINING, 1, 5, 9), "false checkpoint 1 at 2 part R5"),
    (named.ONE_BYTE_SENT, "accepted 2 checkpoints 4 steps"),
    (claiming(named.ONE_BYTE_SENT, 2, output=b""), "false checkpoint 2 at 4 part out"),
]
WRITES: Sequence[tuple[Recording, str]] = [
    (named.EQUAL_PAGES, "accepted 1 checkpoints 10 steps"),
    (named.PAGE_WRITTEN, "accepted 1 checkpoints 2 steps"),
    (claiming(named.PAGE_WRITTEN, 1, table=named.table_of({0: 2, 1: 2})), "false checkpoint 1 at 2 part page 0"),
    (named.CODE_WRITTEN, "accepted 2 checkpoints 4 steps"),
    (with_register(named.CODE_WRITTEN, 2, 2, 2), "false checkpoint 2 at 4 part R2"),
    (named.BYTE_STORED, "accepted 1 checkpoints 1 steps"),
]
# The timer's rate and its phase are of version 2 alone.
TIMERS: Sequence[tuple[Recording, str]] = [
    (named.TIMER_COUNTS, "accepted 2 checkpoints 30 steps"),
    (claiming(named.TIMER_COUNTS, 2, phase=1), "false checkpoint 2 at 30 part phase"),
    (claiming(named.TIMER_COUNTS, 2, rate=5), "false checkpoint 2 at 30 part rate"),
    (named.READ_BEFORE_ITS_COUNT, "accepted 1 checkpoints 10 steps"),
    (claiming(ONE, 1, timer=7, rate=10, phase=3), "false checkpoint 1 at 10 part timer"),
    (claiming(ONE, 1, rate=10, phase=3), "false checkpoint 1 at 10 part rate"),
    (claiming(jumps(1, rate=10), 1, timer=1), "accepted 1 checkpoints 10 steps"),
    (claiming(jumps(1, rate=10), 1, timer=1, phase=3), "false checkpoint 1 at 10 part phase"),
    (claiming(jumps(1, rate=10), 1, rate=11, phase=3), "false checkpoint 1 at 10 part timer"),
]
# What the disk answered is of version 3 alone.
DISKS: Sequence[tuple[Recording, str]] = [
    (named.ANSWERED, "accepted 3 checkpoints 9 steps"),
    (claiming(named.ANSWERED, 1, disk=named.ANSWER), "false checkpoint 1 at 1 part disk"),
    (claiming(named.ANSWERED, 2, disk=0x78), "false checkpoint 2 at 2 part disk"),
    (with_register(named.ANSWERED, 2, 0, 0x78), "false checkpoint 2 at 2 part R0"),
    (claiming(named.ANSWERED, 3, disk=255, output=b"A"), "false checkpoint 3 at 9 part disk"),
    (claiming(ONE, 1, disk=0), "false checkpoint 1 at 10 part disk"),
    (claiming(ONE, 0, disk=0), "false checkpoint 1 at 10 part disk"),
    (claiming(claiming(ONE, 0, disk=WORD), 1, disk=WORD), "accepted 1 checkpoints 10 steps"),
]
# A recording in which only this part is false.
PARTS: Mapping[str, Recording] = {
    **{f"R{number}": with_register(ONE, 1, number, 1) for number in range(16)},
    "H": claiming(ONE, 1, h=1),
    "PC": claiming(ONE, 1, pc=1),
    "flags": claiming(ONE, 1, flags=1),
    "stop": claiming(ONE, 1, stop=1),
    "timer": claiming(ONE, 1, timer=1),
    "switches": claiming(ONE, 1, switches=1),
    "LEDs": claiming(ONE, 1, leds=1),
    "mouse": claiming(ONE, 1, mouse=1),
    "serial": claiming(ONE, 1, serial=1),
    "keys": claiming(ONE, 1, keys=b"\0"),
    "out": claiming(ONE, 1, output=b"\0"),
    "page 1023": claiming(ONE, 1, table=named.table_of({0: 1, 1023: 1})),
}
JUMPS: Sequence[tuple[Recording, str]] = [
    (named.STORED_RUN, "accepted 1 checkpoints 100 steps"),
    (with_register(named.STORED_RUN, 1, 0, 6), "false checkpoint 1 at 100 part R0"),
    (THREE, "accepted 3 checkpoints 30 steps"),
    (claiming(claiming(THREE, 2, h=1), 3, h=1), "false checkpoint 2 at 20 part H"),
    (TEN, "accepted 10 checkpoints 100 steps"),
    (claiming(claiming(TEN, 3, leds=1), 7, leds=1), "false checkpoint 3 at 30 part LEDs"),
    # each checkpoint alone, and all at once: each with the LEDs of the one before, or with others
    *((claiming(TEN, at, leds=1), f"false checkpoint {at} at {10 * at} part LEDs") for at in range(1, 11)),
    *(
        (
            replace(TEN, checkpoints=[replace(it, leds=leds(it.count)) for it in TEN.checkpoints]),
            "false checkpoint 1 at 10 part LEDs",
        )
        for leds in (lambda count: int(count > 0), lambda count: count // 10)
    ),
]


def calls() -> Iterator[Call]:
    """Yields the checks of each recording in both versions, by few workers and many, and its migrations."""
    for it, line in (*OPERATIONS, *STOPS, *INPUTS_AND_OUTPUT, *WRITES, *JUMPS):
        yield from _checks(first(it), line, CREWS)
        yield from _checks(second(it), line, CREWS)
        yield from (writes("migrate", text, second(it)) for text in (first(it), second(it)))
        yield from (writes("migrate --disk", text, third(it)) for text in (first(it), second(it), third(it)))
        yield prints("migrate", third(it), "refused 3 version at byte 4")
    for it, line in TIMERS:
        yield from _checks(second(it), line, CREWS)
    for it, line in (*OPERATIONS, *STOPS, *INPUTS_AND_OUTPUT, *WRITES, *JUMPS, *TIMERS, *DISKS):
        yield from _checks(third(it), line, [f"{crew} --disk" for crew in CREWS])
        yield prints("check", third(it), "refused 3 version at byte 4")
    for it, line in (*OPERATIONS, *TIMERS):
        yield from _checks(second(it), line, ["check --disk"])
    for part, it in PARTS.items():
        yield from (prints("check", text, f"false checkpoint 1 at 10 part {part}") for text in (first(it), second(it)))
    for text in (first(named.MOST_CHECKPOINTS), second(named.MOST_CHECKPOINTS)):
        yield from _checks(
            text, "accepted 4096 checkpoints 4096 steps", ["check --workers 2 --cut 1", "check --workers 2 --cut 64"]
        )


def _checks(text: bytes, line: str, crews: Sequence[str]) -> Iterator[Call]:
    return (prints(crew, text, line) for crew in crews)
