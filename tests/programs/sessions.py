"""Sessions that are recorded, each with its recording, and those that are refused, each with the line of its first fault."""

from collections.abc import Iterator, Mapping, Sequence
from dataclasses import replace

from galluspa.formats.recording import WORD, Event, Recording, page_of
from galluspa.formats.sessions import Session
from tests.programs import named
from tests.programs.answers import Call, prints, writes
from tests.programs.named import C, JUMP, N, Z, claim, first, recording, second, third

LAST = 1 << 40
REGISTERS = "[0,0,0,0,0,0,0,0,0,0,0,0,0,0,0,0]"
BEGIN = '{"format":"oberon-session","version":1,"start":{"R":' + REGISTERS + ',"H":0,"PC":0,"flags":0},'
BEGIN_2 = '{"format":"oberon-session","version":2,"start":{"R":' + REGISTERS + ',"H":0,"PC":0,"flags":0'
END = '"pages":[],"inputs":[],"checkpoints":[]}'
# The session of docs/formats.md.
STORED = BEGIN + '"pages":[{"at":0,"hex":"05000040"}],"inputs":[],"checkpoints":[100]}'

# What follows the initial state, and the first fault.
AFTER_START: Sequence[tuple[str, str]] = [
    ('"pages":[{"at":0,"hex":"05000040"}],"inputs":[],"checkpoints":[100]', "1 json"),
    ('"pages":[],"inputs":[],"checkpoints":[1.5]}', "2 shape"),
    ('"pages":[],"inputs":[],"checkpoints":[-1]}', "2 shape"),
    ('"pages":[],"inputs":[],"checkpoints":[1.0]}', "2 shape"),
    ('"pages":[],"inputs":[],"checkpoints":[1e2]}', "2 shape"),
    ('"pages":[],"inputs":[],"checkpoints":[1e400]}', "1 json"),
    ('"pages":[],"inputs":[],"checkpoints":["1"]}', "2 shape"),
    ('"pages":[],"inputs":[],"checkpoints":[18446744073709551616]}', "2 shape"),
    ('"pages":[],"inputs":[]}', "2 shape"),
    ('"pages":[],"inputs":[],"checkpoint":[1]}', "2 shape"),
    ('"pages":[{"at":0}],"inputs":[],"checkpoints":[]}', "2 shape"),
    ('"pages":[],"inputs":[[1,"bell",0]],"checkpoints":[]}', "2 shape"),
    ('"pages":[],"inputs":[[1,"key"]],"checkpoints":[]}', "2 shape"),
    ('"pages":[],"inputs":[],"checkpoints":[],"more":1}', "2 shape"),
    ('"pages":[],"inputs":[],"checkpoints":[0]}', "3 range"),
    ('"pages":[],"inputs":[],"checkpoints":[1099511627777]}', "3 range"),
    ('"pages":[{"at":1024,"hex":""}],"inputs":[],"checkpoints":[]}', "3 range"),
    ('"pages":[],"inputs":[[1,"mouse",1024]],"checkpoints":[]}', "3 range"),
    ('"pages":[],"inputs":[[1,"timer",4294967296]],"checkpoints":[]}', "3 range"),
    ('"pages":[],"inputs":[[1099511627777,"key",0]],"checkpoints":[]}', "3 range"),
    ('"pages":[],"inputs":[],"checkpoints":[100,100]}', "4 order"),
    ('"pages":[{"at":3,"hex":""},{"at":3,"hex":""}],"inputs":[],"checkpoints":[]}', "4 order"),
    ('"pages":[],"inputs":[[7,"key",1],[6,"key",1]],"checkpoints":[]}', "4 order"),
    ('"pages":[{"at":0,"hex":"0500004"}],"inputs":[],"checkpoints":[100]}', "5 hex"),
    ('"pages":[{"at":0,"hex":"0500004g"}],"inputs":[],"checkpoints":[100]}', "5 hex"),
    # two rules broken
    ('"pages":[],"inputs":[],"checkpoints":[1.5]', "1 json"),
    ('"pages":[],"inputs":[[1,"bell",0]],"checkpoints":[0]}', "2 shape"),
    ('"pages":[],"inputs":[[7,"key",1],[6,"key",256]],"checkpoints":[100,100]}', "3 range"),
    ('"pages":[{"at":0,"hex":"0"}],"inputs":[],"checkpoints":[5000000000000]}', "3 range"),
    ('"pages":[{"at":0,"hex":"0"}],"inputs":[],"checkpoints":[2,1]}', "4 order"),
    # a wrong shape, and what comes after it
    ('"pages":[],"inputs":[{"":0},{"":0}],"checkpoints":[]}', "2 shape"),
    ('"pages":[],"inputs":[{"":0},{"":0},],"checkpoints":[]}', "1 json"),
    ('"pages":[{"at":[[{}]],"hex":{"at":1e400}}],"inputs":[],"checkpoints":[]}', "1 json"),
    ('"pages":[],"inputs":[[1,"key",0,[2,{"three":null}]]],"checkpoints":[]}', "2 shape"),
    ('"pages":[],"inputs":[],"checkpoints":[]}1', "1 json"),
    # a member twice: its last value counts
    ('"pages":[],"inputs":[{"":0}],"inputs":[],"checkpoints":[0]}', "3 range"),
    ('"pages":[{"at":"","hex":"0","at":0}],"inputs":[],"checkpoints":[]}', "5 hex"),
    ('"pages":[],"inputs":[],"inputs":{},"checkpoints":[0]}', "2 shape"),
    # digits are measured in bytes: a letter of two bytes is no digit, and 1,025 of them are too long
    ('"pages":[{"at":0,"hex":"' + "f" * 2_050 + '"}],"inputs":[],"checkpoints":[]}', "3 range"),
    ('"pages":[{"at":0,"hex":"' + "\u00e9" * 1_024 + '"}],"inputs":[],"checkpoints":[]}', "5 hex"),
    ('"pages":[{"at":0,"hex":"' + "\u00e9" * 1_025 + '"}],"inputs":[],"checkpoints":[]}', "3 range"),
    # arrays nest 127 deep, with the object around them
    ('"pages":' + "[" * 126 + "]" * 126 + ',"inputs":[],"checkpoints":[]}', "2 shape"),
    ('"pages":' + "[" * 127 + "]" * 127 + ',"inputs":[],"checkpoints":[]}', "1 json"),
    ('"pages":' + "[" * 200 + "]" * 200 + ',"inputs":[],"checkpoints":[]}', "1 json"),
]
# A part of a session without pages, inputs and checkpoints, what replaces it, and the first fault.
REPLACED: Sequence[tuple[str, str, str]] = [
    ("oberon-session", "oberon-recording", "2 shape"),
    ('"oberon-session"', "1", "2 shape"),
    ('"version":1', '"version":0', "2 shape"),
    ('"version":1', '"version":3', "2 shape"),
    ('"H":0,', "", "2 shape"),
    ('"H":0', '"H":4294967296', "3 range"),
    ('"flags":0', '"flags":16', "3 range"),
    ('"flags":0', '"flags":0,"rate":0,"phase":0', "2 shape"),
    ('"flags":0', '"flags":0,"rate":10', "2 shape"),
    ('"PC":0', '"PC":4194304', "3 range"),
    ("[0,0", "[0", "2 shape"),
    ("0,0]", "0,4294967296]", "3 range"),
]
# Inputs that are no object.
OTHERS: Mapping[bytes, str] = {b"": "1 json", b"[]": "2 shape", b"{\xff}": "1 json"}
# Bytes before and after a session with which it is not JSON: bytes that are not UTF-8, and more than one value.
BESIDE = [(b"\xff", b""), (b"", b"\xff"), (b"", b"{}"), (b" ", b"\n0"), (b"\xef\xbb\xbf", b"")]
# The rest of an initial state in version 2, and the first fault.
BEGUN_2: Sequence[tuple[str, str]] = [
    ("", "2 shape"),
    (',"rate":10', "2 shape"),
    (',"rate":10,"phases":9', "2 shape"),
    (',"rate":"10","phase":9', "2 shape"),
    (',"rate":10,"phase":9,"timer":0', "2 shape"),
    (',"rate":10,"phase":10', "3 range"),
    (',"rate":0,"phase":1', "3 range"),
    (',"rate":4294967296,"phase":0', "3 range"),
    (',"rate":0,"phase":4294967296', "3 range"),
]

BEGIN_3 = BEGIN_2.replace('"version":2', '"version":3') + ',"rate":0,"phase":0'
ANSWERING = '"pages":[{"at":0,"hex":"d0ff005100001080ffffffe7"}],"inputs":[[1,"disk",305419896]],"checkpoints":[1,2,9]}'
# What follows in version 3, and the first fault of a session with a disk.
BEGUN_3: Sequence[tuple[str, str]] = [
    (f"}},{END}", "2 shape"),
    (f',"disk":"0"}},{END}', "2 shape"),
    (f',"disk":-1}},{END}', "2 shape"),
    (f',"disk":4294967296}},{END}', "3 range"),
    (f',"disk":0,"disks":0}},{END}', "2 shape"),
    (',"disk":0},"pages":[],"inputs":[[1,"disk",4294967296]],"checkpoints":[]}', "3 range"),
    (',"disk":0},"pages":[],"inputs":[[1,"disc",0]],"checkpoints":[]}', "2 shape"),
    (',"disk":0},"pages":[],"inputs":[[2,"disk",0],[1,"disk",0]],"checkpoints":[]}', "4 order"),
]

# Stores 5 into the first word of page slot 1, then 0, and then jumps to itself.
STORES = [0x40000005, 0xA0100400, 0x40000000, 0xA0100400, JUMP]
# The changed page is new in the pool at checkpoint 1. At checkpoint 2 it is all zeros again.
STORED_TWICE = recording(
    [STORES, [5]],
    claim(),
    claim(2, {0: 5}, {0: 1, 1: 2}, pc=2),
    claim(4, pc=4, flags=Z),
    claim(5, pc=4, flags=Z),
)
# Sends a byte of zeros at every second step, without end.
SENDS = [0x5100FFC8, 0xA0100000, 0xE7FFFFFE]
MOST_SENT = recording([SENDS], claim(), claim(1 << 21, {1: 0xFFFFFFC8}, pc=2, flags=N, output=bytes(1 << 20)))
# R2 := 1, the round. In each round, for each page: its last word becomes R2. After 64 rounds it sends without end.
FILLS = [
    *(0x42000001, 0x64000010, 0x41000000, 0xA21003FC, 0x41180400, 0x03190004, 0xE9FFFFFC),
    *(0x42280001, 0x43290041, 0xE9FFFFF8, 0x5100FFC8, 0xA0100000, 0xE7FFFFFE),
]
ROUNDS = [2 + 4_100 * number for number in range(1, 64)]
# A value in each part. The program counter is outside of memory, so the machine stops at once, and takes no later input.
WHOLE = (
    '{"format":"oberon-session","version":1,'
    '"start":{"R":[1,2,3,4,5,6,7,8,9,10,11,12,13,14,15,4294967295],"H":17,"PC":4194303,"flags":10},'
    '"pages":[{"at":0,"hex":"05000040FFffffe7aA"},{"at":1,"hex":""},{"at":1023,"hex":"01"}],'
    '"inputs":[[0,"timer",4294967295],[0,"switches",4095],[3,"mouse",121631743],[3,"key",65],[1099511627776,"serial",255]],'
    '"checkpoints":[1,100,1099511627776]}'
)
WHOLE_REGISTERS = {**{number: number + 1 for number in range(15)}, 15: 0xFFFFFFFF}
WHOLE_BEGUN = claim(0, WHOLE_REGISTERS, {0: 1, 1: 2, 1023: 3}, h=17, pc=4_194_303, flags=10)
WHOLE_ENDED = {"h": 17, "pc": 4_194_303, "flags": 10, "stop": 3, "timer": 0xFFFFFFFF, "switches": 4_095}


def _session(words: Sequence[int], counts: Sequence[int]) -> bytes:
    """Returns the session of a machine whose memory begins with these words, with checkpoints at these counts."""
    return Session(memory=page_of(*words), checkpoints=list(counts)).text().encode()


def _filled() -> Recording:
    """Returns the recording of 63 rounds of the program that fills pages, and of one step more."""
    pages, claims = [page_of(*FILLS)], [claim()]
    for number, count in enumerate(ROUNDS, 1):
        last_word = number.to_bytes(4, "little")
        pages += [pages[0][:-4] + last_word, *[(bytes(1020) + last_word)] * 1023]
        table = {slot: 1024 * (number - 1) + slot + 2 for slot in range(1024)}
        registers = {1: 1 << 20, 2: number + 1, 3: (number - 64) & WORD, 4: 1 << 20}
        claims.append(claim(count, registers, table, pc=2, flags=N | C))
    claims.append(claim(ROUNDS[-1] + 1, {**registers, 1: 0}, table, pc=3, flags=Z | C))
    return Recording(2, b"".join(pages), [], claims)


def _recorded() -> Iterator[tuple[bytes, Recording]]:
    """Yields sessions, each with its recording."""
    yield STORED.encode(), named.STORED_RUN
    yield _session([0x400B0000], [LAST]), named.STOPPED
    yield _session(STORES, [2, 4, 5]), STORED_TWICE
    yield _session(SENDS, [1 << 21]), MOST_SENT
    yield _session(FILLS, [*ROUNDS, ROUNDS[-1] + 1]), _filled()
    inputs = [Event(0, 1, 0xFFFFFFFF), Event(0, 2, 4_095), Event(3, 3, 121_631_743), Event(3, 4, 65), Event(LAST, 5, 255)]
    claims = [WHOLE_BEGUN, *(replace(WHOLE_BEGUN, count=count, **WHOLE_ENDED) for count in (1, 100, LAST))]
    yield WHOLE.encode(), recording([[0x40000005, JUMP, 0xAA], [], [1]], *claims, events=inputs)
    full = Session(memory=b"\xff" * 1024)
    yield full.text().encode(), recording([[WORD] * 256], claim())
    yield (BEGIN + END).encode(), named.EMPTY
    for rate, phase in ((0, 0), (10, 9), (WORD, WORD - 1)):
        begun = f'{BEGIN_2},"phase":{phase},"rate":{rate}}},{END}'
        yield begun.encode(), recording([], claim(table={}, rate=rate, phase=phase))
    counting = [
        claim(at, table={}, pc=at, flags=Z, timer=timer, rate=10, phase=phase) for at, timer, phase in ((25, 3, 4), (30, 100, 9))
    ]
    yield (
        f'{BEGIN_2},"rate":10,"phase":9}},"pages":[],"inputs":[[25,"timer",100]],"checkpoints":[25,30]}}'.encode(),
        recording([], claim(table={}, rate=10, phase=9), *counting, events=[Event(25, 1, 100)]),
    )


def _refused() -> Iterator[tuple[bytes, str]]:
    """Yields what is not a session, each with the number and the name of its first fault."""
    yield from ((f"{BEGIN}{rest}".encode(), fault) for rest, fault in AFTER_START)
    yield from (((BEGIN + END).replace(old, new, 1).encode(), fault) for old, new, fault in REPLACED)
    yield from ((f"{BEGIN_2}{rest}}},{END}".encode(), fault) for rest, fault in BEGUN_2)
    yield f'{BEGIN_2},"rate":0,"phase":0}},{ANSWERING}'.encode(), "2 shape"
    yield f'{BEGIN_2},"rate":0,"phase":0,"disk":255}},{END}'.encode(), "2 shape"
    yield from ((before + STORED.encode() + after, "1 json") for before, after in BESIDE)
    yield from OTHERS.items()


def calls() -> Iterator[Call]:
    """Yields what `record` has to print of sessions, and what `check` prints of their recordings."""
    for session, it in _recorded():
        yield writes("record", session, second(it))
        yield prints("check", second(it), f"accepted {len(it.checkpoints) - 1} checkpoints {it.checkpoints[-1].count} steps")
    yield writes("migrate", first(STORED_TWICE), second(STORED_TWICE))
    for session, fault in _refused():
        yield prints("record", session, f"session refused {fault}")
        if b'"version":3' not in session:
            yield prints("record --disk", session, f"session refused {fault}")
    for disk, it in ((255, named.ANSWERED), (WORD, named.claiming(named.claiming(named.ANSWERED, 0, disk=WORD), 1, disk=WORD))):
        session = f'{BEGIN_3},"disk":{disk}}},{ANSWERING}'.encode()
        yield writes("record --disk", session, third(it))
        yield prints("record", session, "session refused 2 shape")
    yield writes("record --disk", STORED.encode(), third(named.STORED_RUN))
    for rest, fault in BEGUN_3:
        yield prints("record --disk", f"{BEGIN_3}{rest}".encode(), f"session refused {fault}")
    for counts in ([(1 << 21) + 2], [LAST], [1 << 21, (1 << 21) + 2]):
        yield prints("record", _session(SENDS, counts), "record refused 1 output")
    # A round more needs 65,537 pages; a program that then sends too much is refused for that.
    yield prints("record", _session(FILLS, [*ROUNDS, ROUNDS[-1] + 4_099]), "record refused 2 pages")
    yield prints("record", _session(FILLS, [*ROUNDS, LAST]), "record refused 1 output")
