"""The reader and the writer of recordings, in both versions."""

import hashlib
import random
import unittest
from dataclasses import replace

from galluspa.formats import recording
from galluspa.formats.recording import PLACES, STATE_WORDS, Checkpoint, Event, page_of, table_of
from galluspa.process.cli import Refused
from tests.tools.samples import EXAMPLES, PROGRAM, STORED, claim, encoded, in_register, record, run, session

# A recording with a value of its own in each field, and its bytes by version, written by hand from docs/formats.md.
POOL = [page_of(0x40000005), bytes(1020) + bytes([1, 2, 3, 4])]
EVENTS = [Event(7, 1, 0x11223344), Event(0x0102030405, 5, 0xFE)]
CHECKPOINTS = [
    Checkpoint(
        0,
        registers=tuple(range(0x100, 0x110)),
        h=0x01020304,
        pc=0x3FFFFE,
        flags=0b1010,
        stop=3,
        timer=0xDEADBEEF,
        rate=10,
        phase=9,
        switches=0xABC,
        leds=0x5A,
        mouse=0x05155157,
        serial=0x141,
        keys=b"AB",
        table=table_of({0: 1, 1023: 2}),
    ),
    Checkpoint(0x1234, pc=2, stop=4, timer=1, rate=10, output=b"Hi!", table=table_of({0: 1, 1: 2, 1023: 2})),
]
FIXED_FIELDS = [
    """0000000000000000
    00010000 01010000 02010000 03010000 04010000 05010000 06010000 07010000
    08010000 09010000 0a010000 0b010000 0c010000 0d010000 0e010000 0f010000
    04030201 feff3f00 0a000000 03000000 efbeadde bc0a0000 5a000000 57511505 41010000
    02000000 41420000000000000000000000000000 00000000""",
    """3412000000000000
    00000000 00000000 00000000 00000000 00000000 00000000 00000000 00000000
    00000000 00000000 00000000 00000000 00000000 00000000 00000000 00000000
    00000000 02000000 00000000 04000000 01000000 00000000 00000000 00000000 00000000
    00000000 00000000000000000000000000000000 03000000""",
]
TABLES = {
    1: ["01000000" + 1022 * "00000000" + "02000000", "01000000 02000000" + 1021 * "00000000" + "02000000"],
    2: ["0a000000 09000000 02000000 00000000 01000000 ff030000 02000000", "0a000000 00000000 01000000 01000000 02000000"],
}
GOLDEN = {
    version: bytes.fromhex(
        f"4f525352 0{version}000000 02000000 02000000 02000000 00000000"
        + "05000040"
        + 1020 * "00"
        + 1020 * "00"
        + "01020304"
        + "0700000000000000 01000000 44332211"
        + "0504030201000000 05000000 fe000000"
        + FIXED_FIELDS[0]
        + tables[0]
        + FIXED_FIELDS[1]
        + tables[1]
        + "486921"
    )
    for version, tables in TABLES.items()
}


def at_rate_0(checkpoint: Checkpoint) -> Checkpoint:
    """Returns what version 1 keeps of a checkpoint."""
    return replace(checkpoint, rate=0, phase=0)


def some_claims(chance: random.Random) -> list[Checkpoint]:
    """Checkpoints with something in each field; in each, a few places change."""
    claims = []
    pages = {5: 1}
    for k in range(20):
        registers, words = tuple(chance.getrandbits(32) for _ in range(16)), {it: chance.getrandbits(32) for it in STATE_WORDS}
        keys = bytes(range(1, chance.randrange(17) + 1))
        parts = {**words, "registers": registers, "rate": 10, "phase": k % 10, "keys": keys, "output": bytes(range(k))}
        claims.append(claim(100 * k, pages, **parts))
        pages = {**pages, **{chance.randrange(PLACES): chance.randrange(5) for _ in range(3)}}
    return claims


class RecordingTest(unittest.TestCase):
    def assert_reads(self, text: bytes, version: int, checkpoints: list[Checkpoint], events: list[Event]) -> None:
        """The bytes are read to these parts; version 1 keeps no rate and no phase."""
        read = recording.read(text)
        self.assertEqual((read.version, read.events), (version, events))
        wanted = map(at_rate_0, checkpoints) if version == 1 else checkpoints
        self.assertEqual([replace(it, start=0) for it in read.checkpoints], list(wanted))

    def test_bytes_that_were_written_by_hand(self) -> None:
        for version, golden in GOLDEN.items():
            self.assertEqual(encoded(version, POOL, CHECKPOINTS, EVENTS), golden)
            self.assert_reads(golden, version, CHECKPOINTS, EVENTS)
            self.assertEqual(b"".join(map(recording.read(golden).page, (1, 2))), b"".join(POOL))
        migrated = {version: run([PROGRAM, "migrate"], golden).output for version, golden in GOLDEN.items()}
        self.assertEqual(migrated, {1: encoded(2, POOL, map(at_rate_0, CHECKPOINTS), EVENTS), 2: GOLDEN[2]})

    def test_what_is_written_is_read_again(self) -> None:
        claims = some_claims(random.Random(1))
        events = [Event(7, 1, 70000), Event(7, 4, 65)]
        for version in (1, 2):
            self.assert_reads(encoded(version, map(page_of, range(1, 5)), claims, events), version, claims, events)

    def test_the_stored_run_is_read_from_both_versions(self) -> None:
        claims = [claim(0), claim(100, registers=in_register(0, 5), pc=100)]
        self.assertEqual(encoded(1, [page_of(0x40000005)], claims), STORED)
        self.assertEqual(hashlib.sha256(STORED).hexdigest(), "e9db2f05971668f2c01c7971bdb56a3b6335032e5f6d41d96ef339deca8afdd3")
        text = encoded(2, [page_of(0x40000005)], claims)
        self.assertEqual(len(text), 1344)
        self.assertEqual([it.start for it in recording.read(STORED).checkpoints], [1048, 5276])
        self.assertEqual([it.start for it in recording.read(text).checkpoints], [1048, 1200])
        self.assert_reads(STORED, 1, claims, [])
        self.assert_reads(text, 2, claims, [])

    def test_what_the_program_wrote_is_written_again(self) -> None:
        inputs = [(3, "mouse", 0x73FF3FF), (9, "key", 65), (9, "serial", 66)]
        timed = session([0x5100FFC8, 0xA1100000, 0xE7FFFFFD], range(1, 40), inputs)
        timed["start"].update(rate=7, phase=6)
        for text in (
            (EXAMPLES / "face.orsr").read_bytes(),
            (EXAMPLES / "face-version-1.orsr").read_bytes(),
            record({**timed, "version": 2}),
            record((EXAMPLES / "clock.json").read_bytes()),
            STORED,
        ):
            self.assertEqual(recording.write(recording.read(text)), text)

    def test_memory_is_read_through_the_table(self) -> None:
        face = recording.read((EXAMPLES / "face.orsr").read_bytes())
        last, start, end = face.checkpoints[-1], recording.DISPLAY_START, recording.DISPLAY_END
        self.assertEqual((face.word(last, 0), face.memory(last, 0, 8).hex()), (0x6D00000E, "0e00006d007fd64d"))
        self.assertEqual(len(face.memory(last, start, end)), 98304)
        self.assertEqual(face.memory(last, 0, 1 << 20)[start:end], face.memory(last, start, end))

    def test_other_texts_are_refused_without_a_traceback(self) -> None:
        chance = random.Random(2)
        for end in (0, 3, 23, 24, 1000, 5000, 9000):
            with self.assertRaises(Refused):
                recording.read(STORED[:end])
        for _ in range(300):
            text = bytearray(STORED)
            text[chance.randrange(24)] = chance.randrange(256)
            try:
                recording.read(bytes(text))
            except Refused:
                pass
