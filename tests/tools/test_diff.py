"""galluspa diff: the first input, checkpoint and part in which two recordings differ."""

import json
from typing import Any

from galluspa.formats.recording import Event, page_of
from tests.tools.samples import EXAMPLES, JUMP, ToolTest, claim, encoded, in_register, record, session

WORDS = page_of(0x45000001, 0xE7FFFFFE)


class DiffTest(ToolTest):
    def rows(self, one: bytes, other: bytes) -> list[list[str]]:
        """Returns the rows that it prints of two that differ, each as its cells."""
        head, *rows = self.lines_of("diff", self.file("a.orsr", one), self.file("b.orsr", other), status=1)
        self.assertEqual(head.split(), [f"{self.folder}/a.orsr", f"{self.folder}/b.orsr"])
        width = head.index(str(self.folder)), head.rindex(str(self.folder))
        return [[line[: width[0]].strip(), line[width[0] : width[1]].strip(), line[width[1] :]] for line in rows]

    def test_what_is_the_same_is_so_in_any_version(self) -> None:
        face, other = (EXAMPLES / name for name in ("face.orsr", "face-version-1.orsr"))
        told = ["the same: 0 inputs, and 4 checkpoints after the initial state"]
        self.assertEqual(self.lines_of("diff", face, other), told)
        # The same pages, in another order and with one that nothing names.
        pool, tables = [page_of(JUMP), page_of(1), page_of(2)], ({0: 1, 5: 2}, {0: 3, 5: 2})
        one, another = encoded(2, pool[:2], [claim(0, tables[0])]), encoded(2, pool[::-1], [claim(0, tables[1])])
        self.lines_of("diff", self.file("a.orsr", one), self.file("b.orsr", another))

    def test_the_first_input_that_differs(self) -> None:
        def of(*inputs: tuple) -> bytes:
            return record(session([JUMP], [100], inputs))

        one = of((5, "key", 65), (9, "mouse", 7), (9, "timer", 3))
        for other, row in (
            (of((5, "key", 65), (10, "mouse", 7), (11, "timer", 3)), ["input 1", "at 9 mouse 7, 0", "at 10 mouse 7, 0"]),
            (of((5, "key", 66), (9, "mouse", 7), (9, "timer", 3)), ["input 0", "at 5 key 41H (A)", "at 5 key 42H (B)"]),
            (of((5, "serial", 65), (9, "mouse", 7), (9, "timer", 3)), ["input 0", "at 5 key 41H (A)", "at 5 serial 41H (A)"]),
            (of((5, "key", 65), (9, "mouse", 7)), ["input 2", "at 9 timer 3", "none"]),
        ):
            self.assertEqual(self.rows(one, other)[0], row)
        rows = self.rows(one, of((5, "key", 65), (9, "mouse", 6), (9, "timer", 3)))
        self.assertEqual([row[0] for row in rows], ["input 1", "checkpoint 1", "mouse"])

    def test_the_first_part_that_differs(self) -> None:
        same: dict[str, Any] = {"registers": in_register(3, 7), "keys": b"ab", "output": b"Hello, world"}
        pool = [WORDS, page_of(1, 2, 3), page_of(1, 2, 4)]
        pages = {0: 1, 7: 2}

        def of(pages: dict[int, int], **parts: object) -> bytes:
            return encoded(2, pool, [claim(0), claim(50, **same), claim(60, pages, **(same | parts))])

        one = of(pages)
        for other, row in (
            (of({0: 1, 7: 3}, registers=in_register(3, 9), pc=5), ["R3", "00000007", "00000009"]),
            (of(pages, flags=9, stop=2), ["flags", "----", "N--V"]),
            (of(pages, stop=2, keys=b""), ["stop", "running", "divisor"]),
            (of({0: 1, 7: 3}, keys=b"a", output=b"x"), ["keys", "61 62", "61"]),
            (of(pages, rate=9), ["rate", "0", "9"]),
            (of({0: 1}, output=b"Help"), ["out, from byte 3 on", "6C 6F 2C 20 77 6F 72 6C .. of 12 bytes", "70 of 4 bytes"]),
            (of(pages, output=b"Hello"), ["out, from byte 5 on", "2C 20 77 6F 72 6C 64 of 12 bytes", "none, of 5 bytes"]),
            (of({0: 1, 7: 3}), ["page 7, Mem[001C08]", "00000003", "00000004"]),
            (of({0: 1, 7: 2, 1000: 2}), ["page 1000, Mem[0FA000], of the display", "00000000", "00000001"]),
        ):
            self.assertEqual(self.rows(one, other), [["checkpoint 2", "at 60", "at 60"], row])

    def test_pages_of_the_same_numbers_are_compared(self) -> None:
        """Both claims are the same but for what the page has that they name."""
        one, other = (encoded(2, [WORDS, page_of(5, value)], [claim(0), claim(9, {0: 1, 3: 2})]) for value in (6, 7))
        self.assertEqual(self.rows(one, other), [["checkpoint 1", "at 9", "at 9"], ["page 3, Mem[000C04]", "00000006", "00000007"]])

    def test_checkpoints_of_other_counts(self) -> None:
        one, other, shorter = (encoded(2, [WORDS], [claim(at) for at in counts]) for counts in ((0, 5, 9), (0, 5, 8), (0, 5)))
        self.assertEqual(self.rows(one, other), [["checkpoint 2", "at 9", "at 8"]])
        self.assertEqual(self.rows(one, shorter), [["checkpoint 2", "at 9", "none"]])
        self.assertEqual(self.rows(shorter, one), [["checkpoint 2", "none", "at 9"]])

    def test_an_initial_state_that_differs(self) -> None:
        keys = json.loads((EXAMPLES / "keys.json").read_text())
        other = {**keys, "start": {**keys["start"], "H": 3}}
        self.assertEqual(self.rows(record(keys), record(other))[0], ["checkpoint 0", "at 0", "at 0"])

    def test_many_inputs_and_checkpoints_take_no_minutes(self) -> None:
        events = [Event(at, 3, at & 1) for at in range(1_000_000)]
        claims = [claim(at, {0: 1}) for at in range(0, 4097 * 300, 300)]
        one = encoded(2, [WORDS], claims, events)
        events[-1] = Event(events[-1].count, 3, 5)
        row = self.rows(one, encoded(2, [WORDS], claims, events))[0]
        self.assertEqual(row, ["input 999999", "at 999999 mouse 1, 0", "at 999999 mouse 5, 0"])
