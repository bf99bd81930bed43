"""galluspa explain of sessions: the member that breaks a rule."""

import json
import tracemalloc

from galluspa.engine.program import Program
from galluspa.engine.programcommands import explain_session
from galluspa.formats.sessionfaults import explained
from tests.tools.samples import EXAMPLES, JUMP, ToolTest, session, tool

WHOLE = session([JUMP], [5, 9], [(1, "key", 65), (3, "mouse", 7)])


def changed(*path: str | int, to: object) -> bytes:
    """Returns a session with one of its values changed."""
    made = json.loads(json.dumps(WHOLE))
    inner = made
    for step in path[:-1]:
        inner = inner[step]
    inner[path[-1]] = to
    return json.dumps(made).encode()


# Sessions that are refused, each with the number of its fault and with what is told of it.
REFUSED = (
    (b"{", 1, "line 1, column 2 is wrong"),
    (b'{"a": "\xff"}', 1, "byte 7 is ff, which is not UTF-8"),
    (b'{"a": NaN}', 1, "a number or a constant that is wrong"),
    (b'{"a":' + b"[" * 200, 1, "line 1, column 132 nests more than 127 deep"),
    (json.dumps(WHOLE)[:-1].encode() + b",}", 1, "is wrong"),
    (b'{"format": 1}', 2, "the session lacks version"),
    (changed("more\x1b[2J", to=1), 2, r'has "more\u001b[2J"'),
    (changed("version", to=4), 2, "version is 4"),
    (changed("format", to="x" * 500), 2, 'format is "xxxx'),
    (changed("start", to=[]), 2, "start is []"),
    (changed("start", "rate", to=0), 2, 'start has "rate"'),
    (changed("start", "R", to=[0] * 15), 2, "start.R has 15 numbers"),
    (changed("start", "R", 3, to=1.0), 2, "start.R[3] is 1.0"),
    (changed("start", "H", to=-1), 2, "start.H is -1"),
    (changed("pages", 0, "hex", to=5), 2, "pages[0].hex is 5"),
    (changed("pages", 0, to={"at": 0}), 2, "pages[0] lacks hex"),
    (changed("inputs", 1, 1, to="pen"), 2, 'inputs[1][1] is "pen"'),
    (changed("inputs", 0, to=[1, "key"]), 2, "inputs[0] is [1,"),
    (changed("checkpoints", 1, to=1 << 64), 2, "checkpoints[1] is 1.8446"),
    (changed("start", "R", 15, to=1 << 32), 3, "start.R[15] is 4294967296"),
    (changed("start", "PC", to=1 << 22), 3, "start.PC"),
    (changed("pages", 0, "at", to=1024), 3, "pages[0].at is 1024"),
    (changed("pages", 0, "hex", to="0" * 2050), 3, "pages[0].hex"),
    (changed("inputs", 0, 2, to=256), 3, "inputs[0][2] is 256"),
    (changed("inputs", 1, 2, to=1 << 11), 3, "inputs[1][2]"),
    (changed("inputs", 1, 0, to=(1 << 40) + 1), 3, "inputs[1][0]"),
    (changed("checkpoints", 0, to=0), 3, "checkpoints[0] is 0"),
    (changed("checkpoints", to=[*range(1, 4098)]), 3, "checkpoints has 4,097 items"),
    (changed("inputs", 1, 0, to=0), 4, "inputs[1][0] is 0, after 1"),
    (changed("checkpoints", 1, to=5), 4, "checkpoints[1] is 5"),
    (changed("pages", to=[{"at": 1, "hex": ""}] * 2), 4, "pages[1].at is 1, after 1"),
    (changed("pages", 0, "hex", to="0x"), 5, 'pages[0].hex has "x" at 1'),
    (changed("pages", 0, "hex", to="000"), 5, "has 3 digits"),
)


class SessionTest(ToolTest):
    """Sessions that are refused: what is told of each, after the program said which rule it breaks."""

    def test_the_member_its_index_and_its_rule_are_told(self) -> None:
        for refused, fault, told in REFUSED:
            answer = Program.find(None).record(refused)
            self.assertEqual(answer.session_fault, fault, refused[:200])
            lines = list(explain_session(refused, answer))
            self.assertEqual(lines[:2], [answer.line, ""])
            self.assertIn(told, lines[2])
            self.assertTrue(lines[3].startswith("rule   "), lines)

    def test_the_tool_ends_as_the_program_does(self) -> None:
        ran = tool("explain", self.file("it.json", changed("version", to=4)))
        told = ("session refused 2 shape\n\nversion is 4\nrule   version is 1, 2 or 3\n", "", 2)
        self.assertEqual((ran.output.decode(), ran.errors, ran.status), told)
        ran = tool("explain", EXAMPLES / "keys.json")
        self.assertRegex(ran.output.decode(), r"^the session breaks no rule: its recording has [\d,]+ bytes\n$")
        self.assertEqual((ran.errors, ran.status), ("", 0))
        sends = json.dumps(session([0x5100FFC8, 0xA0100000, 0xE7FFFFFE], [1 << 30])).encode()
        ran = tool("explain", self.file("it.json", sends))
        self.assertEqual((ran.output.decode().splitlines()[0], ran.status), ("record refused 1 output", 2))
        self.assertIn("at most 1,048,576 bytes sent", ran.output.decode())

    def test_a_session_of_many_parts_is_not_taken_apart(self) -> None:
        text = b'{"inputs":[' + b'{"":0},' * 400_000 + b"0]}"
        tracemalloc.start()
        self.addCleanup(tracemalloc.stop)
        self.assertEqual(explained(text, 2).found, "has 400,001 objects")
        self.assertLess(tracemalloc.get_traced_memory()[1], 1_000_000)
