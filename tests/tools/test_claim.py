"""galluspa claim: false recordings made from true ones."""

from tests.tools.samples import JUMP, PROGRAM, STORED, ToolTest, record, run, session, tool


class ClaimTest(ToolTest):
    def test_each_part_can_be_claimed_falsely(self) -> None:
        stored = self.file("stored.orsr", STORED)
        newer = self.file("newer.orsr", run([PROGRAM, "migrate"], STORED).output)
        timed = session([JUMP], [100])
        timed["start"].update(rate=10, phase=3)
        both, of_timer = (stored, newer), (self.file("timed.orsr", record({**timed, "version": 2})),)
        texts = {"R15": both, "flags": both, "serial": both, "rate": of_timer, "phase": of_timer}
        for name in (*(f"R{at}" for at in range(15)), "H", "PC", "timer", "switches", "LEDs", "mouse", "stop", *texts):
            value = {"stop": "4", "phase": "9"}.get(name, "0xF")
            for recorded in texts.get(name, (stored,)):
                ran = tool("claim", recorded, "--at", 1, "--set", f"{name}={value}")
                self.assertEqual((ran.errors, ran.output[4]), ("", recorded.read_bytes()[4]))
                self.assertEqual(run([PROGRAM], ran.output).output.decode(), f"false checkpoint 1 at 100 part {name}\n")
