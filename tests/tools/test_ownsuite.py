"""examples/suite: the script that makes it, and that it finds each mistake in a machine in C."""

import subprocess
from concurrent.futures import ThreadPoolExecutor

from tests.tools.mistakes import ALL, RIGHT, Mistake
from tests.tools.samples import EXAMPLES, TOP, ToolTest, run

SUITE = EXAMPLES / "suite"
# Mistakes, and recordings that show them.
SHOWN_BY = {
    "ANN": "operations/ann",
    "LS without Z": "branches/bls",
    "divisors below 0": "stops/divisor-below-0",
    "the lane of a byte loaded": "memory/bases",
    "the carry after ADD'": "operations/add-after-a-carry",
    "offsets of 19 bits": "memory/offsets",
    "stores to code": "programs/own-code",
    "a queue of fifteen": "devices/keys",
    "a millisecond for a stop": "stops/inputs",
}


class OwnSuiteTest(ToolTest):
    def test_the_script_makes_it(self) -> None:
        self.assertEqual(run([SUITE / "make", self.folder]).errors, "")
        made = {path.relative_to(self.folder): path.read_bytes() for path in self.folder.rglob("*") if path.is_file()}
        kept = {path.relative_to(SUITE): path.read_bytes() for path in SUITE.rglob("*") if path.suffix in (".orsr", ".md")}
        self.assertEqual(sorted(made), sorted(kept))
        self.assertEqual([str(name) for name in made if made[name] != kept[name]], [])
        self.assertLess(sum(len(content) for content in kept.values()), 2_000_000)

    def false_ones(self, mistake: Mistake) -> list[str]:
        """Returns the recordings that the machine in C with a mistake does not replay as they say."""
        folder = self.folder / mistake.name.replace(" ", "-")
        mistake.write(folder)
        replay, paths = folder / "replay", sorted(SUITE.rglob("*.orsr"))
        subprocess.run(["cc", "-O1", "-w", f"-I{folder}", "-o", replay, TOP / "bench/replay.c"], check=True)
        named = [line.partition(": ") for line in run([replay, *paths]).output.decode().splitlines()]
        self.assertEqual([name for name, _, _ in named], [str(path) for path in paths], mistake.name)
        names = [str(path.relative_to(SUITE).with_suffix("")) for path in paths]
        return [name for name, (_, _, line) in zip(names, named) if not line.startswith("accepted ")]

    def test_an_emulator_in_c_passes_it_and_one_with_a_mistake_does_not(self) -> None:
        with ThreadPoolExecutor(4) as pool:
            right, *wrong = pool.map(self.false_ones, (RIGHT, *ALL))
        self.assertEqual(right, [])
        self.assertEqual([it.name for it, names in zip(ALL, wrong, strict=True) if not names], [])
        shown = {it.name: names for it, names in zip(ALL, wrong, strict=True)}
        for name, shown_by in SHOWN_BY.items():
            self.assertIn(shown_by, shown[name], name)
