"""The recipe of docs/suites.md that needs no server, run exactly as shown: make."""


from tests.tools.samples import STORED, Ran, rejoining, run
from tests.tools.test_recipes import SECONDS, RecipesTest, recipe


class MakeTest(RecipesTest):
    def setUp(self) -> None:
        super().setUp()
        self.want("make")
        self.file("Makefile", recipe("make"))

    def make(self) -> Ran:
        """Runs the recipe."""
        return run(["make", "-j", "4"], cwd=self.folder, env=self.environment(), timeout=SECONDS)

    def assert_made(self, ran: Ran, status: int, checks: int, *told: bytes) -> None:
        """The recipe ended with a status, did a number of checks, and printed these lines of recordings."""
        self.assertEqual((ran.status, ran.output.count(b"oberon_replay check")), (status, checks), ran.errors)
        lines = sorted(line for line in ran.output.splitlines() if line.startswith(b"suite/"))
        self.assertEqual(lines, sorted(told))

    def test_checks_what_is_new(self) -> None:
        self.assert_made(self.make(), 0, 5)
        self.assertEqual((self.folder / "suite/stored.line").read_text(), "accepted 1 checkpoints 100 steps\n")
        self.assert_made(self.make(), 0, 0)
        self.file("suite/false.orsr", rejoining(9))
        told = b"suite/false.line: false checkpoint 1 at 2 part R5"
        self.assert_made(self.make(), 2, 1, told)
        self.assert_made(self.make(), 2, 0, told)

    def test_a_check_that_is_killed_passes_at_no_run(self) -> None:
        self.assert_made(self.make(), 0, 5)
        self.file("suite/new.orsr", rejoining(9))
        self.killing(True)
        for _ in range(2):
            self.assert_made(self.make(), 2, 1)
            self.assertFalse((self.folder / "suite/new.line").exists())
        self.killing(False)
        self.assert_made(self.make(), 2, 1, b"suite/new.line: false checkpoint 1 at 2 part R5")
        self.file("suite/new.line", "")
        self.assert_made(self.make(), 2, 0, b"suite/new.line: ")

    def test_names_that_make_cannot_read_are_refused(self) -> None:
        for name, shown in (
            ("with a space", "suite/with a space.orsr"),
            (";touch owned;\x1b[2J", "suite/?touch owned???2J.orsr"),
            ("$(shell touch owned)", "suite/??shell touch owned?.orsr"),
        ):
            path = self.file(f"suite/{name}.orsr", STORED)
            ran = self.make()
            self.assertEqual((ran.status, ran.output), (2, b""))
            self.assertIn(f"want names of letters, digits and . _ - alone: {shown}.", ran.errors)
            self.assertFalse((self.folder / "owned").exists())
            path.unlink()
        self.assert_made(self.make(), 0, 5)
