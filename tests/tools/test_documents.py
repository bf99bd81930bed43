"""What the documents show of the program and the tools: commands and their output, tables, pictures, links, the manual page."""

import io
import re

from PIL import Image

from galluspa.commands import commands
from tests.tools.console import ENVIRONMENT, PARTS, commands_of, laid_out
from tests.tools.samples import EXAMPLES, PROGRAM, TOP, ToolTest, run

GUIDES = ("recording-your-system", "suites", "debugging", "testing-an-emulator", "symbols", "from-python")
SHOWING = [*sorted((TOP / "docs/lessons").glob("*.md")), *(TOP / f"docs/{name}.md" for name in GUIDES)]
# What shows the commands of the program, in its crate's folder, and those of the tools, at the top.
OVERVIEWS = (TOP / "README.md", TOP / "tools/README.md")
CRATES = sorted(TOP.glob("crates/*/README.md"))
LINKING = [
    TOP / "README.md",
    *sorted(TOP.glob("*/README.md")),
    EXAMPLES / "suite/README.md",
    *sorted(TOP.glob("docs/*.md")),
    *sorted(TOP.glob("docs/lessons/*.md")),
    *CRATES,
]
QUOTED = re.compile(r"^```text\n(.*?)^```$", re.DOTALL | re.MULTILINE)
SOURCE = re.compile(r"`((?:src|specs)/[\w./]+)`")
LINK = re.compile(r"\]\(([^)#:]+)(?:#[^)]*)?\)")


class DocumentsTest(ToolTest):
    def test_commands_print_what_is_shown(self) -> None:
        for document in SHOWING:
            folder = laid_out(self.folder / document.stem)
            for command in commands_of(document.read_text()):
                if fault := command.fault(folder):
                    self.fail(f"{document.name}: {fault}")

    def test_the_program_prints_what_the_readme_shows(self) -> None:
        folder = self.folder / "crates/oberon_replay"
        folder.mkdir(parents=True)
        (folder / "stdin").symlink_to(TOP / "crates/oberon_replay/stdin")
        (self.folder / "examples").symlink_to(EXAMPLES)
        shown = [it for document in OVERVIEWS for it in commands_of(document.read_text())]
        self.assertGreaterEqual(len(shown), 8)
        for command in shown:
            self.assertEqual(command.fault(folder), "")

    def test_the_tools_run_as_the_readme_shows_them(self) -> None:
        for part in PARTS:
            (self.folder / part).symlink_to(TOP / part)
        lines = [
            line for document in OVERVIEWS for line in document.read_text().splitlines() if line.startswith(("galluspa ", "cc "))
        ]
        self.assertGreaterEqual(len(lines), 20)
        for line in lines:
            ran = run(["bash", "-c", line], cwd=self.folder, env=ENVIRONMENT)
            self.assertEqual((ran.status, ran.errors), (0, ""), line)

    def test_a_report_is_checked_as_the_document_shows(self) -> None:
        for part in PARTS:
            (self.folder / part).symlink_to(TOP / part)
        (self.folder / "web").symlink_to(TOP / "web")
        section = (TOP / "docs/live.md").read_text().partition("## A report that checks itself")[2].partition("\n## ")[0]
        script = "".join(re.findall(r"^```sh\n(.*?)^```$", section, re.DOTALL | re.MULTILINE))
        self.assertIn("galluspa recording-of", script)
        ran = run(["bash", "-ec", script], cwd=self.folder, env=ENVIRONMENT)
        self.assertEqual((ran.output, ran.errors), (b"accepted 4 checkpoints 20000000 steps\n", ""))

    def test_links_lead_somewhere(self) -> None:
        for document in LINKING:
            for link in LINK.findall(document.read_text()):
                self.assertTrue((document.parent / link).exists(), f"{document.name}: {link}")

    def test_the_kit_is_the_one_that_the_documents_and_the_page_name(self) -> None:
        """Machines have kits of one logic whose names end in different letters, so the logic is what has to agree."""
        line = r"rattle-kit-(\S+) logic ([0-9a-f]{16})"
        kit = re.fullmatch(line, run(["rt", "version"]).output.decode().strip())
        assert kit
        for document in (TOP / "README.md", TOP / "docs/proved.md", TOP / "web/galluspa.html"):
            named = set(re.findall(line, document.read_text()))
            self.assertEqual({(name.rstrip("abcdefghijklmnopqrstuvwxyz"), logic) for name, logic in named},
                             {(kit[1].rstrip("abcdefghijklmnopqrstuvwxyz"), kit[2])}, document.name)  # fmt: skip
            self.assertEqual(len(named), 1, document.name)

    def test_the_trusted_crates_are_those_that_are_used(self) -> None:
        lines = [line.partition(":") for line in (TOP / "crates.txt").read_text().splitlines() if ":" in line and line[0] != "#"]
        ours = {name.split()[0] for name, _, _ in lines}
        # `core` and `std_alloc` are parts of the kit's own library
        ported = {name for _, _, names in lines for name in names.split()} - ours - {"core", "std_alloc"}
        for document in (TOP / "README.md", TOP / "docs/proved.md"):
            trusted = re.search(r"the ported crates ([^;]*);", document.read_text())
            assert trusted
            self.assertEqual(set(re.findall(r"`(\w+)`", trusted[1])), ported, document.name)

    def test_crates_quote_their_contracts_and_name_their_files(self) -> None:
        for document in CRATES:
            sources = "".join(path.read_text() for path in sorted(document.parent.glob("src/*.rt")))
            for contract in QUOTED.findall(document.read_text()):
                self.assertIn(contract, sources, document)
            for name in SOURCE.findall(document.read_text()):
                self.assertTrue((document.parent / name).exists(), f"{document}: {name}")

    def test_the_face_is_the_one_that_the_program_draws(self) -> None:
        drawn = run([PROGRAM, "screen", "--at", 4], (EXAMPLES / "face.orsr").read_bytes()).output
        shown = Image.open(TOP / "docs/pictures/face.png").tobytes()
        self.assertEqual(shown, Image.open(io.BytesIO(drawn)).tobytes())

    def test_the_manual_page_has_no_fault(self) -> None:
        page = TOP / "docs/oberon_replay.1"
        ran = run(["mandoc", "-Tlint", page])
        self.assertEqual((ran.output + ran.errors.encode(), ran.status), (b"", 0))
        for word in ("check", "combine", "record", "screen", "migrate", "--workers", "--cut", "--shard", "--at"):
            self.assertIn(word.lstrip("-"), page.read_text())

    def test_each_subcommand_is_shown_by_a_page(self) -> None:
        """tools/README.md names one page for each, and the page has a command line with it, or says what it does."""
        rows = re.findall(r"^\| (\[.*\)) \| (`.*`) \|$", (TOP / "tools/README.md").read_text(), re.MULTILINE)
        shown = {name: pages for pages, names in rows for name in re.findall(r"`([a-z-]+)`", names)}
        self.assertEqual(sorted(shown), sorted(it.name for it in commands(is_clone=True)))
        for name, pages in shown.items():
            paths = [TOP / "tools" / (link or "README.md") for link in re.findall(r"\]\(([^)#]*)", pages)]
            self.assertTrue(any(re.search(rf"\b(galluspa|oberon_replay) {name}\b", path.read_text()) for path in paths), name)
