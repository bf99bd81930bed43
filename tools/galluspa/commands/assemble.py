"""Assembles sources into a session, a memory image, or a list of its words.

The notation is the one that `galluspa trace` prints, with labels, constants, data, and lines that say what a session
needs.
"""

import sys
from argparse import Namespace
from bisect import bisect_right
from collections.abc import Iterable, Iterator, Sequence
from pathlib import Path
from textwrap import dedent

from galluspa.analysis import endings
from galluspa.assembler.assembly import Assembly, Problem, assembled
from galluspa.assembler import settings
from galluspa.assembler.reference import reference
from galluspa.assembler.sources import read_sources
from galluspa.assembler.statements import INSTRUCTION, Statement
from galluspa.formats.builds import sums_of
from galluspa.formats.symbolfiles import LONGEST_NAME, MOST_BYTES, MOST_LINES, written
from galluspa.formats.symbols import CODE, CONSTANT, DATA, WORDS, Source, Symbol
from galluspa.process.cli import OK, Output, Parser, Refused, refuse_overwriting, write_file, write_output
from galluspa.process.escapes import printable


def parser() -> Parser:
    options = Parser(
        dedent(
            """\
            Assembles a source, or several as one program, and prints its session (JSON) for `galluspa record`. It
            reports all mistakes in one run, each with its file, line and column. `galluspa assemble --reference`
            explains the language."""
        ),
        "galluspa assemble examples/hello.asm -o hello.json",
    )
    options.add_argument("files", metavar="FILE", type=Path, nargs="*", help="the sources, one after the other")
    what = options.add_mutually_exclusive_group()
    what.add_argument("-o", "--output", metavar="SESSION", type=Output, help="write the session into a file")
    what.add_argument(
        "--image", metavar="IMAGE", type=Output, help="write the memory into a file, from byte 0 to the last that is filled"
    )
    what.add_argument(
        "--words",
        action="store_true",
        help="print the number of each word, the word, and the line that it comes from, with its number; "
        "and each line of labels alone",
    )
    what.add_argument(
        "--reference", action="store_true", help="print the page that explains the language, in Markdown; it needs no source"
    )
    options.add_file(
        "--symbols", "FILE", "write a symbol file, too: the labels, the constants, and the line of each instruction", kind=Output
    )
    options.add_machine_options()
    options.add_limit_option("look for an end of the run for this many seconds, if the source says `until`")
    return options


def tell(it: Assembly, problems: Iterable[Problem]) -> None:
    """Tells of each problem, or of each note, with its file, its line and its column."""
    for problem in sorted(set(problems)):
        source = it.source(problem.line)
        print(printable(f"{source.file}:{source.number}:{problem.column}: {problem.text}"), file=sys.stderr)


def refuse_if_wrong(asked: Namespace, it: Assembly, problems: Sequence[Problem]) -> None:
    """Tells of each problem, and refuses sources that have some."""
    if not problems:
        return
    tell(it, problems)
    number, first = len(set(problems)), asked.files[0]
    what = f"{first}" if len(asked.files) == 1 else f"{first} and {len(asked.files) - 1:,} more"
    raise Refused(f"{what}: {number:,} {'mistake' if number == 1 else 'mistakes'}: wrote nothing")


def words_of(it: Assembly) -> Iterator[str]:
    """Yields a line for each word that a statement fills, with its source and that line's number beside the first of them; and
    a line for labels that are alone in theirs."""
    memory = bytes(it.memory) + bytes(-len(it.memory) % 4)
    has_files = len({line.file for line in it.sources}) > 1
    for statement in it.statements:
        line = it.source(statement.line)
        number = f"{line.file}:{line.number}" if has_files else f"{line.number}"
        source = f"{printable(number):>5}  {printable(' '.join(statement.source.split()))}"
        if statement.labels and not statement.size:
            yield f"{'':6}  {'':8}  {source}"
        for at in range(statement.here // 4, -(-(statement.here + statement.size) // 4) if statement.size else 0):
            word = int.from_bytes(memory[4 * at : 4 * at + 4], "little")
            yield f"{at:6}  {word:08X}  {source}".rstrip()
            source = ""


def symbols_of(it: Assembly) -> Iterator[Symbol]:
    """Yields the labels, each up to the next one or to the end of what is filled, and the constants."""
    code = {statement.here for statement in it.statements if statement.does == INSTRUCTION}
    filled = sorted((region.start, region.end) for region in it.regions if region.end > region.start)
    addresses = sorted(set(it.labels.values()))
    for name, at in it.labels.items():
        region = bisect_right(filled, (at, WORDS)) - 1
        end = filled[region][1] if region >= 0 else at
        following = bisect_right(addresses, at)
        end = min(end, *addresses[following : following + 1], end)
        yield _symbol(it, name, at, max(0, end - at), CODE if at in code else DATA)
    for name, statement in it.constants.items():
        value = it.named(statement.name).number
        if -WORDS // 2 <= value < WORDS:
            yield _symbol(it, name, value % WORDS, 0, CONSTANT)


def _symbol(it: Assembly, name: str, at: int, size: int, kind: str) -> Symbol:
    line = it.source(it.lines[name])
    return Symbol(at, size, kind, name, line.file, line.number)


def symbol_file(it: Assembly) -> bytes:
    """Returns the symbol file of sources: what is too long for one is left out."""

    def line_of(statement: Statement) -> Source:
        line = it.source(statement.line)
        return Source(statement.here, line.file, line.number)

    symbols = (symbol for symbol in symbols_of(it) if len(symbol.name) <= LONGEST_NAME)
    lines = (line_of(statement) for statement in it.statements if statement.does == INSTRUCTION)
    code = (at for it in it.statements if it.does == INSTRUCTION for at in range(it.here, it.here + it.size, 4))
    sums = sums_of(bytes(it.memory), code, (line.file for line in it.sources))
    text = (written(symbols, lines) + "".join(f"{line}\n" for line in sums)).encode()
    if text.count(b"\n") >= MOST_LINES or len(text) > MOST_BYTES:
        raise Refused(f"a symbol file has at most {MOST_LINES:,} lines and {MOST_BYTES:,} bytes: leave out --symbols")
    return text


def end_of(asked: Namespace, it: Assembly, made: settings.Settings) -> int | None:
    """Returns the count at which the run ends by the line with until; None without such a line."""
    if not made.until:
        return None
    try:
        return endings.end_of(asked, made.session, made.end, made.most)
    except endings.NoEnd as why:
        refuse_if_wrong(asked, it, [Problem(made.until.line, made.until.name.column, str(why))])
        raise


def main(asked: Namespace) -> int:
    """Prints or writes the session, the image or the words."""
    if asked.reference:
        sys.stdout.write(reference())
        return OK
    if not asked.files:
        raise Refused("name a source (see galluspa assemble --help)")
    sources = read_sources(asked.files)
    refuse_overwriting(filter(None, [asked.output, asked.image, asked.symbols]), {line.file for line in sources})
    it = assembled(sources)
    made = settings.settings_of(it)
    refuse_if_wrong(asked, it, it.problems)
    symbols = symbol_file(it) if asked.symbols else b""
    if asked.words:
        print("\n".join(words_of(it)))
    elif asked.image:
        write_file(asked.image, bytes(it.memory))
    else:
        settings.set_checkpoints(it, made, end_of(asked, it, made))
        refuse_if_wrong(asked, it, it.problems)
        tell(it, settings.notes_of(made))
        write_output(asked.output, made.session.text())
    if asked.symbols:
        write_file(asked.symbols, symbols)
    return OK
