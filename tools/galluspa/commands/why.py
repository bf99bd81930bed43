"""Says where a value in the run of a recording comes from: who wrote it, from which values, who wrote these, and so on.

Each link is the last write before a count, which the proved library finds. It shows the machine, whatever the recording claims.
"""

import json
from argparse import Namespace
from pathlib import Path
from textwrap import dedent

from galluspa.analysis.calls import add_stack_limit_option
from galluspa.analysis.origintexts import lines, objects
from galluspa.analysis.writers import LINKS, MOST_LINKS, Writers, origins_asked
from galluspa.engine.opening import opened
from galluspa.engine.past import Past
from galluspa.engine.tracing import add_workers_option
from galluspa.formats.sessions import COUNTS
from galluspa.formats.sourcetext import Sources, add_directory_option
from galluspa.process.cli import OK, Failed, Parser
from galluspa.process.timelimit import Limit, TimeIsUp


def parser() -> Parser:
    options = Parser(
        dedent(
            """\
            Says where a value comes from: which instruction wrote a register, a word of memory or a dot last, from
            which values it made that, which instructions wrote these, and so on to constants, inputs and the initial
            memory. Each link is found by a search, and so it is the last write indeed. It follows values, and not the
            branches that led to an instruction; of loads and stores also the register with the address, unless that is
            the stack pointer. Copies are followed first. A value that a call left in its frame, and that is read there after
            the call has returned, is marked so. A PART is
              R0 to R15, SP, LNK, H    a register
              flags, LEDs              the flags N, Z, C and V; the LEDs
              ADDRESS, FIRST-LAST      a word of memory, or some of its bytes
              NAME, NAME+8             a word that a symbol file names
              *SP+8, Mem[SP+8]         the word at the address that this is then
              dot X,Y                  a dot of the screen: the last instruction that changed it
            """
        ),
        "galluspa why examples/face.orsr dot 600,219 --links 5",
    )
    options.add_argument("recording", metavar="RECORDING", type=Path)
    options.add_argument("part", metavar="PART", nargs="+", help="whose value, as above")
    options.add_number("--at", "N", 0, COUNTS, "the count before which it has the value (default: the last checkpoint's)")
    options.add_number("--links", "N", 1, MOST_LINKS, f"follow at most N instructions (default {LINKS})", default=LINKS)
    options.add_flag("--no-addresses", "do not follow where the addresses of loads and stores come from")
    options.add_flag("--json", "print one JSON object")
    add_directory_option(options, "lines of sources")
    add_stack_limit_option(options)
    options.add_symbols_option()
    add_workers_option(options)
    options.add_limit_option("end after this many seconds")
    options.add_machine_options()
    return options


def main(asked: Namespace) -> int:
    """Prints where a value comes from."""
    it = opened(asked, Limit(asked.limit))
    run, symbols, count = Past(it.run), it.symbols, it.count(asked.at)
    try:
        part, has_addresses = " ".join(asked.part), not asked.no_addresses
        writers = Writers(run, asked.jobs, asked.stack_limit)
        values = origins_asked(writers, run.machine(count), part, symbols, asked.links, has_addresses)
    except TimeIsUp as over:
        raise Failed(f"{over}: not all links were found") from over
    if asked.json:
        print(json.dumps({"count": count, "values": objects(values, symbols)}))
    else:
        print("\n".join(lines(values, symbols, Sources.of(asked))))
    return OK
