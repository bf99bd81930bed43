"""What `import galluspa` offers to other programs: checks, recordings, names, and the machine at any count.

All answers are those of the proved library for C. docs/from-python.md explains the calls. What is in `__all__` is public:
`galluspa` offers these names, and `__version__`.
"""

from galluspa.analysis.search import Hit
from galluspa.engine.tracing import Step
from galluspa.formats.recording import Checkpoint as State
from galluspa.interface.inputs import Input
from galluspa.interface.machines import Call, Machine, Write
from galluspa.interface.names import Symbols
from galluspa.interface.origins import Origin
from galluspa.interface.recordings import Recording
from galluspa.interface.verdicts import Verdict, check, record
from galluspa.process.cli import Failed, Refused

__all__ = [
    "Call",
    "Failed",
    "Hit",
    "Input",
    "Machine",
    "Origin",
    "Recording",
    "Refused",
    "State",
    "Step",
    "Symbols",
    "Verdict",
    "Write",
    "check",
    "record",
]
