"""What the scripts of tests/ share: where the repository is. Once this is imported, the packages of tools/ can be, too, and Python
writes no bytecode."""

import sys
from pathlib import Path

TOP = Path(__file__).resolve().parents[2]

sys.dont_write_bytecode = True
sys.path.insert(0, str(TOP / "tools"))
