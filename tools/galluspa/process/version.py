"""Says which version this is: of a wheel, what it was made with; of the repository, the date of its last commit."""

import subprocess
import time
from pathlib import Path

from galluspa.process.paths import OF_WHEEL, TOP, first_of


def version() -> str:
    """Returns the version of these tools and of the program that was installed with them."""
    return number() + ("" if _file() else ", as it is in the repository")


def number() -> str:
    """Returns the same, as a number."""
    file = _file()
    return file.read_text().strip() if file else of_commit(last_commit())


def _file() -> Path | None:
    """Returns the file that says the version, of what was made with one."""
    return first_of(OF_WHEEL / "VERSION", TOP / "VERSION")


def of_commit(when: int) -> str:
    """Returns the version of what was committed last at a time."""
    return time.strftime("0.%Y%m%d", time.gmtime(when))


def last_commit() -> int:
    """Returns when the last commit was made, in seconds; now, without a repository."""
    command = ["git", "-C", str(TOP), "log", "-1", "--format=%ct"]
    try:
        printed = subprocess.run(command, stdout=subprocess.PIPE, stderr=subprocess.DEVNULL, check=False).stdout.strip()
    except OSError:
        printed = b""
    return int(printed) if printed else int(time.time())
