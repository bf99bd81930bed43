"""Debian's packages that tests need."""

import os
import subprocess
from collections.abc import Iterable

# Held by the test that installs: several may run side by side, and apt-get refuses to run twice at once.
LOCK = "/run/lock/galluspa-tests"


def install(packages: Iterable[str]) -> bool:
    """Installs packages, once no other test installs any. Returns whether that succeeded."""
    environment = {**os.environ, "DEBIAN_FRONTEND": "noninteractive"}
    nowhere = subprocess.DEVNULL
    steps = (["update"], ["install", "-y", "--no-install-recommends", *packages])
    ran = [
        subprocess.run(["flock", LOCK, "apt-get", "-qq", *step], stdin=nowhere, stdout=nowhere, env=environment, check=False)
        for step in steps
    ]
    return not ran[-1].returncode
