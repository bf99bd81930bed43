"""Builds the Python package `galluspa`: here is what pyproject.toml cannot say.

A wheel has the program, the library for C with its header, the live page and the version in galluspa/installed. A source
distribution has them where a clone has them, so that a wheel can be built from it. What is not built is left out.
"""

import atexit
import sys
import tempfile
from pathlib import Path
from typing import Any

from setuptools import Distribution, setup
from setuptools.command.build_py import build_py
from setuptools.command.sdist import sdist

try:
    from setuptools.command.bdist_wheel import bdist_wheel
except ImportError:
    # Before setuptools 70 it was not part of setuptools.
    from wheel.bdist_wheel import bdist_wheel

TOP = Path(__file__).resolve().parent
sys.path.insert(0, str(TOP / "tools"))

from galluspa.process.version import number  # noqa: E402

BUILT = [
    name for name in ("crates/oberon_replay/out/oberon_replay", "crates/galluspa/out/libgalluspa.so") if (TOP / name).is_file()
]
OPENED = ["web/galluspa.html", "include/galluspa.h"]
# What setuptools writes while it builds; by default it would be among the sources.
SCRATCH = tempfile.TemporaryDirectory()
atexit.register(SCRATCH.cleanup)


class Modules(build_py):
    """Copies the modules, and what they call and open. An editable installation finds all in the clone."""

    def run(self) -> None:
        """Copies everything."""
        super().run()
        if getattr(self, "editable_mode", False):
            return
        folder = Path(self.build_lib, "galluspa/installed")
        folder.mkdir(exist_ok=True)
        for name in (*BUILT, *OPENED):
            self.copy_file(str(TOP / name), str(folder / Path(name).name))
        (folder / "VERSION").write_text(f"{self.distribution.get_version()}\n")


class Package(Distribution):
    """The package, which is for this kind of machine alone if it has the program or the library."""

    def has_ext_modules(self) -> bool:
        """Returns whether it has something that is compiled."""
        return bool(BUILT)


class Wheel(bdist_wheel):
    """Makes a wheel for any Python."""

    def get_tag(self) -> tuple[str, str, str]:
        """Returns the Python, the binary interface to it, and the machine for which the wheel is."""
        return ("py3", "none", super().get_tag()[2])


class Sources(sdist):
    """Makes a source distribution, which says its version, since it has no commits."""

    # Some stubs of setuptools lack it.
    distribution: Any

    def make_release_tree(self, base_dir: str, files: list[str]) -> None:
        """Lays out its files."""
        super().make_release_tree(base_dir, files)
        Path(base_dir, "VERSION").write_text(f"{self.distribution.get_version()}\n")


COMMANDS: dict[str, Any] = {"build_py": Modules, "bdist_wheel": Wheel, "sdist": Sources}
OPTIONS = {"build": {"build_base": SCRATCH.name}, "egg_info": {"egg_base": SCRATCH.name}}
setup(version=number(), distclass=Package, cmdclass=COMMANDS, options=OPTIONS)
