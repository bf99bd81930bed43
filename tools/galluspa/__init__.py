"""Emulates the workstation of Project Oberon, records sessions of it and checks recordings, over a proved library.

`check` and `record` are the program's commands, `Recording` and `Symbols` read files, and `Machine` is the machine in the
run of a recording. The names in `__all__`, which `galluspa.interface` lists, are public, and what they offer stays as it is;
the modules are those of the command `galluspa`, and may change.
"""

from typing import TYPE_CHECKING

if TYPE_CHECKING:
    from galluspa.interface import *

    __version__: str


def __getattr__(name: str) -> object:
    """Imports a name of the interface once it is used, since most tools do without."""
    if name == "__version__":
        from galluspa.process.version import number

        return number()
    if not name.startswith("__") or name == "__all__":
        # Not `from galluspa import interface`, which would ask this function for the module.
        import galluspa.interface as interface

        if name == "__all__":
            return [*interface.__all__, "__version__"]
        if name in interface.__all__:
            return getattr(interface, name)
    raise AttributeError(f"module {__name__!r} has no attribute {name!r}")
