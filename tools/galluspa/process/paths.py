"""Says where the tools find what they call and open: in a clone, or in a Python environment."""

from pathlib import Path

# The package `galluspa`, and what a wheel has in it: the program, the library, the live page, the version.
PACKAGE = Path(__file__).resolve().parents[1]
OF_WHEEL = PACKAGE / "installed"
# The top of a clone.
TOP = PACKAGE.parents[1]
IS_CLONE = (TOP / "crates.txt").is_file() and (PACKAGE / "packaging").is_dir()


def first_of(*paths: Path) -> Path | None:
    """Returns the first of these paths that is a file; None if none is."""
    return next((path for path in paths if path.is_file()), None)


def program() -> Path | None:
    """Returns where the program is, if it is built or installed."""
    name = "oberon_replay"
    return first_of(OF_WHEEL / name, TOP / f"crates/{name}/out/{name}")


def libraries() -> list[Path]:
    """Returns the shared libraries that are built or installed, in the order in which the tools look for them."""
    name = "libgalluspa.so"
    return [it for it in (OF_WHEEL / name, TOP / "crates/galluspa/out" / name, TOP / "out/lib" / name) if it.is_file()]


def page() -> Path:
    """Returns where the live page is, or would be in a clone."""
    there = TOP / "web/galluspa.html"
    return first_of(OF_WHEEL / there.name, there) or there
