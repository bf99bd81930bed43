"""Builds the crate `galluspa` in crates/galluspa/out: libgalluspa.a and libgalluspa.so, which depend on the C library
alone and define no other names than the header's, and galluspa.bc, the LLVM bitcode of which web/build makes the page's
WebAssembly module.

The crate is proved once, as a library, by `rt ci` or `rt lib`. A static library exports only functions of its own crate,
so this module makes one of a crate that has, for each exported function of `galluspa`, a function of the same name and
contract that calls it. `rattle build` proves these too, for any x86-64 processor (so that the bitcode has no instructions
of one alone), with a toolchain folder whose clang also keeps the module that it is given.

It first builds the libraries with `rt lib`, if they have changed. With --as-built it uses them as they are in
crates/*/out/rlib: `rt ci` leaves them there, and `rt lib` would prove them again. If all three were built from the
same sources by the same Rattle kit, it does nothing. It needs a C compiler and binutils.
"""

import hashlib
import re
import shutil
import subprocess
import sys
from argparse import Namespace
from collections.abc import Iterator, Sequence
from pathlib import Path

from galluspa.process.cli import Parser, Refused
from galluspa.process.paths import TOP
from galluspa.process.temporary import temporary_folder

CRATES = TOP / "crates"
LIBRARY = "galluspa"
# The crate whose functions are exported; each calls that of the library.
EXPORTING = "galluspa_for_c"
SOURCES = ("src", "specs", "proofs")
OUT = CRATES / LIBRARY / "out"
# By which name a program finds the shared library that it was linked with: the number rises when calls become others.
SONAME = f"lib{LIBRARY}.so.0"
ARCHIVE, SHARED, BITCODE = OUT / f"lib{LIBRARY}.a", OUT / f"lib{LIBRARY}.so", OUT / f"{LIBRARY}.bc"
STAMP = OUT / f"{LIBRARY}.stamp"
# An exported function of the library, as `rt fmt` lays it out: its documentation, its name, its parameters, and what it returns and
# promises. Its body begins on a line of its own.
EXPORTED = re.compile(
    r"(?m)((?:^///.*\n)*)^#\[unsafe\(no_mangle\)\]\n(pub extern \"C\" fn (\w+)\(((?:[^()]|\([^()]*\))*)\)[^\n]*\n(?:    .*\n)*)\{\n"
)
PARAMETER = re.compile(r"(?m)(?:^ *|, )(\w+):")
GHOST_USE = re.compile(r"(?m)^ghost use ([\w.]+)\.\{(.*)\};$")
USE = re.compile(r"(?m)^use ((?!crate\b)\w+(?:::\w+)*)::(?:\{([^}]*)\}|(\w+));$")

# Stands in for the toolchain's clang: keeps a copy of the bitcode before it compiles it.
KEEPING_CLANG = """#!/bin/sh
for it; do
    if [ "$it" = module.bc ]; then cp module.bc '{kept}'; fi
done
exec '{clang}' "$@"
"""


def dependencies() -> dict[str, list[str]]:
    """Returns the crates that each crate depends on directly, by crates.txt; the kit's libraries are among them."""
    lines = (TOP / "crates.txt").read_text().splitlines()
    rows = (line.partition(":") for line in lines if ":" in line and line[0] != "#")
    return {head.split()[0]: names.split() for head, _, names in rows}


def below(name: str, known: dict[str, list[str]]) -> list[str]:
    """Returns the crates of this repository that a crate depends on, directly or not, each after those that it depends on."""
    found: list[str] = []
    for dependency in known[name]:
        if dependency in known:
            found += [it for it in (*below(dependency, known), dependency) if it not in found]
    return found


def rlib(name: str) -> Path:
    """Returns where the built library of a crate is."""
    return CRATES / name / f"out/rlib/{name}.rlib"


def sum_of_sources(crates: Sequence[str]) -> str:
    """Returns a sum of all that is built from: the kit, the sources of the crates, and this script."""
    version = subprocess.run(["rt", "version"], stdout=subprocess.PIPE, check=True).stdout
    found = hashlib.sha256(version + Path(__file__).read_bytes() + (TOP / "crates.txt").read_bytes())
    for name in (*crates, LIBRARY):
        for part in SOURCES:
            for file in sorted((CRATES / name / part).rglob("*")):
                if file.is_file():
                    found.update(f"{file.relative_to(CRATES)} {file.stat().st_size}\n".encode() + file.read_bytes())
    return found.hexdigest()


def is_done(sources: str) -> bool:
    """Returns whether all built files exist, and were made from sources with this sum."""
    return all(file.is_file() for file in (ARCHIVE, SHARED, BITCODE, STAMP)) and STAMP.read_text() == sources


def called(command: Sequence[object], folder: Path) -> None:
    """Runs a command in a folder; what it printed is shown only if it fails."""
    strings = [str(it) for it in command]
    ran = subprocess.run(strings, cwd=folder, stdout=subprocess.PIPE, stderr=subprocess.STDOUT, check=False)
    if ran.returncode:
        sys.stderr.buffer.write(ran.stdout)
        raise Refused(f"{command[0]} {command[1]} in {folder} ended with status {ran.returncode}")


def kit() -> Path:
    """Returns the folder of the Rattle kit."""
    if not shutil.which("rt"):
        raise Refused("rt not found: install the Rattle kit")
    return Path(subprocess.run(["rt", "doc"], stdout=subprocess.PIPE, check=True, text=True).stdout.strip()).parent


def keeping_toolchain(folder: Path, toolchain: Path, kept: Path) -> Path:
    """Makes a copy of the toolchain, by links, whose clang also keeps the bitcode that it compiles."""
    (folder / "bin").mkdir()
    (folder / "lib").symlink_to(toolchain / "lib")
    for tool in (toolchain / "bin").iterdir():
        (folder / "bin" / tool.name).symlink_to(tool)
    clang = folder / "bin/clang"
    clang.unlink()
    clang.write_text(KEEPING_CLANG.format(kept=kept, clang=toolchain / "bin/clang"))
    clang.chmod(0o755)
    return folder


def exporting(crate: Path) -> dict[str, str]:
    """Returns the files of the exporting crate, by their names: a module for each of the library's that has exported functions."""
    public = re.findall(r"\w+", " ".join(re.findall(r"(?m)^pub use \w+::([^;]*);", (crate / "src/lib.rt").read_text())))
    files: dict[str, str] = {}
    for file in sorted((crate / "src").glob("*.rt")):
        text = file.read_text()
        functions = []
        for documented, promised, name, parameters in EXPORTED.findall(text):
            call = f"{LIBRARY}::{name}({', '.join(PARAMETER.findall(parameters))})"
            functions.append(f"{documented}#[unsafe(no_mangle)]\n{promised}{{\n    {call}\n}}\n")
        if not functions:
            continue
        words = set(re.findall(r"\w+", "".join(functions)))
        uses = [
            f"ghost use {module}.{{{', '.join(wanted)}}};"
            for module, names in GHOST_USE.findall(text)
            if (wanted := [it for it in names.split(", ") if "◌" in it or it in words or not it.isidentifier()])
            and not module.startswith(f"Rattle.{LIBRARY}.specs.inner")
        ]
        modules = [(LIBRARY, public), *((module, re.findall(r"\w+", f"{many} {one}")) for module, many, one in USE.findall(text))]
        items = [f"use {module}::{it};" for module, names in modules for it in sorted(words & {*names}) if it[:1].isupper()]
        files[file.name] = "\n".join([f"//! The exported functions of `{file.stem}`.", *uses, "", *items, "", *functions])
    of_files = [f"mod {Path(it).stem};" for it in files]
    files["lib.rt"] = "\n".join(["//! What the library exports to C.", "#![tactic(auto)]", "", *of_files, ""])
    return files


def arguments(kit_folder: Path, known: dict[str, list[str]], crates: Sequence[str]) -> Iterator[object]:
    """Yields the arguments of `rattle build`, but for the toolchain and the output."""
    yield from ("--crate-name", EXPORTING, "src/lib.rt")
    for name in ("std", *(it for it in known[LIBRARY] if it not in known)):
        yield from ("--extern", f"{name}={kit_folder}/rlibs/{name}.rlib")
    yield from ("-L", f"dependency={kit_folder}/rlibs")
    for name in (LIBRARY, *(it for it in known[LIBRARY] if it in known)):
        yield from ("--extern", f"{name}={rlib(name)}")
    for name in (*crates, LIBRARY):
        yield from ("-L", f"dependency={rlib(name).parent}")
    yield from ("--antt-project", kit_folder / "rattle/logic/antt-project.json")
    yield from ("--logic-built", kit_folder / "logic_built")
    # One job: several cost more processor time, which the gate's other checks lack.
    yield from ("--jobs", "1", "--links", f"{EXPORTING}=", "--crate-type", "staticlib", "--cpu=x86-64")
    yield from ("--backend", "llvm")


def build_libraries(crates: Sequence[str]) -> None:
    """Builds these libraries, where they have changed."""
    for name in crates:
        called(["rt", "lib"], CRATES / name)


def compile_crate(known: dict[str, list[str]], crates: Sequence[str], kit_folder: Path, folder: Path) -> Path:
    """Proves and compiles the exporting crate over the built libraries, keeps its bitcode, and returns the archive that
    rattle made."""
    compiled, kept = folder / "compiled.a", folder / "kept.bc"
    (folder / "toolchain").mkdir()
    (folder / "src").mkdir()
    for name, text in exporting(CRATES / LIBRARY).items():
        (folder / "src" / name).write_text(text)
    toolchain = keeping_toolchain(folder / "toolchain", kit_folder / "toolchain", kept)
    command = [kit_folder / "bin/rattle", "build", *arguments(kit_folder, known, crates), "--toolchain", toolchain]
    called([*command, "-o", compiled], folder)
    shutil.copyfile(kept, BITCODE)
    return compiled


def link(compiled: Path, folder: Path, output: Path) -> None:
    """Links the crate with the kit's heap (over malloc, realloc and free, which is all that the library needs) to one
    object, and makes the shared library of it, and the static one beside it."""
    whole, archive = folder / f"{LIBRARY}.o", output.with_suffix(".a")
    called(["ld", "-r", "--whole-archive", compiled, kit() / "c/liblibc_c.a", "-o", whole], folder)
    called(["objcopy", "--wildcard", f"--keep-global-symbol={LIBRARY}_*", whole], folder)
    archive.unlink(missing_ok=True)
    called(["ar", "rcsD", archive, whole], folder)
    called(["cc", "-shared", "-Wl,--no-undefined", f"-Wl,-soname,{SONAME}", whole, "-o", output], folder)


def build(known: dict[str, list[str]], crates: Sequence[str]) -> None:
    """Builds all three."""
    OUT.mkdir(exist_ok=True)
    with temporary_folder() as folder:
        link(compile_crate(known, crates, kit(), folder), folder, SHARED)


def parser() -> Parser:
    options = Parser("Proves the library for C and builds it: static, shared, and as LLVM bitcode.", "galluspa build-library")
    options.add_argument("--as-built", action="store_true", help="use the libraries as rt ci has just built them")
    return options


def main(asked: Namespace) -> int:
    """Builds the library unless it is built already."""
    known = dependencies()
    crates = below(LIBRARY, known)
    kit()
    sources = sum_of_sources(crates)
    if not is_done(sources):
        if missing := [name for name in (*crates, LIBRARY) if asked.as_built and not rlib(name).is_dir()]:
            raise Refused(f"the library {missing[0]} is not built: run rt ci first, or leave out --as-built")
        if not asked.as_built:
            build_libraries((*crates, LIBRARY))
        build(known, crates)
        STAMP.write_text(sources)
    print(f"{ARCHIVE.relative_to(TOP)}, {SHARED.name} and {BITCODE.name} are built")
    return 0
