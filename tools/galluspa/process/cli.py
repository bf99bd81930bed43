"""What the tools' commands share: parsing arguments, reading and writing files, and how a tool ends."""

import argparse
import contextlib
import errno
import io
import os
import signal
import stat
import sys
import threading
from collections.abc import Callable, Iterable, Iterator, Mapping, Sequence
from pathlib import Path
from types import FrameType
from typing import Any, BinaryIO, NoReturn

from galluspa.process import children
from galluspa.process.escapes import printable
from galluspa.process.streams import drop, open_streams
from galluspa.process.timelimit import TimeIsUp

SECONDS = 600
# A byte more than the longest recording has, and so than any file that is of use.
MOST = 166_326_445
# A write fails with one of these if there is no room, or if the device fails, whatever name the file has.
NO_ROOM = (errno.ENOSPC, errno.EDQUOT, errno.EFBIG, errno.EIO)
SIGNALS = (signal.SIGINT, signal.SIGTERM)
OK, WRONG, REFUSED, FAILED = range(4)
STATUSES = {
    OK: "success",
    WRONG: "check failed",
    REFUSED: "bad input or bad arguments",
    FAILED: "a write fails, memory runs out, or the time limit is over",
}


class Refused(Exception):
    """Bad input, or a program that cannot answer; its text is one clear line for the user."""


class Failed(Refused):
    """The operation failed, through no fault of the input: a write fails, or there is no memory."""


class Output(str):
    """The name of a file to write: the type of each option that names one."""


class Parser(argparse.ArgumentParser):
    """The command line of a tool or a script. Its help ends with an example, and it refuses bad arguments in one line."""

    def __init__(self, description: str, example: str, statuses: dict[int, str] | None = None) -> None:
        """`statuses` says of the exit statuses what is not said of each tool."""
        listed = "\n".join(f"  {number}  {meaning}" for number, meaning in {**STATUSES, **(statuses or {})}.items())
        super().__init__(
            description=description,
            epilog=f"exit status:\n{listed}\n\nexample:\n  {example}",
            formatter_class=argparse.RawDescriptionHelpFormatter,
        )
        # Whether options may stand between the files.
        self.is_intermixed = False
        # Whether the output may take the place of the file that is read.
        self.is_in_place = False

    def read(self, arguments: Sequence[str]) -> argparse.Namespace:
        """Returns what arguments ask for. Raises Refused if an output would overwrite another one, or a file to read."""
        asked = self.parse_intermixed_args(arguments) if self.is_intermixed else self.parse_args(arguments)
        values = [it for value in vars(asked).values() for it in (value if isinstance(value, list) else [value])]
        inputs = [it for it in values if isinstance(it, Path) and not self.is_in_place]
        refuse_overwriting([it for it in values if isinstance(it, Output)], inputs)
        return asked

    def error(self, message: str) -> NoReturn:
        raise Refused(f"{message} (see {self.prog} --help)")

    def add_number(self, name: str, metavar: str, least: int, most: int, does: str, **more: Any) -> None:
        """Adds an option whose value is a whole number from `least` to `most`, with what else argparse is to know of it."""
        self.add_argument(name, metavar=metavar, type=whole_number(least, most), help=does, **more)

    def add_file(self, name: str, metavar: str, does: str, kind: type[Path] | type[Output] = Path, **more: Any) -> None:
        """Adds an option that names a file to read, or an Output."""
        self.add_argument(name, metavar=metavar, type=kind, help=does, **more)

    def add_flag(self, name: str, does: str) -> None:
        """Adds an option without a value, which is False unless it is given."""
        self.add_argument(name, action="store_true", help=does)

    def add_repeatable(self, name: str, metavar: str, does: str, **more: Any) -> None:
        """Adds an option that may be given several times; its value is a list."""
        self.add_argument(name, metavar=metavar, action="append", default=[], help=does, **more)

    def add_program_option(self) -> None:
        """Adds the option that names the program to ask."""
        self.add_argument(
            "--program", metavar="PATH", help="the program oberon_replay to call (default: that of this clone or this installation)"
        )

    def add_library_option(self) -> None:
        """Adds the option that names the shared library to call."""
        self.add_argument(
            "--library",
            metavar="PATH",
            help="the shared library to call (default: $GALLUSPA_LIBRARY, or the first libgalluspa.so in this "
            "installation, in crates/galluspa/out/ and out/lib/ of this clone, and where the system looks for libraries)",
        )

    def add_machine_options(self) -> None:
        """Adds the options that name the program and the library."""
        self.add_program_option()
        self.add_library_option()

    def add_output_option(self) -> None:
        """Adds the option that names the file to write in place of standard output."""
        self.add_argument(
            "-o", "--output", metavar="FILE", type=Output, help="write the result into a file instead of standard output"
        )

    def add_symbols_option(self) -> None:
        """Adds the option that names the file that gives names to addresses."""
        does = "show the names that this symbol file gives to addresses (default: NAME.sym beside the file, if it is there)"
        self.add_file("--symbols", "FILE", does)

    def add_limit_option(self, what: str) -> None:
        """Adds the option that bounds the time; `what` says of what, and what the tool answers at its end."""
        self.add_number("--limit", "SECONDS", 1, 1 << 30, f"{what} (default {SECONDS})", default=SECONDS)


def refuse_overwriting(outputs: Iterable[str], inputs: Iterable[str | Path]) -> None:
    """Refuses outputs of which one is also an input, or another output. Devices and pipes keep nothing that could be lost."""
    read, written = {os.path.realpath(it) for it in inputs}, set[str]()
    for output in outputs:
        path = os.path.realpath(output)
        if os.path.exists(path) and not os.path.isfile(path):
            continue
        if path in read:
            raise Refused(f"{output}: the output would overwrite this input: name another file")
        if path in written:
            raise Refused(f"{output}: two outputs have this name: name two files")
        written.add(path)


class _Running:
    """Whether a tool runs, and the name with which it begins its lines on standard error: that of its script, unless it
    takes another. What imports the modules for itself prints nothing."""

    is_tool = False
    name = ""


def name_as(name: str) -> None:
    """Sets the prefix of the tool's lines, such as `galluspa find`."""
    _Running.name = name


def whole_number(least: int, most: int) -> Callable[[str], int]:
    """Returns a reader of whole numbers in a range, decimal or with 0x in front, for an option."""

    def read(text: str) -> int:
        value = number(text)
        if value is None or not least <= value <= most:
            raise argparse.ArgumentTypeError(f"{text!r} is not a whole number from {least:,} to {most:,}")
        return value

    return read


def number(text: str) -> int | None:
    """Returns the whole number that a text writes, decimal or hexadecimal with 0x in front; None if it writes none."""
    digits = text.strip().lower()
    hexadecimal = digits.startswith("0x")
    digits = digits[2:] if hexadecimal else digits
    if not digits.isascii() or not digits.isalnum() or len(digits) > 20:
        return None
    try:
        return int(digits, 16 if hexadecimal else 10)
    except ValueError:
        return None


def read_file(path: str | Path, most: int = MOST, is_regular: bool = False) -> bytes:
    """Returns the bytes of a file, at most `most`. One that has to be regular is refused if it is a pipe or a device."""
    try:
        with open(path, "rb", opener=_open_regular if is_regular else None) as file:
            return file.read(most)
    except (OSError, ValueError) as error:
        raise Refused(f"{path}: {_why(error)}") from error


def _open_regular(path: str, flags: int) -> int:
    """Opens a file, but no pipe and no device, which may keep a reader waiting for ever."""
    descriptor = os.open(path, flags | os.O_NONBLOCK)
    if not stat.S_ISREG(os.fstat(descriptor).st_mode):
        os.close(descriptor)
        raise OSError(errno.EINVAL, "not a regular file")
    return descriptor


def opened_file(path: str | Path) -> BinaryIO:
    """Returns a file that is open to be read. Raises Refused if it cannot be."""
    try:
        return open(path, "rb")
    except (OSError, ValueError) as error:
        raise Refused(f"{path}: {_why(error)}") from error


def _why(error: OSError | ValueError) -> str:
    return (error.strerror if isinstance(error, OSError) else None) or str(error)


def progress(message: str, is_last: bool = False) -> None:
    """Renews a tool's line of progress on standard error, if that is a terminal; empty text clears it."""
    if _Running.is_tool and sys.stderr.isatty():
        print(f"\033[K{printable(message)}", end="\n" if is_last else "\r", file=sys.stderr, flush=True)


def complain(message: str) -> None:
    """Prints a line on standard error, after the name of the tool."""
    progress("")
    name = _Running.name or printable(Path(sys.argv[0]).name)
    # If standard error cannot be written either, only the exit status says that the tool failed.
    try:
        print(f"{name}: {printable(message)}", file=sys.stderr, flush=True)
    except OSError:
        drop(2)


def write_file(path: str | Path, content: bytes) -> None:
    """Writes a file, or writes it anew. A file that is written anew stays as it was until the new one is whole."""
    try:
        target = Path(os.path.realpath(path))
        is_special = str(path).startswith(("/dev/", "/proc/")) or target.exists() and not target.is_file()
        if is_special or not os.access(target.parent, os.W_OK):
            _write_into(path, content)
        else:
            _replace(path, target, content)
    except (OSError, ValueError) as error:
        raise _unwritable(path, error) from error


def write_output(output: Output | None, content: bytes | str) -> None:
    """Writes what a tool makes into the file that an option names, or prints it."""
    if output:
        write_file(output, content.encode() if isinstance(content, str) else content)
    elif isinstance(content, str):
        sys.stdout.write(content)
    else:
        write_bytes(content)


def write_files(folder: Path, contents: Mapping[str, bytes]) -> None:
    """Writes files of a folder, which is made if it is not there. If one of them cannot be written, all stay as they were."""
    is_there, written = folder.exists(), list[tuple[Path, Path]]()
    make_folder(folder)
    try:
        for number, (name, content) in enumerate(contents.items()):
            target = Path(os.path.realpath(folder / name))
            written.append((_written(folder / name, target, content, number), target))
        for new, target in written:
            os.replace(new, target)
    except BaseException as error:
        for new, _ in written:
            new.unlink(missing_ok=True)
        if not is_there:
            with contextlib.suppress(OSError):
                folder.rmdir()
        raise _unwritable(folder, error) if isinstance(error, OSError) else error


def make_folder(folder: Path) -> None:
    """Makes a folder in which something is written, with those above it, unless it is there."""
    try:
        folder.mkdir(parents=True, exist_ok=True)
    except OSError as error:
        raise _unwritable(folder, error) from error


def _unwritable(path: str | Path, error: OSError | ValueError) -> Refused:
    """Returns what is raised if a path cannot be written."""
    is_full = isinstance(error, OSError) and error.errno in NO_ROOM
    return (Failed if is_full else Refused)(f"{path}: {_why(error)}")


def _write_into(path: str | Path, content: bytes) -> None:
    """Writes into what is there: a pipe or a terminal, or a file in a folder in which none can be made."""
    with open(path, "wb", buffering=0) as file, _failing(path):
        _write_all(file, content)


def _write_all(file: io.FileIO, content: bytes) -> None:
    """Writes all of some bytes: a file that nothing buffers may take a part of them at once."""
    left = memoryview(content)
    while left:
        left = left[file.write(left) :]


def _replace(path: str | Path, target: Path, content: bytes) -> None:
    """Writes a file beside the one whose place it then takes."""
    new = _written(path, target, content)
    try:
        os.replace(new, target)
    finally:
        new.unlink(missing_ok=True)


def _written(path: str | Path, target: Path, content: bytes, number: int = 0) -> Path:
    """Returns a new file that can take the place of another. Threads write side by side; several files of one have numbers."""
    new = target.with_name(f".galluspa-{os.getpid()}-{threading.get_ident()}-{number}")
    with open(new, "xb", buffering=0) as file:
        try:
            with _failing(path):
                _write_all(file, content)
            if target.exists():
                os.chmod(new, target.stat().st_mode & 0o777)
        except BaseException:
            new.unlink(missing_ok=True)
            raise
    return new


@contextlib.contextmanager
def _failing(path: str | Path) -> Iterator[None]:
    """Says of a write that fails where it did."""
    try:
        yield
    except OSError as error:
        raise Failed(f"{path}: {_why(error)}") from error


def write_bytes(content: bytes) -> None:
    """Prints bytes that are not text: into a file or a pipe, and on no terminal, which they might control."""
    if sys.stdout.isatty():
        raise Refused("the output is not text: write it into a file, with > FILE")
    sys.stdout.buffer.write(content)


def run(main: Callable[[Sequence[str]], int]) -> NoReturn:
    """Runs a tool on its arguments, and ends with its status: after one line with 2, if something is
    refused, and with 3, if something fails; with 130 or 143, if a signal ends it."""
    _Running.is_tool = True
    for number in SIGNALS:
        signal.signal(number, _end)
    try:
        status = _flushed(_status(main))
    except BaseException:
        # Code that a signal interrupts may raise another exception in place of that of the signal.
        if (signalled := children.signalled()) is None:
            raise
        progress("")
        status = _flushed(signalled.status)
    for number in SIGNALS:
        signal.signal(number, signal.SIG_IGN)
    sys.exit(status)


def _status(main: Callable[[Sequence[str]], int]) -> int:
    """Returns the status of a tool. It says in a line what is refused, and what failed."""
    try:
        if not open_streams():
            raise Failed(f"standard output: {os.strerror(errno.EBADF)}")
        return main(sys.argv[1:])
    except SystemExit as asked_for_help:
        return asked_for_help.code if isinstance(asked_for_help.code, int) else OK
    except (Failed, TimeIsUp) as failure:
        complain(str(failure))
        return FAILED
    except Refused as refusal:
        complain(str(refusal))
        return REFUSED
    except MemoryError:
        complain("no memory")
        return FAILED
    except OSError as error:
        complain(f"{error.filename or 'standard output'}: {_why(error)}")
        return REFUSED if error.errno == errno.ENAMETOOLONG else FAILED


def _end(number: int, frame: FrameType | None) -> None:
    """Ends the tool, and the programs that it runs."""
    for it in SIGNALS:
        signal.signal(it, signal.SIG_IGN)
    children.stop(number)


def _flushed(status: int) -> int:
    """Returns the status after flushing standard output; that of a failure if the flush fails."""
    try:
        sys.stdout.flush()
        return status
    except OSError as error:
        drop(1)
        if status not in (FAILED, *(128 + it for it in SIGNALS)):
            complain(f"standard output: {_why(error)}")
        return max(status, FAILED)
