"""Golden files: what a user saw in a run of a stored session, as somebody approved it, in a folder beside the session.

The folder NAME.approved has `sent.txt`, the bytes sent, `looks.txt`, a line for each look, a PNG of the screen of each
look, and LOOK.mask.png of the dots that do not count since a procedure drew them, if there are any. It may be a stranger's, so
nothing outside the suite is read or written, and each file has a size that it may have.
"""

import io
import os
from collections.abc import Mapping, Sequence
from dataclasses import dataclass, field
from itertools import zip_longest
from pathlib import Path

from galluspa.analysis.drawing import Dots, dots_differing
from galluspa.formats.screens import HEAD, HEADER, HEIGHT, WIDTH, picture, pillow
from galluspa.formats import states
from galluspa.formats.scripts import LOOK_NAME
from galluspa.process.cli import Refused, read_file, write_files
from galluspa.process.escapes import printable
from galluspa.suites.reruns import Rerun, Seen

SUFFIX = ".approved"
SENT, LOOKS, MASK_SUFFIX = "sent.txt", "looks.txt", ".mask.png"
# A byte sent has four characters at most; a picture of this size, even uncompressed, has fewer bytes.
SENT_BYTES, LOOKS_BYTES, PICTURE_BYTES = 4 * (1 << 20) + 2, 1 << 24, 1 << 20
SHOWN = 60


@dataclass(frozen=True)
class Approved:
    """What is approved: the lines of each look, by its name, the PNG of its screen, what was sent, as text, and the PNG of the dots
    that do not count."""

    looks: dict[str, Sequence[str]]
    screens: dict[str, bytes]
    sent: str
    masks: dict[str, bytes] = field(default_factory=dict)


@dataclass(frozen=True)
class Differences:
    """In what a run and what is approved differ, as lines; the dots in which screens do, by the names of the looks; the looks whose
    LEDs or stop do; and the number of the first byte sent that does."""

    lines: Sequence[str] = ()
    screens: Mapping[str, Dots] = field(default_factory=dict)
    looks: Sequence[str] = ()
    byte: int | None = None


def folder_of(session: Path) -> Path:
    """Returns the folder of golden files of a script, a session or a recording."""
    return session.with_name(f"{stem_of(session)}{SUFFIX}")


def stem_of(session: Path) -> str:
    """Returns the name of a script, a session or a recording without what says which of these it is."""
    return session.name.removesuffix(".rerun.json") if session.name.endswith(".rerun.json") else session.stem


def text_of(sent: bytes) -> str:
    """Returns sent bytes as a text file, with one line feed appended."""
    return states.text(sent) + "\n"


def read(folder: Path, top: Path) -> Approved | None:
    """Returns what is approved in a folder; None if there is no such folder. Raises Refused if it leads out of the suite, or if a
    file in it is none that `write` writes."""
    if not os.path.lexists(folder):
        return None
    lines = _read(folder / LOOKS, top, LOOKS_BYTES).decode("utf-8", "replace").splitlines()
    looks: dict[str, list[str]] = {}
    for number, line in enumerate(lines, 1):
        name = line.partition(":")[0]
        if line.startswith("  ") and looks:
            looks[next(reversed(looks))].append(line)
        elif LOOK_NAME.fullmatch(name) and name not in looks:
            looks[name] = [line]
        else:
            raise Refused(f"{folder.name}/{LOOKS} line {number}: not a look, as --approve writes it")
    screens = {name: _read(folder / f"{name}.png", top, PICTURE_BYTES) for name in looks}
    sent = _read(folder / SENT, top, SENT_BYTES).decode("utf-8", "replace")
    masks = {name: _read(path, top, PICTURE_BYTES) for name in looks if os.path.lexists(path := folder / f"{name}{MASK_SUFFIX}")}
    return Approved({name: tuple(it) for name, it in looks.items()}, screens, sent, masks)


def _read(path: Path, top: Path, most: int) -> bytes:
    """Returns the bytes of a golden file."""
    name = f"{path.parent.name}/{path.name}"
    _keep_inside(path, top)
    if not path.is_file():
        raise Refused(f"{name}: no such file; --approve writes it")
    content = read_file(path, most + 1)
    if len(content) > most:
        raise Refused(f"{name}: more than {most:,} bytes, which no golden file has")
    return content


def _keep_inside(path: Path, top: Path) -> None:
    """Refuses a path that leads out of the suite."""
    if not Path(os.path.realpath(path)).is_relative_to(top):
        raise Refused(f"{path.parent.name}/{path.name}: a link that leads out of the suite")


def write(folder: Path, top: Path, ran: Rerun, before: Approved | None) -> None:
    """Writes what a run shows as golden files, and removes the pictures of looks that it does not have any more."""
    _keep_inside(folder, top)
    contents = {SENT: text_of(ran.sent).encode(), LOOKS: "".join(f"{line}\n" for it in ran.looks for line in it.lines).encode()}
    contents |= {f"{look.name}.png": look.screen for look in ran.looks}
    contents |= {f"{look.name}{MASK_SUFFIX}": picture(HEADER + look.drawn) for look in ran.looks if look.drawn}
    for name in contents:
        _keep_inside(folder / name, top)
        if (folder / name).exists() and not (folder / name).is_file():
            raise Refused(f"{folder.name}/{name}: not a file")
    write_files(folder, contents)
    for look in before.looks if before else ():
        for name in {f"{look}.png", f"{look}{MASK_SUFFIX}"} - contents.keys():
            _remove(folder / name)


def _remove(path: Path) -> None:
    """Removes a golden file, if it exists."""
    try:
        path.unlink(missing_ok=True)
    except OSError as error:
        raise Refused(f"{path.parent.name}/{path.name}: {error.strerror}") from error


def has_these_masks(approved: Approved, ran: Rerun) -> bool:
    """Returns whether the dots that procedures drew, and that do not count, are those of a run."""
    drawn = {look.name: look.drawn for look in ran.looks if look.drawn}
    return {name: pbm_of(png)[HEAD:] for name, png in approved.masks.items()} == drawn


def differences(approved: Approved, ran: Rerun) -> Differences:
    """Returns in what a run differs from what is approved."""
    lines, screens, others = [ran.failure] if ran.failure else [], dict[str, Dots](), list[str]()
    looks = {look.name: look for look in ran.looks}
    lines += [f"no look {name}, which is approved" for name in approved.looks if name not in looks]
    for name, look in looks.items():
        if name not in approved.looks:
            lines.append(f"look {name} is not approved")
            continue
        lines += _differing_lines(look, approved.looks[name])
        others += [name] if look.lines[0] != approved.looks[name][0] else []
        if look.screen != approved.screens[name] and (dots := _differing_dots(look, approved)):
            lines.append(f"screen {name}: {dots}")
            screens[name] = dots
    byte = None
    if approved.sent != text_of(ran.sent):
        lines.append(_differing_text(approved.sent, text_of(ran.sent)))
        byte = _differing_byte(approved.sent, ran.sent)
    return Differences(lines, screens, others, byte)


def _differing_dots(look: Seen, approved: Approved) -> Dots | None:
    """Returns in which dots the screen of a look differs, but for those that do not count in this run or in the approved one."""
    before = approved.masks.get(look.name)
    masks = [*([look.mask] if look.mask else []), *([pbm_of(before)[HEAD:]] if before else [])]
    return dots_differing(pbm_of(approved.screens[look.name]), pbm_of(look.screen), masks)


def _differing_byte(approved: str, sent: bytes) -> int | None:
    """Returns the number of the first byte that was sent and is not as approved; None if too few were sent."""
    least, most = 0, len(sent)
    while least < most:
        middle = (least + most + 1) // 2
        if approved.startswith(states.text(sent[:middle])):
            least = middle
        else:
            most = middle - 1
    return least if least < len(sent) else None


def _differing_lines(look: Seen, approved: Sequence[str]) -> list[str]:
    pairs = [(now, was) for now, was in zip_longest(look.lines, approved, fillvalue="nothing") if now != was]
    return [f"{_cut(now.strip())}, approved {_cut(was.strip().removeprefix(f'{look.name}: '))}" for now, was in pairs]


def _differing_text(approved: str, now: str) -> str:
    """Returns the first line of what was sent that is another than is approved."""
    if not approved.endswith("\n"):
        return f"{SENT} does not end with a line feed, as --approve writes it"
    pairs = enumerate(zip_longest(now.split("\n")[:-1], approved.split("\n")[:-1]), 1)
    number, (sent, was) = next((at, it) for at, it in pairs if it[0] != it[1])
    shown = ("nothing" if it is None else f'"{_cut(it)}"' for it in (sent, was))
    return f"sent, line {number}: {next(shown)}, approved {next(shown)}"


def _cut(text: str) -> str:
    """Returns a text of a golden file in a line."""
    return printable(text if len(text) <= SHOWN else f"{text[:SHOWN]}..")


def pbm_of(png: bytes) -> bytes:
    """Returns the dots of a golden picture, as the program draws them. Raises Refused for anything but a picture of a screen."""
    image = pillow()
    try:
        with image.open(io.BytesIO(png), formats=["PNG"]) as picture:
            if picture.size != (WIDTH, HEIGHT):
                raise Refused(f"a golden picture has {picture.size[0]} by {picture.size[1]} dots, and a screen {WIDTH} by {HEIGHT}")
            dots = picture.convert("1", dither=image.Dither.NONE).tobytes()
    except (OSError, SyntaxError, ValueError, image.DecompressionBombError) as error:
        raise Refused(f"a golden picture is no PNG: {str(error)[:SHOWN]}") from error
    return HEADER + bytes(byte ^ 0xFF for byte in dots)
