"""The folders that cases begin with, each a function that writes its files."""
from pathlib import Path

from journals import framed, framed_before
from reading.checkpoints import checkpoint
from reading.zones import brief_of

ID = "00000000-0000-4000-8000-{:012x}".format
SOURCE = {"id": ID(9), "name": "ABC", "slot": 1, "uri": "http://e/abc"}
EVENTS = [b"S 2", f"C 1 {ID(9)} ABC http://e/abc".encode()]


def patch(number: int, before: int | None = None) -> bytes:
    """A patch of one quad with the id of this number, behind the one of another."""
    link = f"H prev <uuid:{ID(before)}> .\n" if before else ""
    name = f"o{number}" if before else "o"
    return f"H id <uuid:{ID(number)}> .\n{link}TX .\nA <http://e/s> <http://e/p> <http://e/{name}> .\nTC .\n".encode()


FIVE = [patch(1), *(patch(number, number - 1) for number in range(2, 6))]
# The first one with a comment that makes it as long as a patch may be.
LONGEST = FIVE[0] + b"#" + b"x" * (4_194_304 - len(FIVE[0]) - 1)
# Their quads in canonical form.
LINES = sorted(f"<http://e/s> <http://e/p> <http://e/o{number if number > 1 else ''}> .\n" for number in range(1, 6))


def write(folder: Path, files: dict[int, bytes]) -> None:
    for number, content in files.items():
        Path(folder, f"rdj-{number:04}").write_bytes(content)


def empty(folder: Path) -> None:
    """No files."""


def slots(folder: Path) -> None:
    """Two logs without a source."""
    write(folder, {0: framed(0, [b"S 2"]), 1: framed(1, []), 2: framed(2, [])})


def source(folder: Path) -> None:
    """A source whose log has no patch."""
    write(folder, {0: framed(0, EVENTS), 1: framed(1, []), 2: framed(2, [])})


def two(folder: Path) -> None:
    """A source whose log has two patches."""
    write(folder, {0: framed(0, EVENTS), 1: framed(1, FIVE[:2]), 2: framed(2, [])})


def five(folder: Path) -> None:
    """A source whose log has five patches, of which three came as a run, beside a zone that has two of them."""
    runs = [FIVE[0], b"".join(FIVE[1:4]), FIVE[4]]
    write(folder, {0: framed(0, EVENTS), 1: framed(1, runs), 2: framed(2, []), 1000: framed(1000, FIVE[:2])})


def longest(folder: Path) -> None:
    """A source whose log has the longest patch."""
    write(folder, {0: framed(0, EVENTS), 1: framed(1, [LONGEST]), 2: framed(2, [])})


def broken(folder: Path) -> None:
    """A log whose second patch doesn't go on with the first."""
    write(folder, {0: framed(0, EVENTS), 1: framed(1, [FIVE[0], FIVE[2]]), 2: framed(2, [])})


def old(folder: Path) -> None:
    """The files of a source with two patches in the form before this one."""
    write(folder, {0: framed_before(0, EVENTS), 1: framed_before(1, FIVE[:2]), 2: framed_before(2, [])})


def pending(folder: Path) -> None:
    """The same, whose upgrade was broken off where the files are written from their spares."""
    spares = {2000: framed(2000, EVENTS), 2001: framed(2001, FIVE[:2]), 2002: framed(2002, [])}
    write(folder, {0: framed(0, EVENTS)[:8], 1: framed_before(1, FIVE[:2]), **spares, 2099: framed(2099, [b"U"])})


# A sixth patch, with prefixes.
SIXTH = f'H id <uuid:{ID(6)}> .\nH prev <uuid:{ID(5)}> .\nPA "ex" <http://e/> .\nPA "b" <http://b/> .\nPD "b" .\n'.encode()


def zone(folder: Path) -> None:
    """A zone that took five patches, and a sixth with prefixes."""
    write(folder, {1000: framed(1000, [*FIVE, SIXTH])})


def kept(generation: int, patches: list[bytes]) -> bytes:
    """The checkpoint of a zone that took these patches."""
    return checkpoint(generation, brief_of(patches, 1000))


def pair(folder: Path) -> None:
    """The same zone, with checkpoints behind the second patch and behind the sixth."""
    six = [*FIVE, SIXTH]
    write(folder, {1000: framed(1000, [kept(2, six)]), 1001: framed(1001, [kept(1, six[:2]), *six[2:]])})


def last_pair(folder: Path) -> None:
    """A zone in the last generation."""
    write(folder, {1000: framed(1000, FIVE[:2]), 1001: framed(1001, [kept(2**64 - 1, FIVE[:2]), *FIVE[2:]])})


def five_kept(folder: Path) -> None:
    """A source whose log has five patches, beside a zone that has two of them in a checkpoint."""
    five(folder)
    write(folder, {1001: framed(1001, [kept(1, FIVE[:2])])})


def old_zone(folder: Path) -> None:
    """A zone of two files in the form before this one."""
    write(folder, {1000: framed_before(1000, FIVE), 1001: framed_before(1001, [b"abc"])})
