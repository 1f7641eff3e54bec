"""What stands in files, as the real program tells it and as the files have it."""
import subprocess
import tempfile
from collections.abc import Iterator
from contextlib import contextmanager
from pathlib import Path

from reading.files import Broken, payloads_of
from refusing.folders import write
from stopping.disks import Image, image_of

# A status, and what stands on out and on err.
Told = tuple[int, str, str]
# The payloads of the files of a folder.
State = dict[int, list[bytes]]
# How many calls were stopped at or failed, and how many images were looked at.
Found = tuple[int, int]
NO_LIMIT = 2**40


class Differs(Exception):
    """Something stands that may not stand."""


@contextmanager
def laid_out(image: Image, within: Path) -> Iterator[Path]:
    """A folder with these files."""
    with tempfile.TemporaryDirectory(dir=within) as name:
        write(Path(name), image)
        yield Path(name)


def told(program: Path, *words: object, given: bytes = b"", environment: dict[str, str] | None = None) -> Told:
    done = subprocess.run([program, *words], input=given, capture_output=True, env=environment)
    return done.returncode, done.stdout.decode(), done.stderr.decode()


def holds(image: Image, state: State) -> bool:
    """Whether files have these payloads, and nothing else is in them."""
    try:
        return all(payloads_of(image[number], number, NO_LIMIT) == payloads for number, payloads in state.items())
    except (Broken, KeyError):
        return False


def ids_of(payload: bytes) -> list[str]:
    return [line[len(b"H id <uuid:"):][:36].decode() for line in payload.split(b"\n") if line.startswith(b"H id ")]


def checked(state: State) -> Told:
    """What `check` tells of files with these payloads."""
    lines = [f"file 0 records {len(state[0])}\n"]
    for number in sorted(state)[1:]:
        ids = [id for payload in state[number] for id in ids_of(payload)]
        lines.append(f"file {number} patches {len(ids)} head {ids[-1] if ids else 'none'}\n")
    return 0, "".join(lines), ""


def require_state(program: Path, folder: Path, states: list[State], what: str) -> State:
    """The first of these states that stands in a folder."""
    image, found = image_of(folder), told(program, "check", folder)
    for state in states:
        if holds(image, state) and found == checked(state):
            return state
    raise Differs(f"{what}: check tells {found}, and the files are {image}")
