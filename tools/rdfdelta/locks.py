"""Locks of files, and who holds them by the system's table."""
from __future__ import annotations

import fcntl
import os
import time
from collections.abc import Callable, Iterator
from contextlib import contextmanager
from pathlib import Path
from typing import IO

from rdfdelta import errors

# How long somebody else may have a file before that is told, and before it is given up.
TELL_SECONDS, PATIENCE_SECONDS = 1.0, 60.0


def holders(path: Path) -> list[int]:
    """The processes that hold a lock of a file, by /proc/locks; a number that isn't above 0 is hidden from here."""
    try:
        found = path.stat()
        lines = Path("/proc/locks").read_text().splitlines()
    except OSError:
        return []
    place = f"{os.major(found.st_dev):02x}:{os.minor(found.st_dev):02x}:{found.st_ino}"
    rows = [line.split() for line in lines if "->" not in line]
    return sorted({int(row[4]) for row in rows if len(row) > 5 and row[5] == place})


def name_of(pid: int) -> str:
    """A process as a person knows it: its number, and its words where they can be read."""
    if pid <= 0:
        return "a process that can't be seen from here"
    try:
        words = Path(f"/proc/{pid}/cmdline").read_bytes().split(b"\0")
    except OSError:
        return f"pid {pid}"
    return f"pid {pid} ({' '.join(word.decode('utf-8', 'replace') for word in words[:4] if word)})"


def held_by(path: Path) -> str:
    """Who holds a file, in words."""
    return ", ".join(name_of(pid) for pid in holders(path)) or "another process"


def is_held(path: Path) -> bool:
    """Whether a process has a lock of a file. Where the system's table names it otherwise, a lock is tried."""
    if holders(path):
        return True
    try:
        with path.open("rb") as file:
            fcntl.flock(file, fcntl.LOCK_SH | fcntl.LOCK_NB)
    except BlockingIOError:
        return True
    except OSError:
        return False
    return False


def _take(file: IO[bytes], path: Path, kind: int, seconds: float, tell: Callable[[str], None] | None) -> None:
    begun = time.monotonic()
    told = False
    while True:
        try:
            return fcntl.flock(file, kind | fcntl.LOCK_NB)
        except BlockingIOError:
            waited = time.monotonic() - begun
            if waited >= seconds:
                raise errors.Held(f"{path}: held by {held_by(path)}") from None
            if tell and not told and waited >= TELL_SECONDS:
                tell(f"waiting for {path}: held by {held_by(path)}")
                told = True
        time.sleep(0.05)


@contextmanager
def shared(file: IO[bytes], path: Path, seconds: float = 0.0) -> Iterator[None]:
    """A lock beside other readers, for as long as the file is open."""
    _take(file, path, fcntl.LOCK_SH, seconds, None)
    yield


@contextmanager
def exclusive(
    path: Path, seconds: float = PATIENCE_SECONDS, tell: Callable[[str], None] | None = None
) -> Iterator[int]:
    """The lock file at a path, held alone; it is made where it isn't there, and stays.

    A process that is given the descriptor holds the lock too, until it ends.
    """
    with path.open("ab") as file:
        _take(file, path, fcntl.LOCK_EX, seconds, tell)
        yield file.fileno()
