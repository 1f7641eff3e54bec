"""Files that are there whole or not at all, whenever their writer is killed."""
from __future__ import annotations

import os
import stat
from collections.abc import Iterable
from pathlib import Path


def write_whole(path: Path, content: bytes) -> None:
    """Puts a file in place: it is written beside, synced, and takes its name then."""
    write_pieces(path, (content,))


def write_pieces(path: Path, pieces: Iterable[bytes], like: Path | None = None) -> None:
    """The same of many pieces; the file belongs to whom another one does, and has its rights."""
    beside = path.with_name(f".{path.name}.new")
    with beside.open("wb") as file:
        if like is not None:
            share_rights(file.fileno(), like)
        file.writelines(pieces)
        file.flush()
        os.fsync(file.fileno())
    os.replace(beside, path)


def share_rights(place: int | Path, like: Path) -> None:
    """Gives a file or a folder the rights of another one and, if that is allowed, to its owner."""
    found = like.stat()
    if os.geteuid() == 0:
        os.chown(place, found.st_uid, found.st_gid)
    os.chmod(place, stat.S_IMODE(found.st_mode))


def sync_folder(folder: Path) -> None:
    """Has the names in a folder stand behind a crash."""
    descriptor = os.open(folder, os.O_RDONLY | os.O_DIRECTORY)
    try:
        os.fsync(descriptor)
    finally:
        os.close(descriptor)
