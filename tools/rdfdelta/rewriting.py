"""Files of a stopped server, or of a zone, written anew beside, in the form that the program reads.

The old ones are only read, and locked meanwhile. All of them are checked before the first new one is written, and the
registry's comes last: a folder of a run that was stopped is none that a server serves. Where an upgrade in place was
stopped, that is to be ended first.
"""
from __future__ import annotations

import os
from collections.abc import Callable, Iterator
from contextlib import ExitStack, contextmanager
from pathlib import Path
from typing import BinaryIO

from rdfdelta import errors, files, locks
from rdfdelta.journal import (
    HEADER,
    NUMBERS,
    REGISTRY,
    SECOND,
    ZONE,
    Journal,
    Registry,
    check_marker,
    file_of,
    limit_of,
    pieces_of,
)

# What is done, how many files it is done with, and of how many.
Look = Callable[[str, int, int], None]


class _Old:
    """The files of a folder, in either form."""

    def __init__(self, folder: Path, opened: dict[int, BinaryIO]) -> None:
        self.folder = folder
        self._opened = opened

    def journal(self, number: int) -> Journal:
        path = file_of(self.folder, number)
        if number not in self._opened:
            raise errors.BadFile(path, "not there")
        file = self._opened[number]
        file.seek(0)
        return Journal.parse(path, file.read(), takes_old=True)

    def _length(self, number: int) -> int:
        return self._opened[number].seek(0, os.SEEK_END)

    def numbers(self) -> list[int]:
        """The numbers of the files that the program opens there."""
        zone = [ZONE] if ZONE in self._opened else []
        # One of no more bytes holds nothing.
        zone += [SECOND] if zone and SECOND in self._opened and self._length(SECOND) > HEADER + 1 else []
        if zone and REGISTRY not in self._opened:
            return zone
        return [*range(Registry.of(self.journal(REGISTRY)).slots + 1), *zone]


@contextmanager
def _opened(folder: Path) -> Iterator[_Old]:
    """The files that are there, which no program has."""
    if not folder.is_dir():
        raise errors.RdfDeltaError(f"{folder}: no such folder")
    paths = {number: path for number in NUMBERS if (path := file_of(folder, number)).exists()}
    if not paths:
        raise errors.RdfDeltaError(f"{folder}: no rdj- files")
    with ExitStack() as stack:
        opened: dict[int, BinaryIO] = {}
        for number, path in paths.items():
            opened[number] = stack.enter_context(path.open("rb"))
            stack.enter_context(locks.shared(opened[number], path))
            check_marker(folder, number)
        yield _Old(folder, opened)


def rewrite(old: Path, new: Path, look: Look) -> list[str]:
    """Writes the files of a folder into another one; a line for each, as `rdfdelta check` prints it."""
    with _opened(old) as source:
        numbers = source.numbers()
        lines = []
        for done, number in enumerate(numbers):
            look(f"checking {file_of(old, number).name}", done, len(numbers))
            lines.append(_checked_line(source.journal(number)))
        is_made = _make_empty(new)
        # The registry's file is the last one, once the others have their names on the disk.
        for done, number in enumerate(reversed(numbers)):
            look(f"writing {file_of(new, number).name}", done, len(numbers))
            _write(source.journal(number), file_of(new, number))
            files.sync_folder(new)
        if is_made:
            files.share_rights(new, old)
            files.sync_folder(new.parent)
    return lines


def _checked_line(journal: Journal) -> str:
    """What the program tells of a file, whose payloads are seen to be patches of a chain, or events."""
    size = sum(map(len, pieces_of(journal.number, journal.payloads)))
    if size > limit_of(journal.number):
        raise errors.BadFile(journal.path, f"over limit: have {size}, limit {limit_of(journal.number)}")
    if journal.number == REGISTRY:
        Registry.of(journal)
        return f"file {REGISTRY} records {len(journal.payloads)}"
    links = journal.links()
    return f"file {journal.number} patches {len(links)} head {links[-1].id if links else 'none'}"


def _make_empty(folder: Path) -> bool:
    """Makes a folder where there is none; whether it did. One that isn't empty is left as it is."""
    if not folder.exists():
        folder.mkdir(mode=0o700)
        return True
    if not folder.is_dir() or any(folder.iterdir()):
        raise errors.RdfDeltaError(f"{folder}: not an empty folder")
    return False


def _write(journal: Journal, path: Path) -> None:
    files.write_pieces(path, pieces_of(journal.number, journal.payloads), like=journal.path)
    if Journal.read(path).payloads != journal.payloads:
        raise errors.BadFile(path, "has other payloads than were written")
