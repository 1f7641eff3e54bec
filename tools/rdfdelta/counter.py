"""Counts the patches of a journal, or of a zone, that another process may be writing."""
from __future__ import annotations

from pathlib import Path
from typing import BinaryIO

from rdfdelta.checkpoint import FIRST_LIMIT, ID_LINE, MARK, first_line
from rdfdelta.journal import FIELD, FRAME, HEADER, OPEN, SECOND, ZONE, ZONES, Form, field_at, file_of, run_of
from rdfdelta.patches import read_link


class Counter:
    """Counts by the gates of a file: one that is open has all that stands behind it on the disk, so the payloads in
    front of one that isn't are whole. It goes on where it stopped."""

    def __init__(self, path: Path) -> None:
        self.path = path
        self.count = 0
        # How many of them have gone into a checkpoint.
        self.kept = 0
        self._payloads = 0
        self._at = HEADER
        # Where the newest patch stands, or its id in a checkpoint, and how long that is.
        self._newest = (0, 0)

    def look(self) -> int:
        try:
            with self.path.open("rb") as file:
                head = file.read(HEADER)
                number = field_at(head, FIELD)
                if number is not None and head.startswith(Form.NEW.value):
                    while self._take(file, number):
                        pass
        except FileNotFoundError:
            pass
        return self.count

    def head(self) -> str | None:
        """The id of the newest patch of those counted."""
        if self.count == 0:
            return None
        at, length = self._newest
        with self.path.open("rb") as file:
            file.seek(at)
            newest = file.read(length)
        return newest.decode("ascii", "replace") if self.count == self.kept else read_link(newest).id

    def _take(self, file: BinaryIO, number: int) -> bool:
        """Counts the patches of the next payload; whether its gate is open."""
        file.seek(self._at)
        frame = file.read(FRAME)
        length = field_at(frame, 1 + FIELD)
        if not frame.startswith(OPEN) or field_at(frame, 1) != self._payloads + 1 or length is None:
            return False
        found = self._patches_in(file, number, length)
        if found is None:
            return False
        count, at, size = found
        begin = self._at + FRAME
        self._newest = (begin + at, size)
        self._at = begin + length
        self._payloads += 1
        self.count += count
        return True

    def _patches_in(self, file: BinaryIO, number: int, length: int) -> tuple[int, int, int] | None:
        """How many patches a payload has; where in it the newest one stands, or its id, and how long that is."""
        if number not in ZONES:
            run = run_of(number, file.read(length))
            size = len(run[-1].text) if run else 0
            return (len(run), length - size, size) if run else None
        front = file.read(min(length, FIRST_LIMIT)) if self._payloads == 0 else b""
        if not front.startswith(MARK):
            # It isn't read: it is one patch.
            return 1, 0, length
        found = first_line(front)
        if found is None:
            return None
        counts, end = found
        self.kept = counts.patches
        return self.kept, end + ID_LINE * (self.kept - 1), ID_LINE - 1


class ZoneCounter:
    """The same of a zone, in whichever of its files is current."""

    def __init__(self, folder: Path) -> None:
        self._files = {number: file_of(folder, number) for number in ZONES}
        self._counters: dict[tuple[int, int], Counter] = {}

    def look(self) -> Counter:
        """The counter of the current file, which has counted."""
        first, second = (_generation_at(self._files[number]) for number in ZONES)
        current = (SECOND, second) if second > first else (ZONE, first)
        if current not in self._counters:
            # A file in another generation has other payloads.
            self._counters = {current: Counter(self._files[current[0]])}
        counter = self._counters[current]
        counter.look()
        return counter


def _generation_at(path: Path) -> int:
    """The generation of a zone's file; 0 where it has no checkpoint behind an open gate."""
    try:
        with path.open("rb") as file:
            content = file.read(HEADER + FRAME + FIRST_LIMIT)
    except FileNotFoundError:
        return 0
    if not content.startswith(Form.NEW.value) or content[HEADER:HEADER + 1] != OPEN:
        return 0
    found = first_line(content[HEADER + FRAME:])
    return found[0].generation if found else 0
