"""Checkpoints of zones, read by docs/FORMATS.md: what a zone keeps of the patches that it took, without their texts."""
from __future__ import annotations

import re
from dataclasses import dataclass
from itertools import pairwise

from rdfdelta import errors
from rdfdelta.rows import Row, is_printed, read_rows

MARK = b"Z "
# The most bytes of a first line, and of a file that has a checkpoint alone.
FIRST_LIMIT, FILE_LIMIT = 64, 536_870_912
# The bytes of a line with an id.
ID_LINE = 37
_NUMBER = rb"(0|[1-9][0-9]{0,19})"
_FIRST = re.compile(rb"Z " + b" ".join([_NUMBER] * 5) + rb"\n")
_ID = re.compile(r"[0-9a-f]{8}(?:-[0-9a-f]{4}){3}-[0-9a-f]{12}")


@dataclass(frozen=True, slots=True)
class Counts:
    """What a first line tells: the generation, how many patches were taken, how many bytes their texts have, and how
    many prefixes and quads their dataset has."""

    generation: int
    patches: int
    size: int
    prefixes: int
    quads: int


def first_line(front: bytes) -> tuple[Counts, int] | None:
    """The first line that stands at the front of a payload, and its length; none where no whole one does."""
    found = _FIRST.match(front, 0, FIRST_LIMIT)
    numbers = [int(number) for number in found.groups()] if found else []
    if found is None or max(numbers) >= 1 << 64:
        return None
    return Counts(*numbers), found.end()


@dataclass(frozen=True, slots=True)
class Checkpoint:
    """The counts of a checkpoint, the ids of the patches that were taken, and the rows and lines of their dataset."""

    counts: Counts
    ids: tuple[str, ...]
    rows: tuple[str, ...]
    lines: tuple[str, ...]

    @classmethod
    def parse(cls, text: bytes) -> Checkpoint | None:
        """The checkpoint that a text is; none where it isn't one."""
        first = first_line(text)
        if first is None:
            return None
        counts, begin = first
        try:
            *found, last = text[begin:].decode("utf-8").split("\n")
        except UnicodeDecodeError:
            return None
        patches, rows = counts.patches, counts.patches + counts.prefixes
        if last or len(found) != rows + counts.quads:
            return None
        checkpoint = cls(counts, tuple(found[:patches]), tuple(found[patches:rows]), tuple(found[rows:]))
        return checkpoint if checkpoint._is_whole() else None

    def _is_whole(self) -> bool:
        """Whether the ids are such, and the rows and lines those of a dataset in their order."""
        if not all(map(_ID.fullmatch, self.ids)) or not all(map(is_printed, self.lines)):
            return False
        rows = [row for row in map(_printed_prefix, self.rows) if row is not None]
        # A prefix is set once in a graph. The IRI stands between them.
        keys = {(row.parts[0], row.parts[2:]) for row in rows}
        return len(keys) == len(self.rows) and _rise(self.rows) and _rise(self.lines)


def _rise(lines: tuple[str, ...]) -> bool:
    """Whether lines stand in the order of their bytes, which is that of their characters, and none stands twice."""
    return all(one < other for one, other in pairwise(lines))


def _printed_prefix(text: str) -> Row | None:
    """The row that sets a prefix, where a text is the canonical one."""
    try:
        rows = list(read_rows(text.encode()))
    except errors.BadPatch:
        return None
    if len(rows) != 1 or rows[0].code != "PA" or " ".join(["PA", *map(str, rows[0].parts), "."]) != text:
        return None
    return rows[0]
