"""Patches: their ids, streams of them, the changes that take effect, and making new ones below the limit."""
from __future__ import annotations

import re
import uuid
from collections.abc import Iterable, Iterator, Sequence
from dataclasses import dataclass
from itertools import takewhile

from rdfdelta import errors
from rdfdelta.rows import Iri, Literal, Row, read_rows

PATCH_LIMIT = 4_194_304
_HYPHENATED = "[0-9a-f]{8}(?:-[0-9a-f]{4}){3}-[0-9a-f]{12}"
_UUID = re.compile(rf"[0-9a-f]{{32}}|{_HYPHENATED}|\{{{_HYPHENATED}\}}|urn:uuid:{_HYPHENATED}")
_ID_VALUE = re.compile(r"(?:urn:)?uuid:(.*)", re.DOTALL)
_ID_ROW = re.compile(rb"H[ \t\r\n]+id(?![A-Za-z0-9_-])")


@dataclass(frozen=True, slots=True)
class Link:
    """The id of a patch, and that of the patch before it."""

    id: str
    prev: str | None


@dataclass(frozen=True, slots=True)
class Patch:
    """A patch of a stream: its ids, and its text."""

    link: Link
    text: bytes


def draw_id() -> str:
    return str(uuid.uuid4())


def _id_of(row: Row) -> str:
    text = ""
    match row.parts[1]:
        case Iri(value) if found := _ID_VALUE.fullmatch(value):
            text = found[1]
        case Literal(value, None, None):
            text = value
    # Of letters out of ASCII some have one of ASCII in lower case.
    if not text.isascii() or not _UUID.fullmatch(text.lower()):
        raise errors.BadPatch(row.at, row.line, "the value is no id")
    return str(uuid.UUID(text.lower()))


def _key_of(row: Row) -> str | None:
    """The key of a header, none for another row."""
    key = row.parts[0] if row.code == "H" else None
    return key.value if isinstance(key, Literal) else None


def read_link(patch: bytes) -> Link:
    """The ids of a patch. Its headers are read and no other rows."""
    return _link_of(takewhile(lambda row: row.code == "H", read_rows(patch)))


def split(stream: bytes) -> list[Patch]:
    """The patches of a stream, which is read to its end. The text of each reaches to the first row of the next one."""
    parts = list(_parts(read_rows(stream)))
    places = [0, *(rows[0].at for rows in parts[1:]), len(stream)]
    patches = []
    for rows, begin, end in zip(parts, places, places[1:]):
        _check_blocks(rows, end)
        link = _link_of(takewhile(lambda row: row.code == "H", rows), rows[0])
        patches.append(Patch(link, stream[begin:end]))
    return patches


def _parts(rows: Iterable[Row]) -> Iterator[list[Row]]:
    """The rows of each patch of a stream. One begins at a header behind a row of another code, and at an id row where
    the patch has an id already."""
    part: list[Row] = []
    has_id = False
    for row in rows:
        is_id = _key_of(row) == "id"
        if part and row.code == "H" and (part[-1].code != "H" or (is_id and has_id)):
            yield part
            part, has_id = [], False
        part.append(row)
        has_id = has_id or is_id
    if part:
        yield part


def _check_blocks(rows: list[Row], end: int) -> None:
    """Whether the blocks of a patch, which ends there, begin and end one behind another."""
    in_block = False
    for row in rows:
        if row.code in ("TX", "TC", "TA"):
            if in_block == (row.code == "TX"):
                raise errors.BadPatch(row.at, row.line, f"{row.code} {'inside' if in_block else 'outside'} a block")
            in_block = not in_block
    if in_block:
        raise errors.BadPatch(end, rows[-1].line, "the text ends inside a block")


def stand_apart(before: bytes, patch: bytes) -> bool:
    """Whether a patch behind another one is surely cut off where it begins: that one ends its line, and this one begins
    with its id."""
    return before.endswith(b"\n") and _ID_ROW.match(patch) is not None


def join(patches: Sequence[bytes]) -> bytes:
    """Patches as one text. It is refused where it would be cut into others: a comment at the front of a patch, as one,
    would belong to the patch before it."""
    text = b"".join(patches)
    if not all(map(stand_apart, patches, patches[1:])) and [patch.text for patch in split(text)] != list(patches):
        raise errors.RdfDeltaError("one behind another these texts are other patches: each is to begin with its id")
    return text


def _link_of(headers: Iterable[Row], first: Row | None = None) -> Link:
    """What the headers of a patch name, which has this first row."""
    found: dict[str, str] = {}
    for row in headers:
        key = _key_of(row)
        name = "prev" if key == "previous" else key
        if name in ("id", "prev"):
            if name in found:
                raise errors.BadPatch(row.at, row.line, f"a second {name}")
            found[name] = _id_of(row)
    if "id" not in found:
        at, line = (0, 1) if first is None else (first.at, first.line)
        raise errors.BadPatch(at, line, "no row names the id before the other rows")
    return Link(found["id"], found.get("prev"))


def changes(patch: bytes) -> list[Row]:
    """The rows of A, D, PA and PD that take effect, in their order: those of a block that TA ends have none."""
    kept: list[Row] = []
    block: int | None = None
    for row in read_rows(patch):
        if row.code == "TX":
            block = len(kept)
        elif row.code in ("TC", "TA"):
            if row.code == "TA":
                del kept[block:]
            block = None
        elif row.code != "H":
            kept.append(row)
    return kept


def compose(patch_id: str, prev: str | None, rows: Iterable[str], notes: Iterable[str] = ()) -> bytes:
    """A patch of one block, with its rows a line each, and with further headers where there are notes."""
    lines = [f"H id <uuid:{patch_id}> ."]
    if prev is not None:
        lines.append(f"H prev <uuid:{prev}> .")
    return ("\n".join([*lines, *notes, "TX .", *rows, "TC ."]) + "\n").encode()


def cut(rows: Iterable[str], limit: int, notes: Iterable[str] = ()) -> Iterator[list[str]]:
    """Rows in lists, each of which makes one patch within a limit of bytes."""
    spare = limit - len(compose(str(uuid.UUID(int=0)), str(uuid.UUID(int=0)), [], notes))
    piece: list[str] = []
    used = 0
    for row in rows:
        size = len(row.encode()) + 1
        if size > spare:
            raise errors.RdfDeltaError(f"a row of {size} bytes is longer than a patch may be: {row[:60]}..")
        if used + size > spare:
            yield piece
            piece, used = [], 0
        piece.append(row)
        used += size
    if piece:
        yield piece


def follow_on(patch: bytes, patch_id: str, prev: str | None) -> bytes:
    """A patch with the rows and other headers of this one, under other ids."""
    kept = [row for row in read_rows(patch) if _key_of(row) not in ("id", "prev", "previous")]
    notes = [row.text for row in kept if row.code == "H"]
    rows = [row.text for row in kept if row.code != "H"]
    lines = [f"H id <uuid:{patch_id}> .", *([f"H prev <uuid:{prev}> ."] if prev else []), *notes, *rows]
    return ("\n".join(lines) + "\n").encode()
