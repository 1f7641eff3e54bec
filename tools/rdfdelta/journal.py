"""Journal files, read by docs/FORMATS.md: those of logs, zones and the registry.

Damage is told with its byte and nothing behind it is guessed. A file is read only while no program writes it. One of
the old form is refused, but where it is to be written anew, and so is one whose upgrade was stopped. A payload of a log
is a run, so it has one patch or more; one of a zone is a patch, and the first one may be a checkpoint.

A zone has two files, of which the one with the later checkpoint is current. What the other one has counts no more.
"""
from __future__ import annotations

import re
import uuid
from collections.abc import Iterator, Sequence
from contextlib import ExitStack
from dataclasses import dataclass, replace
from enum import Enum
from pathlib import Path
from typing import NoReturn

from rdfdelta import errors, locks
from rdfdelta.answers import Source
from rdfdelta.checkpoint import FILE_LIMIT, FIRST_LIMIT, MARK, Checkpoint, first_line
from rdfdelta.patches import PATCH_LIMIT, Link, Patch, split
from rdfdelta.server import LOG_LIMIT, PATCHES_LIMIT, REGISTRY_LIMIT

FIELD, HEADER = 4, 8
# What stands before a payload: its gate, its running number and its length.
FRAME = 1 + 2 * FIELD
REGISTRY, ZONE, SECOND = 0, 1000, 1001
# The files of a zone. The second one is there once a checkpoint was made.
ZONES = (ZONE, SECOND)
# The most bytes of one: of a checkpoint and all later patches.
ZONE_FILE_LIMIT = 805_306_368
# The files that a folder may have: the registry's, the logs', a zone's.
NUMBERS = (REGISTRY, *range(1, 17), *ZONES)
# An upgrade copies each file to its spare, whose number is so much higher. While its marker stands, the spares count.
SPARE = 2000
MARKERS = {REGISTRY: 2099, ZONE: 3099}
OPEN, SHUT = b"\x01", b"\x00"
# The last value of 64 bits.
MOST = 2**64 - 1
_FILE_NAME = re.compile(r"rdj-([0-9]{4})")


class Form(Enum):
    """The forms of a file, by what it begins with."""

    # Behind a gate stands a payload's length.
    OLD = b"RDJ1"
    # Behind a gate stand its running number, from 1, and its length.
    NEW = b"RDJ2"


def file_of(folder: Path, number: int) -> Path:
    return folder / f"rdj-{number:04d}"


def kind_of(number: int) -> int:
    """The number of a file, or of the one that a spare stands for."""
    return number - SPARE if number >= SPARE else number


def limit_of(number: int) -> int:
    """The most bytes of the file of a number."""
    if kind_of(number) in ZONES:
        return ZONE_FILE_LIMIT
    return REGISTRY_LIMIT if kind_of(number) == REGISTRY else LOG_LIMIT


def marker_of(folder: Path, number: int) -> Path:
    """The marker of an upgrade of a server's files or of a zone, whichever has the file of a number."""
    return file_of(folder, MARKERS[ZONE if number in ZONES else REGISTRY])


def upgrade_of(folder: Path, number: int) -> str:
    """The words that upgrade a server's files or a zone, whichever has the file of a number."""
    return f"rdfdelta {'upgrade_zone' if number in ZONES else 'upgrade'} {folder}"


def check_marker(folder: Path, number: int) -> None:
    """Refuses a folder where an upgrade was stopped: the file of this number may be written in part."""
    marker = marker_of(folder, number)
    if first_of(marker, marker.read_bytes() if marker.exists() else b"") is not None:
        raise errors.Pending(marker)


def pieces_of(number: int, payloads: Sequence[bytes]) -> Iterator[bytes]:
    """The file of these payloads, in the form that is written."""
    yield Form.NEW.value + number.to_bytes(FIELD, "big")
    for count, payload in enumerate(payloads, 1):
        yield OPEN + count.to_bytes(FIELD, "big") + len(payload).to_bytes(FIELD, "big")
        yield payload
    yield SHUT


def first_of(path: Path, content: bytes) -> bytes | None:
    """The first payload of a file, which is read no further; none where it has at most nine bytes, or a gate that is
    shut."""
    if len(content) <= HEADER + 1:
        return None
    form, _ = _header(path, content)
    payloads, _ = _payloads(path, content, form, most=1)
    return payloads[0] if payloads else None


def field_at(content: bytes, at: int) -> int | None:
    """The number that stands at a place, or none where it isn't whole."""
    found = content[at:at + FIELD]
    return int.from_bytes(found, "big") if len(found) == FIELD else None


@dataclass(frozen=True, slots=True)
class Journal:
    """A journal that was read whole: its number, its payloads, and the byte of the gate that ends it."""

    path: Path
    number: int
    payloads: tuple[bytes, ...]
    end: int
    # Of a zone, what the file beside has from before the checkpoint.
    beside: Journal | None = None

    @classmethod
    def read(cls, name: Path | str) -> Journal:
        """Reads a file, or the zone of a folder, under a lock that keeps programs away meanwhile."""
        path = Path(name)
        if path.is_dir():
            return _zone_of(path)
        try:
            with path.open("rb") as file, locks.shared(file, path):
                named = _FILE_NAME.fullmatch(path.name)
                if named and int(named[1]) in NUMBERS:
                    check_marker(path.parent, int(named[1]))
                return cls.parse(path, file.read())
        except OSError as error:
            raise errors.BadFile(path, error.strerror or str(error)) from error

    @classmethod
    def parse(cls, path: Path, content: bytes, takes_old: bool = False) -> Journal:
        """The journal that these bytes of a file are."""
        form, number = _header(path, content, takes_old)
        payloads, end = _payloads(path, content, form)
        if end + 1 > limit_of(number):
            raise errors.BadFile(path, f"over limit: have {end + 1}, limit {limit_of(number)}")
        return cls(path, number, payloads, end)

    def checkpoint(self) -> Checkpoint | None:
        """The checkpoint that stands first in a zone's file, where there is one."""
        first = self.payloads[0] if kind_of(self.number) in ZONES and self.payloads else b""
        if not first.startswith(MARK):
            return None
        found = Checkpoint.parse(first) if HEADER + 1 + FRAME + len(first) <= FILE_LIMIT else None
        return found or _broken(self.path, "checkpoint")

    def links(self) -> list[Link]:
        """The ids of the patches, which are seen to be a chain; those of a checkpoint are there too."""
        begun, patches = self._chain()
        return [*map(Link, begun, [None, *begun]), *(patch.link for patch in patches)]

    def patches(self, start: int = 1) -> Iterator[tuple[int, bytes]]:
        """The patches from a version on, once all were seen to be a chain. A checkpoint has no texts of them: those
        before it come of the file beside, as long as that has them."""
        begun, found = self._chain()
        if start <= len(begun):
            texts = self._texts_before(begun)
            if start <= len(begun) - len(texts):
                raise errors.Kept(self.path, len(begun) - len(texts))
        else:
            texts = []
        texts += [patch.text for patch in found]
        first = len(begun) + len(found) - len(texts) + 1
        yield from ((version, text) for version, text in enumerate(texts, first) if version >= start)

    def _texts_before(self, begun: tuple[str, ...]) -> list[bytes]:
        """The newest of the patches with these ids that the file beside has, where it has them up to the last one."""
        try:
            kept, found = self.beside._chain() if self.beside else ((), [])
        except errors.BadFile:
            return []
        ids = (*kept, *(patch.link.id for patch in found))
        count = max(0, len(begun) - len(kept))
        return [patch.text for patch in found[:count]] if ids[:len(begun)] == begun else []

    def _chain(self) -> tuple[tuple[str, ...], list[Patch]]:
        """The ids of a checkpoint, and the patches behind it, each payload's behind those of the payloads before it."""
        if kind_of(self.number) == REGISTRY:
            raise errors.BadFile(self.path, "the registry has no patches")
        checkpoint = self.checkpoint()
        begun = checkpoint.ids if checkpoint else ()
        chain: list[Patch] = []
        seen: set[str] = set()
        for version, id in enumerate(begun, 1):
            if id in seen or version > PATCHES_LIMIT:
                _broken(self.path, f"chain at version {version}")
            seen.add(id)
        for payload in self.payloads[checkpoint is not None:]:
            run = run_of(self.number, payload)
            ids = [patch.link.id for patch in run]
            head = chain[-1].link.id if chain else begun[-1] if begun else None
            is_next = [patch.link.prev for patch in run] == [head, *ids[:-1]] and len(set(ids)) == len(ids)
            if not is_next or not seen.isdisjoint(ids) or len(seen) + len(run) > PATCHES_LIMIT:
                _broken(self.path, f"chain at version {len(seen) + 1}")
            chain += run
            seen.update(ids)
        # The limit counts each patch as if it stood by itself.
        taken = checkpoint.counts.size if checkpoint else 0
        size = HEADER + 1 + FRAME * len(seen) + taken + sum(len(patch.text) for patch in chain)
        if size > LOG_LIMIT:
            raise errors.BadFile(self.path, f"over limit: have {min(size, MOST)}, limit {LOG_LIMIT}")
        return begun, chain


def _broken(path: Path, what: str) -> NoReturn:
    raise errors.BadFile(path, f"broken {what}")


def _zone_of(folder: Path) -> Journal:
    """The journal of a zone's current file, under locks of both. Of these one may not be there."""
    contents: dict[int, bytes] = {}
    missing: dict[int, FileNotFoundError] = {}
    with ExitStack() as stack:
        for number in ZONES:
            path = file_of(folder, number)
            try:
                file = stack.enter_context(path.open("rb"))
                stack.enter_context(locks.shared(file, path))
                contents[number] = file.read()
            except FileNotFoundError as error:
                missing[number] = error
            except OSError as error:
                raise errors.BadFile(path, error.strerror or str(error)) from error
        check_marker(folder, ZONE)
    number = current_of(folder, [contents.get(number, b"") for number in ZONES])
    if number in missing:
        raise errors.BadFile(file_of(folder, number), missing[number].strerror) from missing[number]
    other = SECOND if number == ZONE else ZONE
    current = Journal.parse(file_of(folder, number), contents[number])
    try:
        return replace(current, beside=Journal.parse(file_of(folder, other), contents.get(other, b"")))
    except errors.BadFile:
        return current


def current_of(folder: Path, contents: Sequence[bytes]) -> int:
    """Which of a zone's files is current, by what they have: the one in the later generation."""
    fronts = [first_of(file_of(folder, number), content) for number, content in zip(ZONES, contents)]
    first, second = (_generation(file_of(folder, number), front) for number, front in zip(ZONES, fronts))
    return SECOND if second is not None and second > (first or 0) else ZONE


def _generation(path: Path, front: bytes | None) -> int | None:
    """The generation of a zone's file by its first payload; none without a checkpoint."""
    if front is None or not front.startswith(MARK):
        return None
    found = first_line(front[:FIRST_LIMIT])
    return found[0].generation if found else _broken(path, "checkpoint")


def run_of(number: int, payload: bytes) -> list[Patch]:
    """The patches of a payload in the file of a number; none where it isn't what may stand there."""
    try:
        run = split(payload) if len(payload) <= PATCH_LIMIT else []
    except errors.BadPatch:
        return []
    return run if kind_of(number) not in ZONES or len(run) == 1 else []


def _header(path: Path, content: bytes, takes_old: bool = False) -> tuple[Form, int]:
    """The form and the number of a file."""
    form = next((form for form in Form if content.startswith(form.value)), None)
    if len(content) < HEADER or form is None:
        raise errors.Damaged(path, 0)
    if form is Form.OLD and not takes_old:
        raise errors.OldFormat(path)
    number = int.from_bytes(content[FIELD:HEADER], "big")
    named = _FILE_NAME.fullmatch(path.name)
    if named and int(named[1]) != number:
        raise errors.BadFile(path, f"wrong number {number}")
    return form, number


def _payloads(path: Path, content: bytes, form: Form, most: int = MOST) -> tuple[tuple[bytes, ...], int]:
    """The payloads behind a file's header, and the byte of the gate that ends them; or so many, and where they end."""
    payloads: list[bytes] = []
    at = HEADER
    while len(payloads) < most and content[at:at + 1] == OPEN:
        at += 1
        if form is Form.NEW:
            if field_at(content, at) != len(payloads) + 1:
                raise errors.Damaged(path, at)
            at += FIELD
        length = field_at(content, at)
        if length is None:
            raise errors.Damaged(path, at)
        at += FIELD
        if at + length > len(content):
            raise errors.Damaged(path, at)
        payloads.append(content[at:at + length])
        at += length
    if len(payloads) < most and at == len(content):
        raise errors.Damaged(path, at)
    return tuple(payloads), at


@dataclass(frozen=True, slots=True)
class Registry:
    """The slots of a server, how many of them were ever used, and its sources in the order of their slots."""

    slots: int
    used: int
    sources: tuple[Source, ...]

    @classmethod
    def of(cls, journal: Journal) -> Registry:
        """The registry that a journal's events make."""
        if kind_of(journal.number) != REGISTRY:
            raise errors.BadFile(journal.path, "not the registry's file")
        first = journal.payloads[0] if journal.payloads else b""
        found = re.fullmatch(rb"S ([1-9][0-9]?)", first)
        if found is None or int(found[1]) > 16:
            _broken(journal.path, "event at 0")
        slots = int(found[1])
        living: dict[int, Source] = {}
        used = 0
        for place, payload in enumerate(journal.payloads[1:], 1):
            try:
                used = _take(living, used, payload.decode("utf-8").split(" "))
            except (KeyError, ValueError):
                _broken(journal.path, f"event at {place}")
            if used > slots:
                _broken(journal.path, f"event at {place}")
        return cls(slots, used, tuple(living[slot] for slot in sorted(living)))


def _take(living: dict[int, Source], used: int, parts: list[str]) -> int:
    """Applies an event; how many slots are used behind it."""
    match parts:
        case ["C", slot, source_id, name, uri] if slot == str(used + 1) and str(uuid.UUID(source_id)) == source_id:
            if any(name == source.name or source_id == source.id for source in living.values()):
                raise ValueError("taken")
            living[used + 1] = Source(source_id, name, used + 1, uri)
            return used + 1
        case ["R", slot, name] if all(name != source.name for source in living.values()):
            source = living[int(slot)]
            living[int(slot)] = Source(source.id, name, source.slot, source.uri)
        case ["D", slot]:
            del living[int(slot)]
        case _:
            raise ValueError("no event")
    return used
