"""Moving a log that is full into a new one, under its name.

The new log is filled under another name first, while the old one is served. Then the old source is renamed, what came
meanwhile is carried over, and the new one takes the name. All ids are made of the old log's, so a move that was stopped
at any moment is the same patches again when it is run again, and the server answers that it knows them.
"""
from __future__ import annotations

import re
import uuid
from collections.abc import Callable
from dataclasses import dataclass

from rdfdelta import datasets, errors
from rdfdelta.answers import LogState, Source
from rdfdelta.patches import PATCH_LIMIT, changes, compose, cut, follow_on, read_link
from rdfdelta.program import Program
from rdfdelta.rows import Literal, read_rows
from rdfdelta.server import LOG_LIMIT, PATCHES_LIMIT, Log, Server

# A log under this share of its limits isn't moved unless that is asked for.
LEAST_SHARE = 0.5
NEXT = ".next"
FROM_KEY = "moved-from"

Look = Callable[[str, int, int], None]


@dataclass(frozen=True, slots=True)
class Moved:
    """The source under its new name, the one that has the name now, and the two versions."""

    old: Source
    new: Source
    old_version: int
    new_version: int


def move_log(server: Server, program: Program, name: str, anyway: bool, look: Look) -> Moved:
    """Moves a log, or goes on with a move that was stopped."""
    old = _old_source(server, name)
    new = _new_source(server, name, old, anyway)
    move = _Move(server, program, old, new, look)
    move.fill()
    if old.name == name:
        old = server.rename(name, _free_name(server, name))
        move.old = old
    # Nobody who goes by the name writes to the old log now: what came till then is carried over.
    new_version = move.carry()
    if new.name != name:
        new = server.rename(new.name, name)
    return Moved(old, new, server.log(old.name).state().version, new_version)


def _new_id(old: Source) -> str:
    return str(uuid.uuid5(uuid.UUID(old.id), "moved"))


def _old_source(server: Server, name: str) -> Source:
    """The source with that name; or, where a move was stopped between its two renamings, the one that had it."""
    sources = server.sources()
    for source in sources:
        if source.name == name:
            return source
    waiting = [source.id for source in sources if source.name == name + NEXT]
    for source in sources:
        if _new_id(source) in waiting:
            return source
    raise errors.RdfDeltaError(f"no source has the name {name}")


def _new_source(server: Server, name: str, old: Source, anyway: bool) -> Source:
    """The source that is filled, which is made where it isn't there."""
    for source in server.sources():
        if source.name == name + NEXT:
            if source.id != _new_id(old):
                raise errors.RdfDeltaError(f"the source {source.name} isn't of a move of {name}: rename it")
            return source
    if not anyway:
        _check_share(server.log(old.name))
    return server.create(name + NEXT, old.uri, _new_id(old))


def _check_share(log: Log) -> None:
    state = log.state()
    if state.version >= LEAST_SHARE * PATCHES_LIMIT:
        return
    size = 0
    for _, patch in log.patches(0, state.version):
        size += len(patch)
        if size >= LEAST_SHARE * LOG_LIMIT:
            return
    raise errors.RdfDeltaError(
        f"{log.name} isn't half full: {state.version:,} of {PATCHES_LIMIT:,} patches, {size:,} of {LOG_LIMIT:,} bytes; "
        "a move takes another of the server's slots"
    )


def _free_name(server: Server, name: str) -> str:
    taken = {source.name for source in server.sources()}
    return next(found for number in range(1, 100) if (found := f"{name}-{number}") not in taken)


class _Move:
    """The patches of the new log, which are the same in each run."""

    def __init__(self, server: Server, program: Program, old: Source, new: Source, look: Look) -> None:
        self.server, self.program, self.old, self.new, self.look = server, program, old, new, look
        self.head: str | None = None
        self.version = 0
        # How much of the old log the new one has.
        self.carried = 0

    def id_of(self, what: str) -> str:
        return str(uuid.uuid5(uuid.UUID(self.new.id), what))

    def fill(self) -> None:
        """The old log's dataset as patches, then the patches that came behind it."""
        old = self.server.log(self.old.name)
        state = self.begun_at(old)
        stream, prefixes = self.read(old, state.version)
        rows = [*prefixes, *(f"A {line}" for line in datasets.of_stream(self.program, stream))]
        notes = [f"H {FROM_KEY} <uuid:{state.head}> ."] if state.head else []
        # The first patch notes where the move began, also of a dataset without quads.
        pieces = list(cut(rows, PATCH_LIMIT, notes)) or [[] for _ in notes]
        for number, piece in enumerate(pieces, 1):
            patch_id = self.id_of(f"{state.head} {number}")
            self.append(patch_id, compose(patch_id, self.head, piece, notes))
            self.look("filling", number, len(pieces))
        self.carried = state.version
        self.carry()

    def begun_at(self, old: Log) -> LogState:
        """The place in the old log whose dataset the new one begins with: that of the first run."""
        new = self.server.log(self.new.name)
        if new.state().version == 0:
            return old.state()
        for row in read_rows(new.fetch(1)):
            key = row.parts[0] if row.code == "H" else None
            found = re.fullmatch(r"<uuid:([0-9a-f-]{36})>", str(row.parts[1])) if key == Literal(FROM_KEY) else None
            if found:
                return LogState(found[1], self.version_of(old, found[1]))
        raise errors.RdfDeltaError(f"{new.name} has patches that no move made")

    def version_of(self, old: Log, patch_id: str) -> int:
        state = old.state()
        for version in range(state.version, 0, -1):
            if read_link(old.fetch(version)).id == patch_id:
                return version
        raise errors.Parted(f"{old.name} lacks the patch {patch_id} at which the move began")

    def read(self, old: Log, version: int) -> tuple[bytes, list[str]]:
        """The old log as a stream, and the rows of the prefixes that it sets."""
        stream = []
        prefixes: dict[tuple[str, ...], str] = {}
        for at, patch in old.patches(0, version):
            stream.append(patch)
            for row in changes(patch) if b"PA" in patch or b"PD" in patch else ():
                graph = row.parts[2:] if row.code == "PA" else row.parts[1:]
                place = (str(row.parts[0]), *map(str, graph))
                if row.code == "PA":
                    prefixes[place] = row.text
                elif row.code == "PD":
                    prefixes.pop(place, None)
            self.look("reading", at, version)
        return b"".join(stream), list(prefixes.values())

    def carry(self) -> int:
        """Carries over what the old log has by now; the version of the new one."""
        old = self.server.log(self.old.name)
        until = old.state().version
        for version, patch in old.patches(self.carried, until):
            patch_id = self.id_of(read_link(patch).id)
            self.append(patch_id, follow_on(patch, patch_id, self.head))
            self.carried = version
            self.look("carrying over", version, until)
        return self.version

    def append(self, patch_id: str, patch: bytes) -> None:
        self.version = self.server.log(self.new.name).append(patch).version
        self.head = patch_id
