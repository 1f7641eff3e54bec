"""Copies of a server's logs in a folder, made over HTTP, and given back.

    sources.json     the sources, as the server lists them
    ID/1, ID/2, ..   the patches of the source with that id, as they were sent
    check            a line for each log as `rdfdelta check` prints it, of what the copy has

Each file comes whole, and the patches of a log one after another. So a copy that was stopped is one of fewer patches,
and the next run goes on behind them.
"""
from __future__ import annotations

import json
import re
from collections.abc import Callable, Iterator
from contextlib import contextmanager
from dataclasses import asdict, dataclass
from pathlib import Path

from rdfdelta import answers, errors, files, locks
from rdfdelta.answers import LogState, Source
from rdfdelta.patches import read_link
from rdfdelta.runs import append_all
from rdfdelta.server import Log, Server

SOURCES, CHECK, LOCK = "sources.json", "check", ".lock"
# Which source, how many of its patches are done, and of how many.
Look = Callable[[Source, int, int], None]
_CHECK_LINE = re.compile(r"file ([0-9]{1,2}) patches ([0-9]{1,6}) head (?:none|[0-9a-f-]{36})")


@dataclass(frozen=True, slots=True)
class Outcome:
    """What became of one log: how many patches were moved, where it is then, or why it was left as it was."""

    source: Source
    moved: int
    version: int
    trouble: str | None = None


class Copy:
    """The copy in a folder."""

    def __init__(self, folder: Path) -> None:
        self.folder = folder

    @contextmanager
    def alone(self) -> Iterator[None]:
        """Nobody else writes or gives back this copy meanwhile."""
        with locks.exclusive(self.folder / LOCK, seconds=0):
            yield

    def patch_file(self, source: Source, version: int) -> Path:
        return self.folder / source.id / str(version)

    def version(self, source: Source) -> int:
        """How many patches are there without a gap. Behind a crash of the machine a later one may stand alone."""
        folder = self.folder / source.id
        names = {path.name for path in folder.iterdir()} if folder.is_dir() else set()
        version = 0
        while str(version + 1) in names:
            version += 1
        return version

    def patch(self, source: Source, version: int) -> bytes:
        return self.patch_file(source, version).read_bytes()

    def state(self, source: Source) -> LogState:
        version = self.version(source)
        return LogState(self.head_at(source, version), version)

    def head_at(self, source: Source, version: int) -> str | None:
        """The id of the patch at a version, none for 0."""
        if version == 0:
            return None
        try:
            return read_link(self.patch(source, version)).id
        except errors.BadPatch as error:
            raise errors.BadFile(self.patch_file(source, version), str(error)) from error

    def sources(self) -> list[Source]:
        """The sources of the copy, in the order of their slots."""
        path = self.folder / SOURCES
        try:
            found = answers.sources(answers.members_of(path.read_bytes()))
        except FileNotFoundError:
            raise errors.BadFile(path, "not there: this is no copy, or its first run was stopped at once") from None
        except errors.NotUnderstood as error:
            raise errors.BadFile(path, str(error)) from error
        return sorted(found, key=lambda source: source.slot)

    def noted(self) -> dict[int, tuple[int, str]]:
        """The lines of `check` by their slots, each with its version."""
        path = self.folder / CHECK
        lines = path.read_text("utf-8", "replace").splitlines() if path.exists() else []
        found = {}
        for line in lines:
            read = _CHECK_LINE.fullmatch(line)
            if read is None:
                raise errors.BadFile(path, f"no line of check: {line}")
            found[int(read[1])] = (int(read[2]), line)
        return found

    def write_sources(self, sources: list[Source]) -> None:
        listed = {"sources": [asdict(source) for source in sources]}
        text = json.dumps(listed, separators=(",", ":"), sort_keys=True, ensure_ascii=False) + "\n"
        files.write_whole(self.folder / SOURCES, text.encode())

    def write_check(self, sources: list[Source]) -> None:
        ordered = sorted(sources, key=lambda source: source.slot)
        text = "".join(check_line(source, self.state(source)) + "\n" for source in ordered)
        files.write_whole(self.folder / CHECK, text.encode())
        files.sync_folder(self.folder)


def check_line(source: Source, state: LogState) -> str:
    return f"file {source.slot} patches {state.version} head {state.head or 'none'}"


def back_up(server: Server, folder: Path, look: Look) -> list[Outcome]:
    """Copies what the logs of a server have behind the copy. A log that isn't the one that was copied is left alone."""
    folder.mkdir(parents=True, exist_ok=True)
    copy = Copy(folder)
    with copy.alone():
        sources = server.sources()
        copy.write_sources(sources)
        outcomes = [_outcome(source, copy, lambda: _copy_log(server, copy, source, look)) for source in sources]
        copy.write_check(sources)
    return outcomes


def _outcome(source: Source, copy: Copy, work: Callable[[], int]) -> Outcome:
    """What became of the work on one log; other logs go on where it can't."""
    try:
        moved = work()
    except (errors.Parted, errors.NoSource, errors.BadFile, errors.NotUnderstood) as error:
        return Outcome(source, 0, copy.version(source), str(error))
    return Outcome(source, moved, copy.version(source))


def _copy_log(server: Server, copy: Copy, source: Source, look: Look) -> int:
    log = server.log(source.name)
    state = log.state()
    have = copy.state(source)
    if have.version > state.version or (have.version and log.fetch(have.version) != copy.patch(source, have.version)):
        raise errors.Parted(
            f"the copy has {have.version} patches and the log {state.version}, which aren't the same: "
            f"was it restored from an older copy? To copy it anew, move {copy.folder / source.id} away"
        )
    folder = copy.folder / source.id
    folder.mkdir(exist_ok=True)
    before = have.head
    look(source, have.version, state.version)
    for version, patch in log.patches(have.version, state.version):
        if read_link(patch).prev != before:
            raise errors.Parted(f"patch {version} doesn't follow the one that was copied")
        files.write_whole(copy.patch_file(source, version), patch)
        before = read_link(patch).id
        look(source, version, state.version)
    files.sync_folder(folder)
    if server.source(source.name).id != source.id:
        raise errors.Parted(f"the name {source.name} went to another source meanwhile: run it again")
    return state.version - have.version


def restore(server: Server, folder: Path, look: Look) -> list[Outcome]:
    """Gives a copy back to a server that is empty, or whose logs are fronts of the copy's, as a stop leaves them."""
    copy = Copy(folder)
    if not folder.is_dir():
        raise errors.RdfDeltaError(f"{folder}: no such folder")
    with copy.alone():
        sources = copy.sources()
        _check_copy(copy, sources)
        _check_server(server, copy, sources)
        living = {source.id for source in server.sources()}
        for source in sources:
            if source.id not in living:
                _create(server, source)
        return [_given(server, copy, source, look) for source in sources]


def _given(server: Server, copy: Copy, source: Source, look: Look) -> Outcome:
    moved = _give_log(server.log(source.name), copy, source, look)
    # The lines of `check` are written at the end of a backup.
    is_noted = source.slot in copy.noted()
    trouble = None if is_noted else "its first backup was stopped: the log may have had more patches"
    return Outcome(source, moved, copy.version(source), trouble)


def _check_copy(copy: Copy, sources: list[Source]) -> None:
    """Whether the copy has all that its lines of `check` name."""
    noted = copy.noted()
    for source in sources:
        if source.slot not in noted:
            continue
        version, line = noted[source.slot]
        have = copy.version(source)
        if have < version or line != check_line(source, LogState(copy.head_at(source, version), version)):
            raise errors.BadFile(copy.folder / source.id, f"has {have} patches without a gap, and was noted as: {line}")


def _check_server(server: Server, copy: Copy, sources: list[Source]) -> None:
    """Whether the server has nothing else than a front of the copy."""
    named = {source.id: source for source in sources}
    for found in server.sources():
        source = named.get(found.id)
        if source is None or source.name != found.name:
            raise errors.Parted(f"the server isn't empty: it has the source {found.name}, which the copy lacks")
        state = server.log(found.name).state()
        if state.version > copy.version(source) or state.head != copy.head_at(source, state.version):
            raise errors.Parted(f"{found.name}: the log of {state.version} patches isn't a front of the copy's")


def _create(server: Server, source: Source) -> None:
    try:
        server.create(source.name, source.uri, source.id)
    except errors.Refused as error:
        # The answer to a first try may have been lost.
        if error.error not in ("name_taken", "id_taken") or server.source(source.name).id != source.id:
            raise


def _give_log(log: Log, copy: Copy, source: Source, look: Look) -> int:
    begun = log.state().version
    until = copy.version(source)
    look(source, begun, until)
    patches = (copy.patch(source, version) for version in range(begun + 1, until + 1))
    for version, stands in enumerate(append_all(log, patches), begun + 1):
        if stands.version != version:
            at = stands.version
            raise errors.Parted(f"{source.name}: patch {version} of the copy stands at version {at} of the log")
        look(source, version, until)
    return until - begun
