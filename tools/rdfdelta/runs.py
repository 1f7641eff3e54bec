"""Patches that are appended in runs, which cost a log's disk as much as one patch does."""
from __future__ import annotations

from collections.abc import Iterable, Iterator

from rdfdelta import errors
from rdfdelta.answers import Appended
from rdfdelta.patches import PATCH_LIMIT, stand_apart
from rdfdelta.server import Log


def runs_of(patches: Iterable[bytes]) -> Iterator[list[bytes]]:
    """Patches in runs, each as long as a request may be. One that isn't surely cut off where it begins, begins one."""
    run: list[bytes] = []
    size = 0
    for patch in patches:
        if run and (size + len(patch) > PATCH_LIMIT or not stand_apart(run[-1], patch)):
            yield run
            run, size = [], 0
        run.append(patch)
        size += len(patch)
    if run:
        yield run


def append_all(log: Log, patches: Iterable[bytes]) -> Iterator[Appended]:
    """Appends patches in runs, or one by one where the server takes none; what became of each, in their order."""
    for run in runs_of(patches):
        yield from _append(log, run)


def _append(log: Log, run: list[bytes]) -> Iterator[Appended]:
    if len(run) > 1 and log.server.takes_runs:
        try:
            found = log.append_run(run)
        except errors.NoRuns:
            pass
        else:
            yield from (Appended(version, found.known) for version in range(found.first, found.version + 1))
            return
    yield from map(log.append, run)
