"""Rows that become patches behind the head of a log."""
from __future__ import annotations

from collections.abc import Iterator
from dataclasses import dataclass

from rdfdelta import errors
from rdfdelta.patches import PATCH_LIMIT, compose, cut, draw_id
from rdfdelta.rows import read_rows
from rdfdelta.runs import runs_of
from rdfdelta.server import Log


@dataclass(frozen=True, slots=True)
class Put:
    """A patch that stands: its place among those of one call, how many of these were taken with it, all or none, its
    version, id and number of rows."""

    number: int
    count: int
    together: int
    version: int
    id: str
    rows: int


def rows_of(text: bytes) -> list[str]:
    """The rows of A, D, PA and PD of an input, which has no others: ids and blocks are made by `put`."""
    found = []
    for row in read_rows(text):
        if row.code not in ("A", "D", "PA", "PD"):
            raise errors.BadPatch(row.at, row.line, f"a row of {row.code}: ids and blocks are made here")
        found.append(row.text)
    return found


def put(log: Log, rows: list[str], head: str | None, tries: int = 0, limit: int = PATCH_LIMIT) -> Iterator[Put]:
    """Appends rows as patches below a limit of bytes, one behind another and the first one behind a head: in runs, each
    as long as a request may be, or one by one where the server takes none. Where another patch stands there by then,
    they go behind that one as long as there are tries, and are a conflict else."""
    pieces = list(cut(rows, limit))
    ids = [draw_id() for _ in pieces]
    done = 0
    while done < len(pieces):
        patches = _patches(pieces, ids, done, head)
        run = next(runs_of(patches)) if log.server.takes_runs else [next(patches)]
        try:
            first = _append(log, run)
        except errors.NoRuns:
            continue
        except errors.Conflict as conflict:
            if tries <= 0:
                raise
            tries -= 1
            head = conflict.head
            continue
        for place in range(done, done + len(run)):
            version = first + place - done
            yield Put(place + 1, len(pieces), len(run), version, ids[place], len(pieces[place]))
        done += len(run)
        head = ids[done - 1]


def _patches(pieces: list[list[str]], ids: list[str], done: int, head: str | None) -> Iterator[bytes]:
    """The patches of the pieces that aren't done yet, the first one behind a head."""
    for place in range(done, len(pieces)):
        yield compose(ids[place], head if place == done else ids[place - 1], pieces[place])


def _append(log: Log, run: list[bytes]) -> int:
    """Appends patches all or none; the version of the first one."""
    return log.append(run[0]).version if len(run) == 1 else log.append_run(run).first
