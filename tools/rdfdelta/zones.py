"""Zones: folders in which the program keeps a copy of a log with its dataset.

The program locks a zone's files while it has them, and whoever comes meanwhile is told that the disk failed. So all
that goes through here waits for a lock file of its own beside them first. The program has that lock too: it goes on
where whoever called it was killed.
"""
from __future__ import annotations

from collections.abc import Callable, Iterator
from contextlib import contextmanager
from pathlib import Path

from rdfdelta import errors, locks
from rdfdelta.answers import LogState
from rdfdelta.counter import ZoneCounter
from rdfdelta.journal import HEADER, ZONE, ZONES, file_of, upgrade_of
from rdfdelta.program import Program
from rdfdelta.server import Log

LOCK_FILE = "rdfd.lock"
# The statuses of the program that the zone's loop tells apart.
DISK_FAILED, DAMAGED, OTHER_CHAIN = 5, 9, 10
TRIED_AGAIN = frozenset({6, 7, 8})


class Zone:
    """The zone in a folder."""

    def __init__(self, folder: Path, program: Program, tell: Callable[[str], None] | None = None) -> None:
        self.folder = folder
        self.program = program
        self.files = [file_of(folder, number) for number in ZONES]
        self._tell = tell
        self._counter = ZoneCounter(folder)

    @contextmanager
    def alone(self) -> Iterator[int]:
        """The zone's lock, by its descriptor."""
        if not self.folder.is_dir():
            raise errors.RdfDeltaError(f"{self.folder}: no such folder")
        with locks.exclusive(self.folder / LOCK_FILE, tell=self._tell) as lock:
            yield lock

    def make(self) -> None:
        """Makes the folder and the zone in it where there is none."""
        self.folder.mkdir(parents=True, exist_ok=True)
        with self.alone() as lock:
            first, second = (path.stat().st_size if path.exists() else 0 for path in self.files)
            if first == 0 and second <= HEADER + 1:
                self.program.run("zone", self.folder, given=[lock])

    def state(self) -> LogState:
        """The version of the zone and its newest patch, by its file."""
        counter = self._counter.look()
        return LogState(counter.head(), counter.count)

    def kept(self) -> int:
        """How many patches have gone into its checkpoint; 0 where it has none."""
        return self._counter.look().kept

    def sync(self, log: Log, look: Callable[[int], None]) -> None:
        """Has the program fetch and take what the log has behind the zone; the zone's version is told meanwhile."""
        address = log.server.direct_address()
        log.server.rest()
        with self.alone() as lock:
            words = ("sync", self.folder, address, log.name)
            self.program.watch(*words, look=lambda: look(self._counter.look().count), given=[lock])

    def make_checkpoint(self) -> None:
        """Has the program write what the zone has as a checkpoint, behind which openings read on."""
        with self.alone() as lock:
            self.program.run("checkpoint", self.folder, given=[lock])

    def show(self, command: str, *words: str) -> int:
        """Has the program print what the zone has; its status."""
        with self.alone() as lock:
            return self.program.show(command, self.folder, *words, given=[lock])


def hint(zone: Path, failed: errors.ProgramFailed) -> str | None:
    """What to do where the zone and the log have parted, nobody has that log, or the zone is to be upgraded."""
    if failed.status == 1 and "no_source" in failed.line:
        return "the source was renamed or removed, or the name is wrong: `rdfd logs` shows the names"
    if failed.status == DAMAGED and "old format" in failed.line:
        return f"an older version made the zone: `{upgrade_of(zone, ZONE)}` writes it anew"
    if failed.status == DAMAGED and "upgrade pending" in failed.line:
        return f"an upgrade of the zone was stopped: `{upgrade_of(zone, ZONE)}` ends it"
    if failed.status != OTHER_CHAIN:
        return None
    if "peer behind" in failed.line:
        return (
            "the log was restored from an older copy. The zone has patches that the log lacks: before writers go on,\n"
            f"`rdfd patches {zone} FROM --append LOG` gives them back, FROM being the log's version and one"
        )
    return (
        "the log is another one than the zone followed, or went on behind a restoring. To begin anew, follow it with\n"
        f"another folder; `rdfd patches {zone}` prints what this zone has taken"
    )
