"""What may go wrong, as one tree of exceptions. Each one's text is a whole line for whoever asked."""
from __future__ import annotations

from pathlib import Path


class RdfDeltaError(Exception):
    """The root of all errors of this package."""


class BadAddress(RdfDeltaError):
    """Words that are no address of a server."""


class LinkFailed(RdfDeltaError):
    """The server couldn't be reached, or the connection ended before its answer was whole."""


class NotUnderstood(RdfDeltaError):
    """What came is no answer of an rdfdelta server."""


class Refused(RdfDeltaError):
    """The server's answer has another status than 200; `error` is the name of the refusal, or empty."""

    def __init__(self, status: int, error: str, text: str) -> None:
        super().__init__(f"refused: {status} {text}")
        self.status = status
        self.error = error


class NoSource(Refused):
    """No source has this name; it may have been renamed or removed."""


class NoPatch(Refused):
    """The log lacks this patch; `version` is the log's."""

    def __init__(self, status: int, error: str, text: str, version: int) -> None:
        super().__init__(status, error, text)
        self.version = version


class BadRun(Refused):
    """Patches are no run: `at` is 0 where there is none, else the place, from 2 on, of the first one that doesn't name
    the one before it or has an id that came already."""

    def __init__(self, status: int, error: str, text: str, at: int) -> None:
        super().__init__(status, error, text)
        self.at = at


class NoRuns(Refused):
    """The server takes no runs: it is of version 0.2.0 or older."""


class Known(Refused):
    """The log has the patch's id at `version`, with the same bytes or with others; of a run, the first of its ids that
    the log has, and whether the run stands there as a whole."""

    def __init__(self, status: int, error: str, text: str, version: int, same: bool) -> None:
        super().__init__(status, error, text)
        self.version = version
        self.same = same


class Conflict(Refused):
    """The log has another head than the patch names; `prev_version` is where the one that it names stands."""

    def __init__(
        self, status: int, error: str, text: str, head: str | None, version: int, prev_version: int | None
    ) -> None:
        super().__init__(status, error, text)
        self.head = head
        self.version = version
        self.prev_version = prev_version


class Full(Refused):
    """`what` is used up: slots, patches or bytes."""

    def __init__(self, status: int, error: str, text: str, what: str, have: int, limit: int) -> None:
        super().__init__(status, error, text)
        self.what = what
        self.have = have
        self.limit = limit


class BadPatch(RdfDeltaError):
    """A text is no patch, or rows are none; `at` is the byte, counted from 0, and `line` its line, from 1."""

    def __init__(self, at: int, line: int, what: str) -> None:
        super().__init__(f"line {line} byte {at}: {what}")
        self.at = at
        self.line = line


class BadFile(RdfDeltaError):
    """A file that isn't in its form."""

    def __init__(self, path: Path, what: str) -> None:
        super().__init__(f"{path}: {what}")
        self.path = path


class OldFormat(BadFile):
    """A file of the form that versions up to 0.2.0 write: `rdfdelta upgrade` writes it anew."""

    def __init__(self, path: Path) -> None:
        super().__init__(path, "old format")


class Pending(BadFile):
    """The marker of an upgrade that was stopped: the files may be written in part, and their spares are whole."""

    def __init__(self, path: Path) -> None:
        super().__init__(path, "upgrade pending")


class Damaged(BadFile):
    """A journal that isn't whole; `at` is the byte at which its form ends."""

    def __init__(self, path: Path, at: int) -> None:
        super().__init__(path, f"byte {at}: damaged")
        self.at = at


class Kept(RdfDeltaError):
    """The patches up to `version` have gone into a checkpoint: a zone keeps what they did, and no texts."""

    def __init__(self, path: Path, version: int) -> None:
        super().__init__(f"{path}: the texts up to version {version} have gone into a checkpoint")
        self.path = path
        self.version = version


class Parted(RdfDeltaError):
    """A log isn't the one that was copied or followed: another one, or restored from an older copy."""


class Held(RdfDeltaError):
    """Another process has a file or a folder."""


class ProgramFailed(RdfDeltaError):
    """The program rdfdelta ended with another status than 0; `line` is what it said."""

    def __init__(self, status: int, line: str) -> None:
        super().__init__(line or f"rdfdelta ended with status {status}")
        self.status = status
        self.line = line
