"""Logs of RDF patches: a client of rdfdelta servers, and the forms of their files.

`Server` and `Log` ask a server over HTTP. `Journal` and `Registry` read the files of a server or a zone. `Follower`
keeps an rdflib Dataset in step with a log, both ways; it needs rdflib.
"""
from __future__ import annotations

from typing import TYPE_CHECKING

from rdfdelta.answers import Appended, AppendedRun, LogState, Source
from rdfdelta.errors import (
    BadAddress,
    BadFile,
    BadPatch,
    BadRun,
    Conflict,
    Damaged,
    Full,
    Held,
    Kept,
    Known,
    LinkFailed,
    NoPatch,
    NoRuns,
    NoSource,
    NotUnderstood,
    OldFormat,
    Parted,
    Pending,
    ProgramFailed,
    RdfDeltaError,
    Refused,
)
from rdfdelta.journal import Journal, Registry
from rdfdelta.patches import Link, read_link
from rdfdelta.server import Log, Server

if TYPE_CHECKING:
    from rdfdelta.follower import Follower

__version__ = "0.3.0"
__all__ = [
    "Appended", "AppendedRun", "BadAddress", "BadFile", "BadPatch", "BadRun", "Conflict", "Damaged", "Follower", "Full",
    "Held", "Journal", "Kept", "Known", "Link", "LinkFailed", "Log", "LogState", "NoPatch", "NoRuns", "NoSource",
    "NotUnderstood", "OldFormat", "Parted", "Pending", "ProgramFailed", "RdfDeltaError", "Refused", "Registry",
    "Server", "Source", "read_link",
]


def __getattr__(name: str) -> object:
    """`Follower` is loaded when it is asked for, since rdflib may be missing."""
    if name == "Follower":
        from rdfdelta.follower import Follower

        return Follower
    raise AttributeError(name)
