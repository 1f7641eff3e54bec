"""The server's answers, read from JSON and checked: the tables of docs/HTTP.md as types."""
from __future__ import annotations

import json
import uuid
from dataclasses import dataclass
from typing import NoReturn

from rdfdelta import errors

Members = dict[str, object]


@dataclass(frozen=True, slots=True)
class Source:
    """A name, a URI and an id with one log, in a slot of the server."""

    id: str
    name: str
    slot: int
    uri: str


@dataclass(frozen=True, slots=True)
class LogState:
    """The version of a log and the id of its newest patch, none where it is empty."""

    head: str | None
    version: int


@dataclass(frozen=True, slots=True)
class Appended:
    """The patch stands at `version`; `known` where it had been sent before."""

    version: int
    known: bool = False


@dataclass(frozen=True, slots=True)
class AppendedRun:
    """The patches stand at the versions from `first` to `version`; `known` where they had been sent before."""

    first: int
    version: int
    known: bool = False


def _wrong(member: str) -> NoReturn:
    raise errors.NotUnderstood(f"answer not understood: member {member}")


def number(members: Members, member: str) -> int:
    value = members.get(member)
    if isinstance(value, bool) or not isinstance(value, int) or value < 0:
        _wrong(member)
    return value


def text(members: Members, member: str) -> str:
    value = members.get(member)
    return value if isinstance(value, str) else _wrong(member)


def identifier(members: Members, member: str) -> str:
    value = text(members, member)
    try:
        return str(uuid.UUID(value))
    except ValueError:
        _wrong(member)


def members_of(body: bytes) -> Members:
    """The members of a JSON object."""
    try:
        value = json.loads(body)
    except (ValueError, RecursionError):
        value = None
    if not isinstance(value, dict):
        raise errors.NotUnderstood("answer not understood: no JSON object; is this an rdfdelta server?")
    return value


def source(value: object) -> Source:
    if not isinstance(value, dict):
        _wrong("source")
    return Source(identifier(value, "id"), text(value, "name"), number(value, "slot"), text(value, "uri"))


def sources(members: Members) -> list[Source]:
    listed = members.get("sources")
    return [source(one) for one in listed] if isinstance(listed, list) else _wrong("sources")


def state(members: Members) -> LogState:
    head = None if members.get("head", "") is None else identifier(members, "head")
    version = number(members, "version")
    if (head is None) != (version == 0):
        _wrong("head")
    return LogState(head, version)


def appended_run(members: Members, count: int) -> AppendedRun:
    """What became of a run of so many patches."""
    found = AppendedRun(number(members, "first"), number(members, "version"))
    return found if found.first + count == found.version + 1 else _wrong("first")


def refusal(status: int, body: bytes) -> errors.RdfDeltaError:
    """The error that an answer of another status than 200 tells."""
    shown = body[:500].decode("utf-8", "replace").strip()
    try:
        members = members_of(body)
    except errors.NotUnderstood:
        return errors.Refused(status, "", f"not of an rdfdelta server, but of what stands before it: {shown[:100]}")
    error = members.get("error")
    match (status, error):
        case (400, "bad_run"):
            return errors.BadRun(400, "bad_run", shown, number(members, "at"))
        case (404, "no_source"):
            return errors.NoSource(404, "no_source", shown)
        case (404, "no_patch"):
            return errors.NoPatch(404, "no_patch", shown, number(members, "version"))
        case (409, "known"):
            return errors.Known(409, "known", shown, number(members, "version"), members.get("same") is True)
        case (409, "conflict"):
            found = state(members)
            before = None if members.get("prev_version") is None else number(members, "prev_version")
            return errors.Conflict(409, "conflict", shown, found.head, found.version, before)
        case (507, "full"):
            have, limit = number(members, "have"), number(members, "limit")
            return errors.Full(507, "full", shown, text(members, "what"), have, limit)
    return errors.Refused(status, error if isinstance(error, str) else "", shown)
