"""Which of all it was, behind `disk failed` and `link failed`."""
from __future__ import annotations

import errno
import os
import pwd
import re
import resource
import socket
import stat
from dataclasses import dataclass
from pathlib import Path

from rdfdelta import errors, locks, sockets
from rdfdelta.journal import (
    MARKERS,
    NUMBERS,
    REGISTRY,
    ZONE,
    ZONES,
    Journal,
    Registry,
    check_marker,
    file_of,
    upgrade_of,
)
from rdfdelta.server import Server

ROOM = 4_194_304 + 4_096
ANSWER_SECONDS = 5.0
# Files, listener, standard streams, and a connection for each of sixteen workers.
DESCRIPTORS = 17 + 1 + 3 + 16


@dataclass(frozen=True, slots=True)
class Finding:
    """What was found, whether it keeps the program from its work, and what to do then."""

    text: str
    is_cause: bool = True
    remedy: str = ""


def why(words: str) -> list[Finding]:
    """What is found of an address or a folder."""
    if words.startswith(("http://", "https://")):
        scheme, _, rest = words.rstrip("/").partition("://")
        found = Finding(f"the program's addresses have no {scheme}://", True, f"write it as {rest}")
        return [found, *_of_address(rest)]
    if "/" in words or os.path.exists(words):
        return _of_folder(Path(words))
    if ":" in words:
        return _of_address(words)
    remedy = f"as in {words}:10660, or ./{words}"
    return [Finding(f"neither a folder nor an address with a port: {words}", True, remedy)]


def _user(number: int) -> str:
    try:
        return pwd.getpwuid(number).pw_name
    except KeyError:
        return f"user {number}"


def _of_folder(folder: Path) -> list[Finding]:
    """The findings of a folder, in the order in which the program would meet them."""
    try:
        found = folder.stat()
    except PermissionError:
        return [Finding(f"{folder}: a folder above it can't be searched by {_user(os.geteuid())}")]
    except OSError as error:
        is_missing = error.errno == errno.ENOENT
        remedy = "no command makes it: mkdir, then rdfdelta init or rdfdelta zone" if is_missing else ""
        return [Finding(f"{folder}: {error.strerror}", True, remedy)]
    if not stat.S_ISDIR(found.st_mode):
        return [Finding(f"{folder}: not a folder")]
    findings = _of_rights(folder, found)
    if not findings:
        findings = [*_of_place(folder), *_of_files(folder), *_of_descriptors()]
    return findings or [Finding(f"{folder}: nothing that would keep the program from it was found", False)]


def _of_rights(path: Path, found: os.stat_result) -> list[Finding]:
    """Whether a folder may be searched, or a file read and written; one that is mounted read-only is told as that."""
    needed, verb = (os.X_OK, "search") if stat.S_ISDIR(found.st_mode) else (os.R_OK | os.W_OK, "read and write")
    if os.access(path, needed, effective_ids=True) or os.statvfs(path).f_flag & os.ST_RDONLY:
        return []
    mode = stat.filemode(found.st_mode)
    who = f"{_user(os.geteuid())} may not {verb} it: {mode}, of {_user(found.st_uid)}"
    return [Finding(f"{path}: {who}", True, "run the command as that user, or give it the files")]


def _of_place(folder: Path) -> list[Finding]:
    place = os.statvfs(folder)
    findings = []
    if place.f_flag & os.ST_RDONLY:
        findings.append(Finding(f"{folder}: on a filesystem that is mounted read-only", True,
                                "copy the files elsewhere: the program opens them for writing, also to check them"))
    room = place.f_bavail * place.f_frsize
    if room < ROOM:
        text = f"{folder}: no room: {room:,} bytes are free, a patch may have 4,194,304"
        findings.append(Finding(text, True, "make room"))
    if place.f_files and not place.f_favail:
        findings.append(Finding(f"{folder}: no room: no more files can be made there"))
    return findings


def _of_files(folder: Path) -> list[Finding]:
    files = [path for number in NUMBERS if (path := file_of(folder, number)).exists()]
    if not files:
        remedy = "rdfdelta init makes a server's files, rdfdelta zone a zone's"
        return [Finding(f"{folder}: no rdj- files", True, remedy)]
    markers = {kind: path for kind, number in MARKERS.items() if (path := file_of(folder, number)).exists()}
    held = [path for path in [*markers.values(), *files] if locks.is_held(path)]
    if held:
        remedy = "one process at a time has a folder: stop that one, ask it over HTTP, or use rdfd for a zone"
        return [Finding(f"{held[0]}: held by {locks.held_by(held[0])}", True, remedy)]
    # Where a marker stands, what the files have says nothing.
    findings = [finding for kind, path in markers.items() for finding in _of_marker(path, kind)]
    if findings:
        return findings
    zone = [path for path in files if path in [file_of(folder, number) for number in ZONES]]
    findings = [finding for path in files if path not in zone for finding in _of_file(path)]
    return [*findings, *(_of_zone(folder, zone) if zone else _of_slots(folder, files))]


def _of_use(path: Path) -> list[Finding]:
    """Whether a path is a file that may be read and written."""
    found = path.stat()
    return _of_rights(path, found) if stat.S_ISREG(found.st_mode) else [Finding(f"{path}: not a file")]


def _of_marker(path: Path, kind: int) -> list[Finding]:
    findings = _of_use(path)
    if findings:
        return findings
    try:
        check_marker(path.parent, kind)
    except errors.Pending as error:
        return [_to_upgrade(error, kind)]
    except errors.RdfDeltaError as error:
        return [Finding(str(error), True, "see Restoring in OPERATING.md")]
    return []


def _to_upgrade(error: errors.BadFile, number: int) -> Finding:
    """A file of this number whose folder is to be upgraded, or whose upgrade is to be ended."""
    return Finding(str(error), True, f"{upgrade_of(error.path.parent, number)}; see A new version in OPERATING.md")


def _of_file(path: Path) -> list[Finding]:
    return _of_use(path) or _of_reading(path, int(path.name[-4:]))


def _of_zone(folder: Path, files: list[Path]) -> list[Finding]:
    """The findings of a zone, of whose files the one that isn't current may have anything behind its front."""
    return [finding for path in files for finding in _of_use(path)] or _of_reading(folder, ZONE)


def _of_reading(path: Path, number: int) -> list[Finding]:
    """Whether the file of a number can be read, or a zone."""
    try:
        Journal.read(path)
    except errors.OldFormat as error:
        return [_to_upgrade(error, number)]
    except errors.RdfDeltaError as error:
        return [Finding(str(error), True, "see Restoring in OPERATING.md")]
    return []


def _of_slots(folder: Path, files: list[Path]) -> list[Finding]:
    """Whether the registry is there, and a file for each slot."""
    registry = file_of(folder, REGISTRY)
    if registry not in files:
        remedy = "where init was broken off: remove the rdj- files, and init again; else see Restoring in OPERATING.md"
        return [Finding(f"{registry}: not there", True, remedy)]
    try:
        slots = Registry.of(Journal.read(registry)).slots
    except errors.RdfDeltaError:
        return []
    missing = [file_of(folder, number) for number in range(1, slots + 1) if file_of(folder, number) not in files]
    return [Finding(f"{path}: not there", True, "see One damaged file in OPERATING.md") for path in missing]


def _of_descriptors() -> list[Finding]:
    limit, _ = resource.getrlimit(resource.RLIMIT_NOFILE)
    if limit == resource.RLIM_INFINITY or limit >= DESCRIPTORS:
        return []
    text = f"a process may open {limit} descriptors here, and a server takes up to {DESCRIPTORS}"
    return [Finding(text, True, "ulimit -n")]


def _of_address(address: str) -> list[Finding]:
    found = re.fullmatch(r"([!-.0-~]+):([0-9]{1,5})", address)
    if found is None or len(address) > 255 or not 0 < int(found[2]) < 65_536:
        return [Finding(f"no address: {address}: behind the last : stands a port from 1 to 65535")]
    host, port = found[1].strip("[]"), int(found[2])
    try:
        socket.create_connection((host, port), timeout=ANSWER_SECONDS).close()
    except socket.gaierror as error:
        return [Finding(f"{host}: no machine has this name: {error.strerror}")]
    except ConnectionRefusedError:
        return [Finding(f"{address}: refused: nobody listens there", True, "start the server, or look at its address")]
    except TimeoutError:
        remedy = "a wall of packets, another machine, or 128 connections wait already"
        return [Finding(f"{address}: no connection within {ANSWER_SECONDS:.0f} seconds", True, remedy)]
    except OSError as error:
        return [Finding(f"{address}: {error.strerror}")]
    return _of_answer(address, port)


def _of_answer(address: str, port: int) -> list[Finding]:
    try:
        with Server(address, seconds=ANSWER_SECONDS) as server:
            seconds = server.ping()
    except errors.LinkFailed:
        return [_of_silence(address), *(Finding(line, False) for line in _clients(port))]
    except errors.RdfDeltaError as error:
        return [Finding(f"{address}: something answers that is no rdfdelta server: {error}")]
    return [Finding(f"{address}: answers, {seconds * 1000:.1f} ms", False)]


def _of_silence(address: str) -> Finding:
    remedy = "each worker serves one request at a time, a slow one for half a minute: put contrib/nginx before the server"
    text = f"{address}: takes connections, but doesn't answer within {ANSWER_SECONDS:.0f} seconds"
    return Finding(text, True, remedy)


def _clients(port: int) -> list[str]:
    """Who holds the workers of a server on this machine, the one that holds most first."""
    counts: dict[str, int] = {}
    for address, pid in sockets.served(port):
        if pid != os.getpid():
            who = address.rpartition(":")[0] if pid is None else locks.name_of(pid)
            counts[who] = counts.get(who, 0) + 1
    most = sorted(counts.items(), key=lambda count: -count[1])
    return [f"{count} of its connections held by {who}" for who, count in most[:16]]
