"""Journal files, and what the commands over a directory print, as docs/FORMATS.md states it."""
import re
from collections.abc import Callable
from pathlib import Path

from reading.hall import MOST_BYTES, MOST_PATCHES, MOST_REGISTRY, Hall, Log
from reading.texts import Dataset, Fault, NoRun, Patch, read_document, read_run, read_stream, uuid

# A spare's number is so much higher than that of its file.
SPARE, MARKER = 2000, 2099
Outcome = tuple[int, bytes, str]


class Broken(Exception):
    """A file that isn't as it is to be: the rest of the line that tells it."""


def file_name(number: int) -> str:
    return f"rdj-{number:04}"


def payloads_of(data: bytes, number: int, limit: int, before: int | None = None) -> list[bytes]:
    """The payloads of a file with this number and limit; also of the form before this one where that has a limit."""
    if len(data) < 8 or data[:4] not in (b"RDJ1", b"RDJ2"):
        raise Broken(f"file {number}: byte 0: damaged")
    is_before = data[:4] == b"RDJ1"
    if is_before and before is None:
        raise Broken(f"file {number}: old format")
    found, at = int.from_bytes(data[4:8], "big"), 8
    if found != number:
        raise Broken(f"file {number}: wrong number {found}")
    payloads: list[bytes] = []

    def part(length: int) -> bytes:
        if len(data) < at + length:
            raise Broken(f"file {number}: byte {at}: damaged")
        return data[at : at + length]

    while part(1) == b"\1":
        at += 1
        if not is_before:
            if int.from_bytes(part(4), "big") != len(payloads) + 1:
                raise Broken(f"file {number}: byte {at}: damaged")
            at += 4
        length = int.from_bytes(part(4), "big")
        at += 4
        payloads.append(part(length))
        at += length
    if before is not None and is_before:
        limit = before
    if at + 1 > limit:
        raise Broken(f"file {number}: over limit: have {at + 1}, limit {limit}")
    return payloads


def first_of(data: bytes, number: int) -> bytes | None:
    """The first payload of a file, which is read no further; none where it has at most nine bytes or its gate is shut."""
    if len(data) <= 9:
        return None
    end = 17 + int.from_bytes(data[13:17], "big") if data[8] == 1 else 8
    front = data[:end] + b"\0" if len(data) >= end else data
    return next(iter(payloads_of(front, number, len(front))), None)


def require_no_upgrade(folder: Path, marker: int) -> None:
    """Where a marker stands, nothing else is opened."""
    if first_of(bytes_of(folder, marker), marker) is not None:
        raise Broken(f"file {marker}: upgrade pending")


def log_of(data: bytes, number: int) -> Log:
    """The log in a file."""
    log = Log()
    for payload in payloads_of(data, number, MOST_BYTES):
        try:
            run = read_run(payload)
        except (Fault, NoRun):
            run = []
        follows = bool(run) and run[0].prev == log.head() and not any(patch.id in log.versions for patch in run)
        if not follows or len(log.patches) + len(run) > MOST_PATCHES:
            raise Broken(f"file {number}: broken chain at version {len(log.patches) + 1}")
        log.take(run, payload)
    if log.size > MOST_BYTES:
        raise Broken(f"file {number}: over limit: have {log.size}, limit {MOST_BYTES}")
    return log


NUMBER = "[1-9][0-9]{0,18}"
SLOTS = re.compile(f"S ({NUMBER})")
CREATED = re.compile(f"C ({NUMBER}) ([^ ]*) ([^ ]*) (.*)", re.DOTALL)
RENAMED, REMOVED = re.compile(f"R ({NUMBER}) (.*)", re.DOTALL), re.compile(f"D ({NUMBER})")


def registry_of(data: bytes) -> Hall:
    """The sources of the registry's file, with empty logs."""
    payloads = payloads_of(data, 0, MOST_REGISTRY)
    hall = Hall(0)
    for place, payload in enumerate(payloads or [b""]):
        try:
            hall = took_event(hall, place, payload.decode())
        except ValueError:
            raise Broken(f"file 0: broken event at {place}") from None
    return hall


def require(holds: object) -> None:
    if not holds:
        raise ValueError


def took_event(hall: Hall, place: int, text: str) -> Hall:
    """The registry with an event more, or ValueError where it isn't one that may stand there."""
    if place == 0:
        found = SLOTS.fullmatch(text)
        require(found and int(found[1]) <= 16)
        return Hall(int(found[1]))
    names = {str(source.slot): source.name for source in hall.sources.values()}
    if found := CREATED.fullmatch(text):
        slot, id, name, uri = found.groups()
        require(uuid(id) == id and slot == str(hall.made + 1) and hall.create(name, uri, id).status == 200)
    elif found := RENAMED.fullmatch(text):
        require(found[1] in names and hall.rename(names[found[1]], found[2]).status == 200)
    else:
        found = REMOVED.fullmatch(text)
        require(found and found[1] in names and hall.remove(names[found[1]]).status == 200)
    return hall


def hall_of(folder: Path) -> Hall:
    """What a server over a directory has. A file that isn't there is one without bytes."""
    require_no_upgrade(folder, MARKER)
    hall = registry_of(bytes_of(folder, 0))
    for slot in hall.logs:
        hall.logs[slot] = log_of(bytes_of(folder, slot), slot)
    return hall


def bytes_of(folder: Path, number: int) -> bytes:
    path = folder / file_name(number)
    return path.read_bytes() if path.exists() else b""


def outcome(printed: Callable[[], bytes]) -> Outcome:
    """Status, out and err of a command that prints this or finds a file broken."""
    try:
        return 0, printed(), ""
    except Broken as fault:
        return 9, b"", f"rdfdelta: {fault}\n"


def checked(hall: Hall) -> bytes:
    lines = [f"file 0 records {len(hall.events)}"]
    for slot, log in hall.logs.items():
        lines.append(f"file {slot} patches {len(log.patches)} head {log.head() or 'none'}")
    return "".join(f"{line}\n" for line in lines).encode()


def input_fault(text: bytes, fault: Fault) -> Outcome:
    line = 1 + text.count(b"\n", 0, fault.at)
    return 3, b"", f"rdfdelta: input: line {line} byte {fault.at}: {fault.kind}\n"


def canonical(text: bytes) -> Outcome:
    """What `nquads` prints of a document."""
    try:
        return 0, read_document(text), ""
    except Fault as fault:
        return input_fault(text, fault)


def replayed(text: bytes) -> Outcome:
    """What `replay` prints of a stream."""
    try:
        patches = read_stream(text)
    except Fault as fault:
        return input_fault(text, fault)
    dataset = Dataset()
    for patch in patches:
        dataset.apply(patch)
    return no_chain(patches) or (0, dataset.lines(), "")


def no_chain(patches: list[Patch]) -> Outcome | None:
    """What is told of patches that are no chain."""
    log = Log()
    for version, patch in enumerate(patches):
        if patch.prev != log.head():
            ids = f"have {log.head() or 'none'}, found {patch.prev or 'none'}"
            return 10, b"", f"rdfdelta: diverged at version {version}: {ids}\n"
        if patch.id in log.versions:
            return 10, b"", f"rdfdelta: repeated id {patch.id} at version {log.versions[patch.id]}\n"
        log.take([patch], patch.text)
    return None
