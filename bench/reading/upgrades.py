"""What an upgrade prints, and what it leaves, as docs/FORMATS.md states it."""
from dataclasses import dataclass, field
from pathlib import Path

from reading.files import MARKER, SLOTS, SPARE, Broken, Outcome, bytes_of, first_of, payloads_of
from reading.hall import MOST_BYTES, MOST_REGISTRY
from reading.zones import MOST_OF_FILE, SECOND, ZONE, ZONE_MARKER

# The limits of the form before this one.
REGISTRY_BEFORE, LOG_BEFORE, ZONE_BEFORE = 1_048_576, 67_108_864, 268_435_456
Payloads = dict[int, list[bytes]]


@dataclass
class Left:
    """What an upgrade prints, and the payloads of the files behind it where that is status 0."""

    outcome: Outcome
    payloads: Payloads = field(default_factory=dict)
    # Whether files may be written: only where it is told so, or under the marker.
    writes: bool = False


def either(folder: Path, number: int, more: int) -> list[bytes]:
    """The payloads of a file in either form, or of its spare."""
    kinds = {0: (MOST_REGISTRY, REGISTRY_BEFORE), ZONE: (MOST_OF_FILE, ZONE_BEFORE), SECOND: (MOST_OF_FILE, ZONE_BEFORE)}
    limits = kinds.get(number, (MOST_BYTES, LOG_BEFORE))
    return payloads_of(bytes_of(folder, number + more), number + more, *limits)


def slots_of(folder: Path, more: int) -> int:
    """The slots that the registry's first payload tells, or that of its spare."""
    if more:
        if not bytes_of(folder, SPARE):
            raise Broken(f"file {SPARE}: byte 0: damaged")
        first = first_of(bytes_of(folder, SPARE), SPARE) or b""
    else:
        first = next(iter(either(folder, 0, 0)), b"")
    try:
        found = SLOTS.fullmatch(first.decode())
    except UnicodeDecodeError:
        found = None
    if found is None or int(found[1]) > 16:
        raise Broken("file 0: broken event at 0")
    return int(found[1])


def numbers_of(folder: Path, marker: int, more: int) -> list[int]:
    """The files that are upgraded."""
    if marker == MARKER:
        return list(range(slots_of(folder, more) + 1))
    return [ZONE, SECOND] if len(bytes_of(folder, SECOND)) > 9 else [ZONE]


def upgraded(folder: Path, word: str) -> Left:
    """What `upgrade` and `upgrade_zone` print, and what stands then."""
    marker = MARKER if word == "upgrade" else ZONE_MARKER
    stands = False
    try:
        stands = first_of(bytes_of(folder, marker), marker) is not None
        more = SPARE if stands else 0
        numbers = numbers_of(folder, marker, more)
        payloads = {number: either(folder, number, more) for number in numbers}
    except Broken as fault:
        return Left((9, b"", f"rdfdelta: {fault}\n"), writes=stands)
    old = sum(bytes_of(folder, number).startswith(b"RDJ1") for number in numbers)
    said = "upgrade finished" if stands else f"upgraded {old} files"
    return Left((0, f"{said}\n".encode(), ""), payloads, writes=stands or old > 0)
