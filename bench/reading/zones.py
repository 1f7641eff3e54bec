"""Zones, which have a file or two, and what the commands over them print, as docs/FORMATS.md states it."""
from dataclasses import dataclass
from pathlib import Path

from reading.checkpoints import LONGEST_FIRST_LINE, MOST, Brief, checkpoint, first_line, read_checkpoint
from reading.files import Broken, Outcome, bytes_of, first_of, outcome, payloads_of, require, require_no_upgrade
from reading.hall import MOST_BYTES, MOST_PATCHES
from reading.texts import Blank, Dataset, Fault, Iri, Literal, Patch, Term, read_patch, read_term

ZONE, SECOND, ZONE_MARKER = 1000, 1001, 3099
# The bytes of a zone's file, and of one that has a checkpoint alone.
MOST_OF_FILE, MOST_OF_CHECKPOINT = 805_306_368, 536_870_912
MARK = b"Z "


@dataclass
class Zone:
    """What a zone has: its current file with the payloads and the generation, and what these are."""

    number: int
    generation: int
    payloads: list[bytes]
    brief: Brief

    def other(self) -> int:
        return ZONE + SECOND - self.number


def generation_of(number: int, front: bytes | None) -> int | None:
    """The generation of a file by its first payload."""
    if front is None or not front.startswith(MARK):
        return 0 if number == ZONE else None
    counts = first_line(front[:LONGEST_FIRST_LINE])
    if counts is None:
        raise Broken(f"file {number}: broken checkpoint")
    return counts[0]


def zone_of(folder: Path) -> Zone:
    """The zone of a directory."""
    require_no_upgrade(folder, ZONE_MARKER)
    fronts = {number: first_of(bytes_of(folder, number), number) for number in (ZONE, SECOND)}
    first, second = (generation_of(number, front) for number, front in fronts.items())
    is_second = second is not None and second > (first or 0)
    number, generation = (SECOND, second or 0) if is_second else (ZONE, first or 0)
    payloads = payloads_of(bytes_of(folder, number), number, MOST_OF_FILE)
    return Zone(number, generation, payloads, brief_of(payloads, number))


def brief_of(payloads: list[bytes], number: int) -> Brief:
    """What payloads of a file are: a checkpoint, if there is one, and patches behind it."""
    brief, patches = Brief(), payloads
    if payloads and payloads[0].startswith(MARK):
        found = read_checkpoint(payloads[0])
        if found is None or 18 + len(payloads[0]) > MOST_OF_CHECKPOINT:
            raise Broken(f"file {number}: broken checkpoint")
        brief, patches = found[1], payloads[1:]
    known = set[str]()
    for version, id in enumerate(brief.ids, 1):
        if id in known or version > MOST_PATCHES:
            raise Broken(f"file {number}: broken chain at version {version}")
        known.add(id)
    for text in patches:
        patch = patch_of(text)
        if patch is None or patch.prev != brief.head() or patch.id in known or len(brief.ids) == MOST_PATCHES:
            raise Broken(f"file {number}: broken chain at version {len(brief.ids) + 1}")
        known.add(patch.id or "")
        brief.take(patch)
    size = min(9 + 9 * len(brief.ids) + brief.size, MOST)
    if size > MOST_BYTES:
        raise Broken(f"file {number}: over limit: have {size}, limit {MOST_BYTES}")
    return brief


def patch_of(text: bytes) -> Patch | None:
    try:
        return read_patch(text)
    except Fault:
        return None


def dataset_of(folder: Path) -> Dataset:
    return zone_of(folder).brief.dataset


def kept(folder: Path) -> tuple[Outcome, Zone | None, bytes]:
    """What `checkpoint` prints of a directory, its zone, and the checkpoint that stands in the other file then."""
    try:
        zone = zone_of(folder)
    except Broken as fault:
        return (9, b"", f"rdfdelta: {fault}\n"), None, b""
    text = checkpoint(zone.generation + 1, zone.brief)
    have, limit = (zone.generation, MOST) if zone.generation == MOST else (18 + len(text), MOST_OF_CHECKPOINT)
    if have > limit or zone.generation == MOST:
        line = f"rdfdelta: refused: checkpoint too large: have {have}, limit {limit}\n"
        return (1, b"", line), zone, b""
    return (0, f"checkpoint at version {len(zone.brief.ids)}\n".encode(), ""), zone, text


def matched(folder: Path, words: list[bytes]) -> Outcome:
    """What `match` prints for a graph, a subject, a predicate and an object."""
    kinds: list[tuple[type, ...]] = [(Iri, Blank), (Iri, Blank), (Iri,), (Iri, Blank, Literal)]
    try:
        pattern = [wanted(word, kind, place == 0) for place, (word, kind) in enumerate(zip(words, kinds))]
    except (Fault, ValueError):
        return 2, b"", "rdfdelta: usage: match DIR G S P O\n"
    return outcome(lambda: dataset_of(folder).lines(tuple(pattern)))


def wanted(word: bytes, kinds: tuple[type, ...], is_graph: bool) -> Term | str | None:
    """What a word of a pattern stands for: None where it is free."""
    if word == b"*" or is_graph and word == b"default":
        return None if word == b"*" else "default"
    term = read_term(word)
    require(isinstance(term, kinds))
    return term
