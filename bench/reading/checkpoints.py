"""Checkpoints of zones, as docs/FORMATS.md states them."""
import re
from dataclasses import dataclass, field

from reading.texts import Dataset, Fault, Patch, RowReader, uuid

NUMBER = "(0|[1-9][0-9]{0,19})"
FIRST_LINE = re.compile(f"Z {' '.join([NUMBER] * 5)}\n".encode())
# The first line has no more bytes, and no number is greater.
LONGEST_FIRST_LINE, MOST = 64, 2**64 - 1


@dataclass
class Brief:
    """What a zone keeps of the patches that it took: their ids, how many bytes their texts have, and their dataset."""

    ids: list[str] = field(default_factory=list)
    size: int = 0
    dataset: Dataset = field(default_factory=Dataset)

    def take(self, patch: Patch) -> None:
        self.ids.append(patch.id or "")
        self.size += len(patch.text)
        self.dataset.apply(patch)

    def head(self) -> str | None:
        return self.ids[-1] if self.ids else None


def checkpoint(generation: int, brief: Brief) -> bytes:
    """The one text of a generation and a brief."""
    dataset = brief.dataset
    first = f"Z {generation} {len(brief.ids)} {brief.size} {len(dataset.prefixes)} {len(dataset.quads)}\n"
    ids = "".join(f"{id}\n" for id in brief.ids)
    return (first + ids).encode() + dataset.prefix_rows() + dataset.lines()


def first_line(front: bytes) -> list[int] | None:
    """The generation, and how many patches, bytes, prefixes and quads there are, by the first line; none where no whole
    one stands there."""
    found = FIRST_LINE.match(front[:LONGEST_FIRST_LINE])
    numbers = [int(number) for number in found.groups()] if found else [MOST + 1]
    return numbers if max(numbers) <= MOST else None


def read_checkpoint(text: bytes) -> tuple[int, Brief] | None:
    """The generation and the brief whose text this is; none where it is that of none."""
    counts = first_line(text)
    if counts is None:
        return None
    generation, patches, size, prefixes, quads = counts
    lines = text.split(b"\n")[1:]
    ids, rows = lines[:patches], lines[patches:patches + prefixes + quads]
    try:
        brief = Brief([id.decode() for id in ids], size)
        for number, line in enumerate(rows):
            change, = RowReader(line if number < prefixes else b"A " + line).rows()
            brief.dataset.change(change)
    except (Fault, ValueError):
        return None
    is_one = all(uuid(id) == id for id in brief.ids) and checkpoint(generation, brief) == text
    return (generation, brief) if is_one else None
