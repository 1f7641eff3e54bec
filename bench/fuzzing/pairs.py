"""Zones on two files, of which one or both may begin with a checkpoint, and the making of a checkpoint."""
import random
import tempfile
from collections.abc import Callable
from dataclasses import dataclass
from pathlib import Path

from reading.checkpoints import MOST, checkpoint
from reading.files import Broken, Outcome, bytes_of, file_name, payloads_of
from reading.zones import MOST_OF_FILE, SECOND, ZONE, Zone, brief_of, dataset_of, kept

Files = dict[int, bytes]
# Generations as they come, and the last ones that there are.
GENERATIONS = (0, 1, 1, 2, 3, 9, 10, MOST - 1, MOST)


def pair_of(patches: list[bytes], draw: random.Random) -> dict[int, list[bytes]]:
    """The payloads of both files of a zone that took these patches: the file of before a checkpoint, which may be that of
    an earlier one or none, and the one that goes on behind it. Seldom both are in one generation."""
    early, late = sorted(draw.randrange(whole(patches) + 1) for _ in range(2))
    before, now = sorted(draw.choice(GENERATIONS) for _ in range(2))
    first = [checkpoint(before, brief_of(patches[:early], ZONE)), *patches[early:late]]
    second = [checkpoint(now, brief_of(patches[:late], ZONE)), *patches[late:]]
    way = draw.random()
    if way < 0.3:
        return {ZONE: patches[:late], SECOND: second}
    if way < 0.4:
        return {ZONE: patches, SECOND: draw.choice(([], first, patches[:late]))}
    return {ZONE: first, SECOND: second} if way < 0.7 else {ZONE: second, SECOND: first}


def whole(patches: list[bytes]) -> int:
    """How many of the texts are a chain of patches."""
    count = len(patches)
    while count:
        try:
            brief_of(patches[:count], ZONE)
            break
        except Broken:
            count -= 1
    return count


@dataclass
class Making:
    """Files of a zone of which a checkpoint is made."""

    files: Files
    target: int
    runs: Callable[[Path], Outcome]
    title: str = "checkpoint"

    def difference(self, data: bytes) -> str:
        """What the command does otherwise than the documents say, where this is what it reads; empty where nothing."""
        with tempfile.TemporaryDirectory() as name:
            folder, files = Path(name), self.files | {self.target: data}
            for number, before in files.items():
                (folder / file_name(number)).write_bytes(before)
            wanted, zone, text = kept(folder)
            found = self.runs(folder)
            if wanted != found:
                return f"checkpoint gives {found}, and is to give {wanted}"
            if zone is None or wanted[0] != 0:
                changed = [number for number, before in files.items() if bytes_of(folder, number) != before]
                return f"checkpoint changes files {changed}" if changed else ""
            return left_otherwise(folder, zone, text)


def left_otherwise(folder: Path, zone: Zone, text: bytes) -> str:
    """What is otherwise behind a checkpoint of a zone that has this text."""
    wanted = {zone.number: zone.payloads, zone.other(): [text]}
    changed = [number for number, payloads in wanted.items() if now(folder, number) != payloads]
    if changed:
        return f"checkpoint leaves other payloads in files {changed}"
    same = dataset_of(folder).lines() == zone.brief.dataset.lines()
    return "" if same else "checkpoint leaves another dataset"


def now(folder: Path, number: int) -> list[bytes] | None:
    """The payloads of a file; none where it isn't whole."""
    try:
        return payloads_of(bytes_of(folder, number), number, MOST_OF_FILE)
    except Broken:
        return None
