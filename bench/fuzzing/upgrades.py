"""Upgrades of files changed at random: what they print, and what stands behind them."""
import random
import tempfile
from collections.abc import Callable
from dataclasses import dataclass
from pathlib import Path

from fuzzing.mutations import mutated
from journals import framed, framed_before
from reading.files import SPARE, Broken, Outcome, bytes_of, file_name, first_of, payloads_of
from reading.upgrades import upgraded

Files = dict[int, bytes]


@dataclass
class Upgrade:
    """Files of a folder, and the word that upgrades them."""

    word: str
    files: Files
    target: int
    marker: int
    runs: Callable[[Path], Outcome]

    def difference(self, data: bytes) -> str:
        """What the command does otherwise than the documents say, where this is what it reads; empty where nothing."""
        with tempfile.TemporaryDirectory() as name:
            folder, files = Path(name), self.files | {self.target: data}
            for number, kept in files.items():
                (folder / file_name(number)).write_bytes(kept)
            wanted = upgraded(folder, self.word)
            found = self.runs(folder)
            if wanted.outcome != found:
                return f"{self.word} gives {found}, and is to give {wanted.outcome}"
            again = upgraded(folder, self.word)
            if not wanted.writes:
                # Spares have nothing that counts.
                changed = [number for number, kept in files.items() if number < SPARE and bytes_of(folder, number) != kept]
            elif wanted.outcome[0] == 0:
                changed = [number for number, kept in wanted.payloads.items() if now(folder, number) != kept]
                changed += [self.marker] if first_of(bytes_of(folder, self.marker), self.marker) else []
            else:
                changed = [] if again.outcome == wanted.outcome else [self.marker]
        return f"{self.word} leaves other payloads or bytes in files {changed}" if changed else ""


def now(folder: Path, number: int) -> list[bytes] | None:
    """The payloads of a file in the form that is written; none where it isn't whole."""
    try:
        return payloads_of(bytes_of(folder, number), number, 1 << 32)
    except Broken:
        return None


def aged(payloads: dict[int, list[bytes]], marker: int, draw: random.Random, others: list[bytes]) -> Files:
    """The files of journals, some in the form before this one, with a marker and spares as a stop may leave them."""
    files = {number: (framed if draw.random() < 0.3 else framed_before)(number, found) for number, found in payloads.items()}
    marked = framed(marker, [b"U"])
    way = draw.choice(("none", "none", "stands", "stands", "shut", "short"))
    if way == "none":
        return files
    if way == "shut":
        return files | {marker: marked[:8] + b"\0" + marked[9:]}
    if way == "short":
        return files | {marker: draw.choice((b"", marked[:9], b"x" * 9)), SPARE: draw.choice(others)}
    spares = {number + SPARE: framed(number + SPARE, found) for number, found in payloads.items()}
    spoilt = {number: mutated(data, draw, others) if draw.random() < 0.7 else data for number, data in files.items()}
    return spoilt | spares | {marker: marked}
