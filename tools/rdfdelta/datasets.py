"""Datasets as the canonical lines that the program prints, and the rows between two of them."""
from __future__ import annotations

from collections.abc import Callable, Iterator

from rdfdelta.program import Program
from rdfdelta.server import Log

# How many patches are fetched, and of how many.
Look = Callable[[int, int], None]


def of_document(program: Program, document: bytes) -> list[str]:
    """The lines of an N-Quads document."""
    return program.run("nquads", source=document).decode().splitlines()


def of_log(program: Program, log: Log, version: int, look: Look) -> list[str]:
    """The lines of a log's dataset at a version."""
    stream = []
    for at, patch in log.patches(0, version):
        stream.append(patch)
        look(at, version)
    return of_stream(program, b"".join(stream))


def of_stream(program: Program, stream: bytes) -> list[str]:
    return program.run("replay", source=stream).decode().splitlines()


def difference(old: list[str], new: list[str]) -> Iterator[str]:
    """The rows that make the new dataset of the old one: first those that delete, then those that add."""
    had, has = frozenset(old), frozenset(new)
    yield from (f"D {line}" for line in old if line not in has)
    yield from (f"A {line}" for line in new if line not in had)
