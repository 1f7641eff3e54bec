"""A case: each of its allocations is refused in turn, and what is answered then is looked at."""
import tempfile
from collections import Counter
from contextlib import AbstractContextManager
from pathlib import Path
from typing import Protocol

from refusing.orders import END, Orders

# What became of a run: its usual answer, what it answers where it has been done before, or others.
USUAL, DONE, OTHER = "usual bytes", "done", "other"
# Its want of memory: status 8, status 503, a connection that ends, or what a client says of a server's want.
WANTS = STATUS_8, STATUS_503, ENDED, TOLD = "of status 8", "of status 503", "connections that end", "told by a client"


class Differs(Exception):
    """A case gives what it may not give."""


class Asked(Protocol):
    """Something that is asked of the program, over files that were written."""

    def ask(self, first: int, last: int) -> tuple[str, object, int]:
        """Asks with these allocations refused: what became of it, what was answered, and how many were refused."""

    def ask_again(self) -> tuple[str, object]:
        """Asks with none refused: what became of it, and what was answered."""

    def left(self, end: str) -> object:
        """What stands behind it where that isn't what is to be behind such an end, and else nothing."""


class Case(Protocol):
    """What is asked, and over which files."""

    title: str

    def begun(self, folder: Path, orders: Orders) -> AbstractContextManager[Asked]:
        """Writes the files of an empty folder."""


def tried(case: Case, orders: Orders, within: Path, first: int, last: int) -> str:
    """Asks with these allocations refused, and once more with none; what became of the first, empty where none was."""
    with tempfile.TemporaryDirectory(dir=within) as folder, case.begun(Path(folder), orders) as asked:
        end, found, refused = asked.ask(first, last)
        again, found_again = asked.ask_again()
        left = asked.left(end)
    may_end = (USUAL, *WANTS) if refused else (USUAL,)
    may_end_again = (DONE,) if end == USUAL else (USUAL, DONE)
    if end not in may_end or again not in may_end_again or left:
        at = f"allocation {first} and all behind it" if last == END else f"allocation {first}"
        raise Differs(f"{case.title}: {at}: {found!r}, then {found_again!r}, then {left!r}")
    return end if refused else ""


def refuse_each(case: Case, orders: Orders, within: Path, step: int) -> Counter[str]:
    """Refuses each allocation of a case by itself, and each with all behind it; how it ended."""
    tried(case, orders, within, END, END)
    answers, number = Counter[str](), 1
    while ends := [end for last in (number, END) if (end := tried(case, orders, within, number, last))]:
        answers.update(ends)
        number += step
    return answers


def told(answers: Counter[str]) -> str:
    """How many there are of each."""
    return ", ".join(f"{answers[end]:,} {end}" for end in (*WANTS, USUAL) if answers[end])
