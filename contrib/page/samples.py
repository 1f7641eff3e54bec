"""Patches to look at: a catalogue of books that grows and is mended, and files of a server with a full log."""
import random
import uuid
from collections.abc import Iterable, Iterator
from pathlib import Path

PREFIXES = {
    "book": "http://books.example/id/",
    "dct": "http://purl.org/dc/terms/",
    "schema": "http://schema.org/",
    "xsd": "http://www.w3.org/2001/XMLSchema#",
}
ADJECTIVES = ("Quiet", "Northern", "Last", "Hidden", "Second", "Paper", "Salt", "Distant", "Long", "Winter")
NOUNS = ("Harbour", "Orchard", "Letters", "Meridian", "Archive", "River", "Garden", "Atlas", "Lighthouse", "Summer")
WRITERS = ("Anna Lindqvist", "Tomás Ferreira", "Ivo Marić", "Noor van Dijk", "Hélène Roux", "Jonas Weiß")
MARKUP = "<img src=x onerror='window.wasRead=1'><script>window.wasRead=1</script>"


def iri(prefix: str, local: str) -> str:
    return f"<{PREFIXES[prefix]}{local}>"


def patch(number: int, prev: int, rows: list[str]) -> str:
    """A patch whose id is of this number, behind the one of another, or the first one."""
    head = [f"H id <uuid:{identity(number)}> ."] + ([f"H prev <uuid:{identity(prev)}> ."] if prev else [])
    return "\n".join([*head, *rows, ""])


def identity(number: int) -> uuid.UUID:
    """An id that looks as if it were drawn, and is the same in each run."""
    return uuid.UUID(int=random.Random(number).getrandbits(128), version=4)


def adding(book: str, draw: random.Random) -> list[str]:
    title = f"The {draw.choice(ADJECTIVES)} {draw.choice(NOUNS)}"
    values = (
        (iri("dct", "title"), f'"{title}"@en'),
        (iri("dct", "creator"), f'"{draw.choice(WRITERS)}"'),
        (iri("dct", "issued"), f'"{draw.randint(1920, 2024)}"^^{iri("xsd", "gYear")}'),
        (iri("schema", "numberOfPages"), f'"{draw.randint(90, 800)}"^^{iri("xsd", "integer")}'),
    )
    return [f"A {iri('book', book)} {predicate} {value} ." for predicate, value in values]


def mending(book: str, number: int) -> list[str]:
    price = f"{iri('book', book)} {iri('schema', 'price')}"
    return [
        f"D {price} \"{number % 40 + 9}.50\"^^{iri('xsd', 'decimal')} .",
        f"A {price} \"{number % 40 + 11}.00\"^^{iri('xsd', 'decimal')} .",
    ]


def changes(number: int) -> list[str]:
    """The rows behind the header of the patch of this number."""
    draw = random.Random(number)
    book = f"b{number:04}"
    if number % 11 == 5:
        return ["TX .", f"D {iri('book', book)} {iri('dct', 'title')} \"typed by mistake\" .", "TA ."]
    if number % 4 == 3:
        return ["TX .", *mending(f"b{draw.randint(1, number):04}", number), "TC ."]
    if number % 7 == 2:
        review = f"_:review{number} {iri('schema', 'reviewBody')} \"Worth reading twice.\\nI did.\"@en ."
        return ["TX .", f"A {iri('book', book)} {iri('schema', 'review')} _:review{number} .", f"A {review}", "TC ."]
    return ["TX .", *(row for part in range(draw.randint(1, 2)) for row in adding(f"{book}{'ab'[part]}", draw)), "TC ."]


def books(count: int) -> Iterator[str]:
    """A chain of patches. The first one sets prefixes, and one has a text that looks like a program for a browser."""
    rows = [f"PA {prefix}: <{space}> ." for prefix, space in PREFIXES.items()]
    yield patch(1, 0, ["TX .", *rows, "TC ."])
    for number in range(2, count + 1):
        markup = [f"A {iri('book', 'odd')} {iri('dct', 'description')} \"{MARKUP}\" ."] if number == 20 else []
        yield patch(number, number - 1, changes(number) + markup)


def long_patch(number: int, rows: int) -> str:
    """The first patch of a log, with many rows."""
    quads = (f"{iri('book', f'n{row}')} {iri('schema', 'position')} \"{row}\"" for row in range(rows))
    return patch(number, 0, ["TX .", *(f"A {quad} ." for quad in quads), "TC ."])


def generated(count: int) -> Iterator[bytes]:
    """The patches of the generator of `rdfdelta emit`, which makes no full log."""
    ids = [uuid.UUID(int=(0x4000 << 64) + (0x8000 << 48) + number) for number in range(count + 1)]
    for number in range(1, count + 1):
        rows = [f"H id <uuid:{ids[number]}> ."] + ([f"H prev <uuid:{ids[number - 1]}> ."] if number > 1 else [])
        rows += ["TX .", f"A {quad(number)} ."] + ([f"D {quad(number // 3)} ."] if number % 3 == 0 else [])
        yield "\n".join([*rows, "TC .", ""]).encode()


def quad(number: int) -> str:
    return f'<http://g/s{number % 100}> <http://g/p{number % 7}> "{number}"'


def write_journal(file: Path, number: int, payloads: Iterable[bytes]) -> None:
    """The journal of a log, as FORMATS.md says, in the place of an empty one."""
    with file.open("wb") as journal:
        journal.write(b"RDJ2" + number.to_bytes(4, "big"))
        for count, payload in enumerate(payloads, 1):
            journal.write(b"\1" + count.to_bytes(4, "big") + len(payload).to_bytes(4, "big") + payload)
        journal.write(b"\0")
