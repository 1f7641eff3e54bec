"""Net patches and inverses, and what `squash` and `invert` print, as docs/FORMATS.md states it."""
from collections.abc import Iterable

from reading.files import Outcome, input_fault, no_chain
from reading.texts import LONGEST_PATCH, Dataset, Fault, Literal, Patch, Term, read_stream


def row(code: str, terms: Iterable[Term]) -> bytes:
    return f"{code} {' '.join(term.written() for term in terms)} .\n".encode()


def rows_between(before: Dataset, after: Dataset) -> bytes:
    """The fewest rows that lead from a dataset to another: PD, PA, D and A, those of a kind in the order of their bytes."""
    had, has = before.prefixes, after.prefixes
    kinds = (
        [row("PD", (Literal(key[0]), *key[1:])) for key in had if key not in has],
        [row("PA", (Literal(key[0]), iri, *key[1:])) for key, iri in has.items() if had.get(key) != iri],
        [row("D", quad) for quad in before.quads - after.quads],
        [row("A", quad) for quad in after.quads - before.quads],
    )
    return b"".join(b"".join(sorted(rows)) for rows in kinds)


def patch_text(id: str | None, prev: str | None, rows: bytes) -> bytes:
    """The text of a patch of one block."""
    link = f"H prev <uuid:{prev}> .\n" if prev else ""
    return f"H id <uuid:{id}> .\n{link}TX .\n".encode() + rows + b"TC .\n"


def dataset_of(patches: list[Patch]) -> Dataset:
    dataset = Dataset()
    for patch in patches:
        dataset.apply(patch)
    return dataset


def read_chain(text: bytes) -> tuple[list[Patch], Outcome | None]:
    """The patches of a stream, and what is told of it where they are no chain."""
    try:
        patches = read_stream(text)
    except Fault as fault:
        return [], input_fault(text, fault)
    return patches, no_chain(patches)


def printed(front: bytes, net: bytes, behind: bytes = b"") -> Outcome:
    """What is printed round a patch that was made, which may be too long for one."""
    if len(net) > LONGEST_PATCH:
        return 1, b"", f"rdfdelta: refused: net patch too long: have {len(net)}, limit {LONGEST_PATCH}\n"
    return 0, front + net + behind, ""


def squashed(text: bytes, first: int, last: int) -> Outcome:
    """What `squash` prints of a stream for the patches from one version to another."""
    patches, fault = read_chain(text)
    if fault:
        return fault
    if len(patches) < last:
        return 3, b"", f"rdfdelta: input: no patch {last}\n"
    rows = rows_between(dataset_of(patches[: first - 1]), dataset_of(patches[:last]))
    net = patch_text(patches[last - 1].id, patches[first - 1].prev, rows)
    texts = [patch.text for patch in patches]
    return printed(b"".join(texts[: first - 1]), net, b"".join(texts[last:]))


def inverted(text: bytes, id: str) -> Outcome:
    """What `invert` prints of a stream for the id of the inverse."""
    patches, fault = read_chain(text)
    if fault:
        return fault
    if not patches:
        return 3, b"", "rdfdelta: input: no patch 1\n"
    ids = [patch.id for patch in patches]
    if id in ids:
        return 10, b"", f"rdfdelta: repeated id {id} at version {ids.index(id) + 1}\n"
    rows = rows_between(dataset_of(patches), dataset_of(patches[:-1]))
    return printed(b"", patch_text(id, ids[-1], rows))
