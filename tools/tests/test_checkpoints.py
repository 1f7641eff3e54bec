"""Zones on two files, of which one may begin with a checkpoint."""
from __future__ import annotations

import subprocess
from pathlib import Path

import pytest

from calling import rdfd
from conftest import MAKES_CHECKPOINTS, PROGRAM, Running, id_of, patch
from rdfdelta import BadFile, Damaged, Journal, Kept, journal
from rdfdelta.checkpoint import Checkpoint, Counts, first_line
from rdfdelta.counter import ZoneCounter
from rdfdelta.journal import file_of, pieces_of

TEXT = f"""Z 2 3 461 2 1
{id_of(1)}
{id_of(2)}
{id_of(3)}
PA "e" <http://e/> .
PA "f" <http://f/> _:g .
<http://e/s> <http://e/p> "2"@en-gb .
"""


def kept(generation: int, count: int) -> bytes:
    """The checkpoint of the first patches, so many."""
    size = sum(len(patch(number)) for number in range(1, count + 1))
    lines = sorted(f'<http://e/s> <http://e/p> "{number}" .\n' for number in range(1, count + 1))
    ids = "".join(f"{id_of(number)}\n" for number in range(1, count + 1))
    return f"Z {generation} {count} {size} 0 {len(lines)}\n{ids}{''.join(lines)}".encode()


def patches(first: int, last: int) -> list[bytes]:
    return [patch(number) for number in range(first, last + 1)]


def write(folder: Path, number: int, payloads: list[bytes]) -> None:
    file_of(folder, number).write_bytes(b"".join(pieces_of(number, payloads)))


def test_the_form() -> None:
    found = Checkpoint.parse(TEXT.encode())
    assert found is not None and found.counts == Counts(2, 3, 461, 2, 1)
    assert found.ids == (id_of(1), id_of(2), id_of(3)) and len(found.rows) == 2 and len(found.lines) == 1
    assert first_line(b"Z 0 0 0 0 0\nZ") == (Counts(0, 0, 0, 0, 0), 12)
    most = b"Z " + b" ".join([str(2**64 - 1).encode()] * 5) + b"\n"
    assert first_line(most) is None and first_line(most.replace(b" 18446744073709551615", b" 0", 3)) is not None
    assert first_line(b"Z 18446744073709551616 0 0 0 0\n") is None


@pytest.mark.parametrize("old, new", [
    ("Z 2", "Z 02"), ("Z 2", "z 2"), ("Z 2 3", "Z 2 2"), ("Z 2 3", "Z 2 4"), ("461 2", "461 1"), (" 1\n", " 1 \n"),
    ("2 1\n", "2 1\r\n"), (id_of(2), id_of(2).replace("4000", "4A00")), (id_of(2), id_of(2).replace("-", "")),
    ('"f"', '"d"'), ('"f" <http://f/> _:g', '"e" <http://f/>'), ('PA "f"', "PA f"), ("<http://f/>", '"http://f/"'),
    ("_:g", "<_:g>"), ("PA \"f\"", "PD \"f\""), ("@en-gb", "@en-GB"), ('"2"@en-gb', '"\\u0032"'), ("@en-gb .", "@en-gb."),
    ("<http://e/s>", "<e>"), ("@en-gb .\n", "@en-gb ."), ("@en-gb .\n", "@en-gb .\n\n"), ("@en-gb", "@en-gb \ud800"),
])
def test_texts_that_are_no_checkpoints(old: str, new: str) -> None:
    assert TEXT.count(old) == 1
    assert Checkpoint.parse(TEXT.replace(old, new).encode("utf-8", "surrogatepass")) is None


def test_a_file_with_a_checkpoint(tmp_path: Path) -> None:
    write(tmp_path, 1001, [kept(1, 2), *patches(3, 4)])
    found = Journal.read(tmp_path / "rdj-1001")
    assert [link.id for link in found.links()] == [id_of(number) for number in range(1, 5)]
    assert list(found.patches(3)) == [(3, patch(3)), (4, patch(4))] and list(found.patches(5)) == []
    for start in (1, 2):
        with pytest.raises(Kept, match="rdj-1001: the texts up to version 2 have gone into a checkpoint"):
            list(found.patches(start))


@pytest.mark.parametrize("payloads, said", [
    ([b"Z 1 1\n"], "broken checkpoint"),
    ([kept(1, 2)[:-1]], "broken checkpoint"),
    ([kept(1, 2), patch(2)], "broken chain at version 3"),
    ([kept(1, 2), patch(4)], "broken chain at version 3"),
    ([kept(1, 2), patch(3), kept(1, 3)], "broken chain at version 4"),
    ([kept(1, 2).replace(id_of(2).encode(), id_of(1).encode())], "broken chain at version 2"),
    ([patch(1), kept(1, 1)], "broken chain at version 2"),
    ([kept(1, 1).replace(b"Z 1 1 95", b"Z 1 1 268435439")], "over limit: have 268435457, limit 268435456"),
    ([b"Z 1 0 18446744073709551615 0 0\n"], "over limit: have 18446744073709551615, limit 268435456"),
])
def test_files_that_are_no_zones(tmp_path: Path, payloads: list[bytes], said: str) -> None:
    write(tmp_path, 1000, payloads)
    with pytest.raises(BadFile) as bad:
        Journal.read(tmp_path).links()
    assert str(bad.value) == f"{tmp_path}/rdj-1000: {said}"
    if MAKES_CHECKPOINTS:
        done = subprocess.run([PROGRAM, "dump", tmp_path], capture_output=True, text=True)
        assert (done.returncode, done.stderr) == (9, f"rdfdelta: file 1000: {said}\n")


def test_a_checkpoint_that_passes_a_limit(tmp_path: Path, monkeypatch: pytest.MonkeyPatch) -> None:
    write(tmp_path, 1000, [kept(1, 4)])
    monkeypatch.setattr(journal, "PATCHES_LIMIT", 3)
    with pytest.raises(BadFile, match="broken chain at version 4"):
        Journal.read(tmp_path).links()
    monkeypatch.undo()
    monkeypatch.setattr(journal, "FILE_LIMIT", 18 + len(kept(1, 4)))
    assert len(Journal.read(tmp_path).links()) == 4
    monkeypatch.setattr(journal, "FILE_LIMIT", 17 + len(kept(1, 4)))
    with pytest.raises(BadFile, match="broken checkpoint"):
        Journal.read(tmp_path).links()


def test_the_current_file(tmp_path: Path) -> None:
    write(tmp_path, 1000, patches(1, 3))
    for second in (None, b"", b"RDJ2 no ", b"\1" * 9):
        if second is not None:
            file_of(tmp_path, 1001).write_bytes(second)
        assert len(Journal.read(tmp_path).links()) == 3
    # Of one generation the first file is current, and a file without a checkpoint is in none.
    others: list[list[bytes]] = [[], [patch(9)], [b"no patch"], [kept(0, 5)]]
    for payloads in others:
        write(tmp_path, 1001, payloads)
        assert Journal.read(tmp_path).number == 1000 and len(Journal.read(tmp_path).links()) == 3
    write(tmp_path, 1001, [kept(1, 3), patch(4)])
    assert len(Journal.read(tmp_path).links()) == 4
    write(tmp_path, 1000, [kept(2, 4), *patches(5, 6)])
    assert len(Journal.read(tmp_path).links()) == 6
    file_of(tmp_path, 1001).write_bytes(b"RDJ2\0\0\x03\xe9\1\0\0\0\1")
    with pytest.raises(Damaged, match="rdj-1001: byte 13"):
        Journal.read(tmp_path)
    write(tmp_path, 1001, [b"Z 3 x"])
    with pytest.raises(BadFile, match="rdj-1001: broken checkpoint"):
        Journal.read(tmp_path)
    # The first file isn't read where it has no more than nine bytes.
    write(tmp_path, 1001, [kept(1, 3)])
    file_of(tmp_path, 1000).write_bytes(b"anything")
    assert len(Journal.read(tmp_path).links()) == 3
    file_of(tmp_path, 1000).unlink()
    assert len(Journal.read(tmp_path).links()) == 3
    write(tmp_path, 1001, [])
    with pytest.raises(BadFile, match="rdj-1000: No such file"):
        Journal.read(tmp_path)


def test_texts_from_before_a_checkpoint(tmp_path: Path) -> None:
    write(tmp_path, 1000, patches(1, 3))
    write(tmp_path, 1001, [kept(1, 3), *patches(4, 5)])
    assert [text for _, text in Journal.read(tmp_path).patches()] == patches(1, 5)
    assert list(Journal.read(tmp_path).patches(3)) == [(version, patch(version)) for version in (3, 4, 5)]
    write(tmp_path, 1000, [kept(2, 5), patch(6)])
    assert list(Journal.read(tmp_path).patches(4)) == [(version, patch(version)) for version in (4, 5, 6)]
    with pytest.raises(Kept, match="up to version 3 have"):
        list(Journal.read(tmp_path).patches(3))
    # What isn't surely what was taken isn't given.
    before = kept(1, 3)
    others: list[list[bytes]] = [[before, patch(4)], [before, b"no patch"], [], [before, patch(4), patch(7, behind=4)]]
    for payloads in others:
        write(tmp_path, 1001, payloads)
        with pytest.raises(Kept, match="up to version 5 have"):
            list(Journal.read(tmp_path).patches(5))
        assert list(Journal.read(tmp_path).patches(6)) == [(6, patch(6))]


def test_a_counter_of_a_zone(tmp_path: Path) -> None:
    counter = ZoneCounter(tmp_path)
    assert (counter.look().count, counter.look().head(), counter.look().kept) == (0, None, 0)
    steps: list[tuple[int, list[bytes], int, int]] = [
        (1000, patches(1, 3), 3, 0),
        (1001, [kept(1, 3)], 3, 3),
        (1001, [kept(1, 3), patch(4)], 4, 3),
        (1000, [kept(2, 4), *patches(5, 6)], 6, 4),
        (1001, [], 6, 4),
        (1001, [kept(3, 6)], 6, 6),
    ]
    for number, payloads, count, in_checkpoint in steps:
        write(tmp_path, number, payloads)
        found = counter.look()
        assert (found.count, found.head(), found.kept) == (count, id_of(count), in_checkpoint)
    write(tmp_path, 1001, [b"Z 4 0 0 0 0\n"])
    assert (counter.look().count, counter.look().head()) == (0, None)


def test_words(tmp_path: Path) -> None:
    write(tmp_path, 1001, [kept(1, 2), patch(3)])
    write(tmp_path, 1000, [])
    done = rdfd("patches", tmp_path)
    assert (done.status, done.out) == (1, "")
    assert done.err == f"rdfd: {tmp_path}/rdj-1001: the texts up to version 2 have gone into a checkpoint\n"
    assert rdfd("patches", tmp_path, 3).out == patch(3).decode()
    assert rdfd("why", tmp_path).status == 0
    new = tmp_path / "new"
    assert rdfd("rewrite", tmp_path, new).out.splitlines() == [
        "file 1000 patches 0 head none", f"file 1001 patches 3 head {id_of(3)}",
    ]
    assert Journal.read(new).payloads == Journal.read(tmp_path).payloads
    write(tmp_path, 1001, [b"Z 1 "])
    assert "rdj-1001: broken checkpoint" in rdfd("why", tmp_path).out


def standing_in(folder: Path, body: str) -> Path:
    """A program that is the real one but for the making of checkpoints."""
    path = folder / "standing-in"
    path.write_text(f'#!/bin/sh\nif [ "$1" = checkpoint ]; then\n{body}\nfi\nexec {PROGRAM} "$@"\n')
    path.chmod(0o755)
    return path


def test_a_checkpoint_behind_each_so_many_patches(running: Running, tmp_path: Path) -> None:
    running.fill("ABC", 3)
    zone, made = tmp_path / "zone", tmp_path / "made"
    made.write_bytes(b"".join(pieces_of(1001, [kept(1, 3)])))
    program = standing_in(tmp_path, f'cp {made} "$2/rdj-1001"; exit')
    words = ("follow", zone, "ABC", "--once", "--program", program)
    assert rdfd(*words, "--checkpoint", 4, address=running.address).out == "ABC: version 3\n"
    assert not (zone / "rdj-1001").exists() or (zone / "rdj-1001").stat().st_size == 0
    done = rdfd(*words, "--checkpoint", 3, address=running.address)
    assert (done.status, done.out) == (0, "ABC: checkpoint at version 3\nABC: version 3\n")
    assert rdfd(*words, "--checkpoint", 1, address=running.address).out == "ABC: version 3\n"


def test_a_checkpoint_that_is_not_made(running: Running, tmp_path: Path) -> None:
    running.fill("ABC", 3)
    words = ("follow", tmp_path / "zone", "ABC", "--once", "--checkpoint", 2)
    program = standing_in(tmp_path, "echo 'rdfdelta: refused: checkpoint too large: have 600, limit 500' >&2; exit 1")
    done = rdfd(*words, "--program", program, address=running.address)
    assert (done.status, done.out) == (0, "ABC: version 3\n")
    assert done.err == "rdfd: refused: checkpoint too large: have 600, limit 500; trying again in 2 patches\n"
    program = standing_in(tmp_path, "echo 'rdfdelta: unknown command' >&2; exit 2")
    assert rdfd(*words, "--program", program, address=running.address).status == 2


@pytest.mark.skipif(not MAKES_CHECKPOINTS, reason="the program makes no checkpoints")
def test_checkpoints_of_the_program(running: Running, tmp_path: Path) -> None:
    zone = tmp_path / "zone"
    words = ("follow", zone, "ABC", "--once", "--checkpoint", 2)
    filled = 0
    for version, is_kept in [(1, 0), (3, 3), (4, 3), (6, 6), (7, 6)]:
        running.fill("ABC", version - filled, begin=filled + 1)
        filled = version
        assert rdfd(*words, address=running.address).status == 0
        assert ZoneCounter(zone).look().kept == is_kept
