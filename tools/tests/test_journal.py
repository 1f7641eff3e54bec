"""Journals are read as the program reads them, and damage is told at the same byte."""
from __future__ import annotations

import subprocess
from collections.abc import Callable
from pathlib import Path

import pytest

from conftest import PROGRAM, TAKES_RUNS, Running, id_of, mark, old_file, patch
from rdfdelta import BadFile, Damaged, Held, Journal, OldFormat, Pending, Registry, journal
from rdfdelta.counter import Counter
from rdfdelta.journal import file_of, pieces_of


# Where the running number of the second patch stands in the file of a log.
SECOND = 8 + 9 + len(patch(1)) + 1


@pytest.fixture
def folder(running: Running) -> Path:
    """The files of a server with a log of three patches, in slot 1 of 4."""
    running.fill("ABC", 3)
    running.client.create("DEF", "http://e/def")
    running.client.rename("DEF", "GHI")
    running.client.create("JKL", "http://e/jkl")
    running.client.remove("JKL")
    running.stop()
    return running.folder


def checked(folder: Path) -> str:
    """What the program says of the files."""
    done = subprocess.run([PROGRAM, "check", folder], capture_output=True, text=True)
    return done.stderr.removeprefix("rdfdelta: ").strip()


def test_the_form() -> None:
    whole = b"RDJ2\0\0\0\1" b"\1\0\0\0\1\0\0\0\2ab" b"\1\0\0\0\2\0\0\0\0" b"\0"
    assert b"".join(pieces_of(1, [b"ab", b""])) == whole
    found = Journal.parse(Path("rdj-0001"), whole + b"behind")
    assert (found.number, found.payloads, found.end) == (1, (b"ab", b""), len(whole) - 1)
    # The front of each field, and of each gate: there a file that ends too early is damaged.
    fields = [0] * 8 + [8] + [9] * 4 + [13] * 4 + [17] * 2 + [19] + [20] * 4 + [24] * 4 + [28]
    for length, at in enumerate(fields):
        with pytest.raises(Damaged) as damaged:
            Journal.parse(Path("rdj-0001"), whole[:length])
        assert damaged.value.at == at
    assert len(fields) == len(whole)


def test_the_old_form() -> None:
    whole = old_file(2, [b"ab", b""])
    assert whole == b"RDJ1\0\0\0\2" b"\1\0\0\0\2ab" b"\1\0\0\0\0" b"\0"
    # It is told before a wrong number, where the header is whole.
    for length in (8, len(whole)):
        with pytest.raises(OldFormat, match="rdj-0001: old format"):
            Journal.parse(Path("rdj-0001"), whole[:length])
    with pytest.raises(Damaged, match="byte 0"):
        Journal.parse(Path("rdj-0001"), whole[:7])
    assert Journal.parse(Path("rdj-0002"), whole, takes_old=True).payloads == (b"ab", b"")
    fields = [0] * 8 + [8] + [9] * 4 + [13] * 2 + [15] + [16] * 4 + [20]
    for length, at in enumerate(fields):
        with pytest.raises(Damaged) as damaged:
            Journal.parse(Path("rdj-0002"), whole[:length], takes_old=True)
        assert damaged.value.at == at


def test_a_file_that_is_too_long(monkeypatch: pytest.MonkeyPatch) -> None:
    whole = b"".join(pieces_of(1, [b"ab"]))
    monkeypatch.setattr(journal, "LOG_LIMIT", len(whole))
    assert Journal.parse(Path("rdj-0001"), whole).payloads == (b"ab",)
    monkeypatch.setattr(journal, "LOG_LIMIT", len(whole) - 1)
    with pytest.raises(BadFile, match="over limit: have 20, limit 19"):
        Journal.parse(Path("rdj-0001"), whole)


RUNS = [patch(1) + patch(2), patch(3), patch(4) + patch(5) + patch(6)]


def parsed(number: int, payloads: list[bytes]) -> Journal:
    return Journal.parse(Path(f"rdj-{number:04d}"), b"".join(pieces_of(number, payloads)))


def test_a_payload_is_a_run() -> None:
    log = parsed(1, RUNS)
    assert list(log.patches()) == [(number, patch(number)) for number in range(1, 7)]
    assert list(log.patches(5)) == [(5, patch(5)), (6, patch(6))] and len(log.payloads) == 3
    assert [link.id for link in log.links()] == [id_of(number) for number in range(1, 7)]


@pytest.mark.parametrize("payloads, version", [
    ([RUNS[0], patch(4)], 3),
    ([RUNS[0], patch(3) + patch(5)], 3),
    ([RUNS[0], patch(3) + patch(2, behind=3)], 3),
    ([patch(1) + patch(1)], 1),
    ([patch(1) + patch(2, behind=1) + patch(1, behind=2)], 1),
    ([RUNS[0], b""], 3),
    ([RUNS[0], b"# no patch\n"], 3),
    ([RUNS[0], patch(3) + b"TX .\n"], 3),
    ([RUNS[0], patch(3) + b"H note \"x\" .\n"], 3),
    ([patch(1), b"# " + b"x" * 4_194_304 + b"\n" + patch(2)], 2),
])
def test_payloads_that_are_no_runs(folder: Path, payloads: list[bytes], version: int) -> None:
    with pytest.raises(BadFile, match=f"rdj-0001: broken chain at version {version}$"):
        parsed(1, payloads).links()
    if TAKES_RUNS:
        (folder / "rdj-0001").write_bytes(b"".join(pieces_of(1, payloads)))
        assert checked(folder) == f"file 1: broken chain at version {version}"


def test_runs_that_pass_a_limit(monkeypatch: pytest.MonkeyPatch) -> None:
    monkeypatch.setattr(journal, "PATCHES_LIMIT", 6)
    assert len(parsed(1, RUNS).links()) == 6
    monkeypatch.setattr(journal, "PATCHES_LIMIT", 5)
    with pytest.raises(BadFile, match="broken chain at version 4"):
        parsed(1, RUNS).links()
    monkeypatch.undo()
    # The limit of bytes has nine of them for each patch, and the file for each run.
    size = sum(map(len, pieces_of(1, [patch(number) for number in range(1, 7)])))
    monkeypatch.setattr(journal, "LOG_LIMIT", size)
    assert len(parsed(1, RUNS).links()) == 6
    monkeypatch.setattr(journal, "LOG_LIMIT", size - 1)
    with pytest.raises(BadFile, match=f"over limit: have {size}, limit {size - 1}"):
        parsed(1, RUNS).links()


def test_a_zone_has_a_payload_for_each_patch(tmp_path: Path) -> None:
    assert len(parsed(1000, [patch(1), patch(2)]).links()) == 2
    payloads = [patch(1), patch(2) + patch(3)]
    with pytest.raises(BadFile, match="broken chain at version 2"):
        parsed(1000, payloads).links()
    (tmp_path / "rdj-1000").write_bytes(b"".join(pieces_of(1000, payloads)))
    done = subprocess.run([PROGRAM, "dump", tmp_path], capture_output=True, text=True)
    assert done.stderr == "rdfdelta: file 1000: broken chain at version 2\n"


def test_a_stopped_upgrade(tmp_path: Path) -> None:
    files = {0: [b"S 1"], 1: [patch(1) + patch(2)], 1000: [patch(1)]}
    spares = {2000: [b"S 1"], 2001: [patch(1)], 3000: [patch(1)]}
    for number, payloads in (files | spares).items():
        file_of(tmp_path, number).write_bytes(b"".join(pieces_of(number, payloads)))
    mark(tmp_path)
    for number in (0, 1):
        with pytest.raises(Pending, match="rdj-2099: upgrade pending"):
            Journal.read(file_of(tmp_path, number))
    # A zone has a marker of its own, and the spares are read as what they stand for.
    assert len(Journal.read(tmp_path).links()) == 1
    mark(tmp_path, 3099)
    with pytest.raises(Pending, match="rdj-3099: upgrade pending"):
        Journal.read(tmp_path)
    assert Registry.of(Journal.read(tmp_path / "rdj-2000")).slots == 1
    assert [len(Journal.read(file_of(tmp_path, number)).links()) for number in (2001, 3000)] == [1, 1]
    file_of(tmp_path, 3000).write_bytes(b"".join(pieces_of(3000, [patch(1) + patch(2)])))
    with pytest.raises(BadFile, match="broken chain at version 1"):
        Journal.read(file_of(tmp_path, 3000)).links()


def test_a_log(folder: Path) -> None:
    log = Journal.read(folder / "rdj-0001")
    assert log.number == 1 and log.payloads == (patch(1), patch(2), patch(3))
    assert [link.id for link in log.links()] == [id_of(1), id_of(2), id_of(3)]
    assert list(log.patches(3)) == [(3, patch(3))] and list(log.patches(4)) == []
    assert log.end == (folder / "rdj-0001").stat().st_size - 1
    assert b"".join(pieces_of(1, log.payloads)) == (folder / "rdj-0001").read_bytes()


def test_the_registry(folder: Path) -> None:
    registry = Registry.of(Journal.read(folder / "rdj-0000"))
    assert (registry.slots, registry.used) == (4, 3)
    assert [(source.name, source.slot) for source in registry.sources] == [("ABC", 1), ("GHI", 2)]
    with pytest.raises(BadFile, match="has no patches"):
        Journal.read(folder / "rdj-0000").links()
    with pytest.raises(BadFile, match="not the registry"):
        Registry.of(Journal.read(folder / "rdj-0001"))


def test_each_truncation_is_damage_at_the_byte_of_check(folder: Path) -> None:
    path = folder / "rdj-0001"
    whole = path.read_bytes()
    told: dict[int, str] = {}
    for length in range(len(whole)):
        with pytest.raises(Damaged) as damaged:
            Journal.parse(path, whole[:length])
        told[length] = f"file 1: byte {damaged.value.at}: damaged"
    for length in [0, 7, 8, 9, 12, 13, 16, 17, 18, 50, *range(len(whole) - 5, len(whole))]:
        path.write_bytes(whole[:length])
        assert checked(folder) == told[length]


@pytest.mark.parametrize("hurt, said", [
    (lambda whole: b"RDJ3" + whole[4:], "file 1: byte 0: damaged"),
    (lambda whole: b"RDJ1" + whole[4:], "file 1: old format"),
    (lambda whole: b"RDJ1\0\0\0\x02" + whole[8:], "file 1: old format"),
    (lambda whole: whole[:7] + b"\x02" + whole[8:], "file 1: wrong number 2"),
    (lambda whole: whole.replace(b"000000000002> .\nTX", b"000000000001> .\nTX"), "file 1: broken chain at version 3"),
    (lambda whole: whole.replace(b"H prev", b"H pref"), "file 1: broken chain at version 2"),
    (lambda whole: whole[:9] + b"\0\0\0\x02" + whole[13:], "file 1: byte 9: damaged"),
    (lambda whole: whole.replace(b"\1\0\0\0\x02", b"\1\0\0\0\x03"), f"file 1: byte {SECOND}: damaged"),
    (lambda whole: whole[:13] + b"\0\0\0\x05" + whole[17:], "file 1: broken chain at version 1"),
    (lambda whole: whole.replace(b'A <http://e/s> <http://e/p> "2"', b'a <http://e/s> <http://e/p> "2"'),
     "file 1: broken chain at version 2"),
    (lambda whole: whole.replace(b"TC .", b"TX ."), "file 1: broken chain at version 1"),
    (lambda whole: whole + b"behind", ""),
    (lambda whole: whole[:8] + b"\x02" + whole[9:], ""),
])
def test_other_damage(folder: Path, hurt: Callable[[bytes], bytes], said: str) -> None:
    path = folder / "rdj-0001"
    path.write_bytes(hurt(path.read_bytes()))
    assert checked(folder) == said
    if not said:
        Journal.read(path).links()
        return
    with pytest.raises(BadFile) as bad:
        Journal.read(path).links()
    assert str(bad.value) == said.replace("file 1", str(path))


@pytest.mark.parametrize("events", [
    [], [b"S 0"], [b"S 17"], [b"S 01"], [b"S 2", b"X"], [b"S 2", b"D 1"], [b"S 2", b"R 1 A"],
    [b"S 2", b"C 2 00000000-0000-4000-8000-000000000009 A http://e/"],
    [b"S 2", b"C 1 00000000-0000-4000-8000-00000000000A A http://e/"],
    [b"S 1", *(b"C %d 00000000-0000-4000-8000-00000000000%d A%d http://e/" % (k, k, k) for k in (1, 2))],
    [b"S 2", *(b"C %d 00000000-0000-4000-8000-00000000000%d A http://e/" % (k, k) for k in (1, 2))],
    [b"S 2", b"C 1 00000000-0000-4000-8000-000000000009 A http://e/", b"R 1 A"],
])
def test_registries_that_are_none(folder: Path, events: list[bytes]) -> None:
    path = folder / "rdj-0000"
    path.write_bytes(b"".join(pieces_of(0, events)))
    with pytest.raises(BadFile) as bad:
        Registry.of(Journal.read(path))
    assert str(bad.value) == checked(folder).replace("file 0", str(path))


def test_a_file_that_is_held_is_refused(running: Running) -> None:
    with pytest.raises(Held, match=f"held by pid {running.process.pid}"):
        Journal.read(running.folder / "rdj-0001")


def test_a_counter_goes_on(running: Running) -> None:
    counter = Counter(running.folder / "rdj-0001")
    assert (counter.look(), counter.head()) == (0, None)
    running.fill("ABC", 2)
    assert (counter.look(), counter.head()) == (2, id_of(2))
    running.fill("ABC", 1, begin=3)
    assert (counter.look(), counter.head()) == (3, id_of(3))
    assert Counter(running.folder / "none").look() == 0


def test_a_counter_counts_the_patches_of_runs(tmp_path: Path) -> None:
    path = tmp_path / "rdj-0001"
    path.write_bytes(b"".join(pieces_of(1, RUNS[:1])))
    counter = Counter(path)
    assert (counter.look(), counter.head()) == (2, id_of(2))
    path.write_bytes(b"".join(pieces_of(1, RUNS)))
    assert (counter.look(), counter.head()) == (6, id_of(6))
    path.write_bytes(b"".join(pieces_of(1, [*RUNS, b"no run"])))
    assert (counter.look(), counter.head()) == (6, id_of(6))


def test_a_counter_counts_what_is_whole(tmp_path: Path) -> None:
    path = tmp_path / "rdj-1000"
    whole = b"".join(pieces_of(1000, [patch(1), patch(2)]))
    gate = SECOND - 1
    # The second one has a gate that is shut, a number that isn't its own, or a front alone.
    for content in (whole[:gate] + b"\0" + whole[SECOND:], whole[:gate + 4] + b"\3" + whole[gate + 5:], whole[:gate + 7]):
        path.write_bytes(content)
        counter = Counter(path)
        assert (counter.look(), counter.head()) == (1, id_of(1))
        path.write_bytes(whole)
        assert (counter.look(), counter.head()) == (2, id_of(2))
    path.write_bytes(old_file(1000, [b"a", b"b"]))
    assert Counter(path).look() == 0
