"""rdfd rewrite: files of either form become files of the one that the program reads, all or none."""
from __future__ import annotations

import fcntl
import os
import stat
import subprocess
from pathlib import Path

import pytest

from calling import rdfd
from conftest import AGED, PROGRAM, Running, Start, id_of, mark, old_file, patch
from rdfdelta import Journal, Registry, rewriting
from rdfdelta.journal import pieces_of

SOURCE_ID = "00000000-0000-4000-8000-000000000009"
EVENTS = [b"S 2", f"C 1 {SOURCE_ID} ABC http://e/abc".encode(), b"R 1 XYZ"]
LOGS: dict[int, list[bytes]] = {0: EVENTS, 1: [patch(1), patch(2)], 2: []}
LINES = f"file 0 records 3\nfile 1 patches 2 head {id_of(2)}\nfile 2 patches 0 head none\n"


def name_of(number: int) -> str:
    return f"rdj-{number:04d}"


@pytest.fixture
def old(tmp_path: Path) -> Path:
    """The files of a server of two slots, as an older version wrote them."""
    folder = tmp_path / "old"
    folder.mkdir(mode=0o750)
    for number, payloads in LOGS.items():
        (folder / name_of(number)).write_bytes(old_file(number, payloads))
        (folder / name_of(number)).chmod(0o600)
    return folder


def contents(folder: Path) -> dict[str, bytes]:
    return {path.name: path.read_bytes() for path in folder.iterdir()}


def written(logs: dict[int, list[bytes]]) -> dict[str, bytes]:
    return {name_of(number): b"".join(pieces_of(number, payloads)) for number, payloads in logs.items()}


def test_a_server(old: Path, tmp_path: Path) -> None:
    before, new = contents(old), tmp_path / "new"
    done = rdfd("rewrite", old, new)
    assert (done.status, done.out, done.err) == (0, LINES, "")
    assert contents(new) == written(LOGS) and contents(old) == before
    assert stat.S_IMODE(new.stat().st_mode) == 0o750
    assert {stat.S_IMODE(path.stat().st_mode) for path in new.iterdir()} == {0o600}


def test_the_program_has_what_was_written(old: Path, tmp_path: Path) -> None:
    assert rdfd("rewrite", old, tmp_path / "new").status == 0
    done = subprocess.run([PROGRAM, "check", tmp_path / "new"], capture_output=True, text=True)
    assert (done.stdout, done.stderr) == (LINES, "")


def test_a_server_that_is_rewritten_goes_on(serve: Start, old: Path, tmp_path: Path) -> None:
    assert rdfd("rewrite", old, tmp_path / "new").status == 0
    running = serve("new")
    running.fill("XYZ", 1, begin=3)
    assert [text for _, text in running.client.log("XYZ").patches()] == [patch(1), patch(2), patch(3)]
    assert running.client.source("XYZ").id == SOURCE_ID


def test_a_zone(tmp_path: Path) -> None:
    old, new = tmp_path / "old", tmp_path / "new"
    old.mkdir()
    new.mkdir()
    (old / "rdj-1000").write_bytes(old_file(1000, [patch(1)]))
    (old / "rdfd.lock").touch()
    done = rdfd("rewrite", old, new)
    assert (done.status, done.out) == (0, f"file 1000 patches 1 head {id_of(1)}\n")
    assert contents(new) == written({1000: [patch(1)]})


def test_what_is_in_the_form_stays_the_same(old: Path, tmp_path: Path) -> None:
    (old / "rdj-0001").write_bytes(written(LOGS)["rdj-0001"] + b"behind the gate")
    assert rdfd("rewrite", old, tmp_path / "new").out == LINES
    assert rdfd("rewrite", tmp_path / "new", tmp_path / "newer").out == LINES
    assert contents(tmp_path / "new") == contents(tmp_path / "newer") == written(LOGS)


def test_a_file_of_no_slot_is_left_out(old: Path, tmp_path: Path) -> None:
    (old / "rdj-0003").write_bytes(b"")
    assert rdfd("rewrite", old, tmp_path / "new").out == LINES
    assert contents(tmp_path / "new") == written(LOGS)


@pytest.mark.parametrize("number, content, said", [
    (0, None, "rdj-0000: not there"),
    (2, None, "rdj-0002: not there"),
    (0, b"", "rdj-0000: byte 0: damaged"),
    (0, old_file(0, [b"S 2", b"D 1"]), "rdj-0000: broken event at 1"),
    (1, old_file(1, [patch(1)])[:-1], f"rdj-0001: byte {13 + len(patch(1))}: damaged"),
    (1, b"".join(pieces_of(1, [patch(1)]))[:-1], f"rdj-0001: byte {17 + len(patch(1))}: damaged"),
    (1, old_file(1, [patch(1), patch(3)]), "rdj-0001: broken chain at version 2"),
    (2, old_file(2, [b"no patch"]), "rdj-0002: broken chain at version 1"),
    (2, old_file(1, []), "rdj-0002: wrong number 1"),
])
def test_one_that_is_not_whole(old: Path, tmp_path: Path, number: int, content: bytes | None, said: str) -> None:
    path = old / name_of(number)
    path.unlink()
    if content is not None:
        path.write_bytes(content)
    done = rdfd("rewrite", old, tmp_path / "new")
    assert (done.status, done.out) == (9, "") and done.err.endswith(f"{said}\n")
    assert not (tmp_path / "new").exists()


def test_what_is_refused(old: Path, tmp_path: Path) -> None:
    new, file = tmp_path / "new", tmp_path / "file"
    new.mkdir()
    assert rdfd("rewrite", tmp_path / "none", new).err.endswith("none: no such folder\n")
    assert rdfd("rewrite", new, tmp_path / "newer").err.endswith("new: no rdj- files\n")
    assert rdfd("rewrite", old, tmp_path / "none/new").status == 1
    (new / "other").touch()
    before = contents(old)
    for place in (new, old):
        done = rdfd("rewrite", old, place)
        assert done.status == 1 and done.err.endswith("not an empty folder\n")
    file.touch()
    assert rdfd("rewrite", old, file).status == 2
    assert list(contents(new)) == ["other"] and contents(old) == before


def test_the_files_of_an_older_version(tmp_path: Path) -> None:
    done = rdfd("rewrite", AGED / "server", tmp_path / "new")
    assert done.out == (
        f"file 0 records 7\nfile 1 patches 2 head {id_of(2)}\nfile 2 patches 1 head {id_of(1)}\n"
        f"file 3 patches 0 head none\nfile 4 patches 5 head {id_of(5)}\n"
    )
    checked = subprocess.run([PROGRAM, "check", tmp_path / "new"], capture_output=True, text=True)
    assert (checked.stdout, checked.stderr) == (done.out, "")
    registry = Registry.of(Journal.read(tmp_path / "new/rdj-0000"))
    assert [(source.slot, source.name) for source in registry.sources] == [(1, "XYZ"), (3, "GHI"), (4, "ABC")]
    # The third patch of the first log stood behind a gate that its stop had left shut.
    assert b"000000000003> ." in (AGED / "server/rdj-0001").read_bytes()
    assert rdfd("rewrite", AGED / "zone", tmp_path / "zone").out == f"file 1000 patches 2 head {id_of(2)}\n"


def test_an_upgrade_that_was_stopped(old: Path, tmp_path: Path) -> None:
    mark(old, 3099)
    (old / "rdj-2001").write_bytes(b"a spare, filled in part")
    assert rdfd("rewrite", old, tmp_path / "new").out == LINES
    mark(old)
    before = contents(old)
    done = rdfd("rewrite", old, tmp_path / "newer")
    assert done.status == 9 and done.err.endswith("rdj-2099: upgrade pending\n")
    assert contents(old) == before and not (tmp_path / "newer").exists()


def test_files_that_are_held(old: Path, tmp_path: Path) -> None:
    with (old / "rdj-0002").open("rb") as file:
        fcntl.flock(file, fcntl.LOCK_EX)
        done = rdfd("rewrite", old, tmp_path / "new")
    assert done.status == 5 and f"rdj-0002: held by pid {os.getpid()}" in done.err
    assert not (tmp_path / "new").exists()


def test_a_server_that_runs(running: Running, tmp_path: Path) -> None:
    done = rdfd("rewrite", running.folder, tmp_path / "new")
    assert done.status == 5 and f"held by pid {running.process.pid}" in done.err


class Stopped(Exception):
    """Stands for a kill between two files."""


@pytest.mark.parametrize("count", range(3))
def test_one_that_was_stopped_is_no_server(
    old: Path, tmp_path: Path, monkeypatch: pytest.MonkeyPatch, count: int
) -> None:
    real, new = rewriting._write, tmp_path / "new"

    def write(journal: Journal, path: Path) -> None:
        if len(list(new.iterdir())) == count:
            raise Stopped
        real(journal, path)

    monkeypatch.setattr(rewriting, "_write", write)
    with pytest.raises(Stopped):
        rewriting.rewrite(old, new, lambda title, done, total: None)
    monkeypatch.undo()
    assert len(contents(new)) == count and "rdj-0000" not in contents(new)
    if count > 0:
        assert rdfd("rewrite", old, new).status == 1
