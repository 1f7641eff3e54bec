"""rdfd backup, restore and move-log, and that they may be killed at any moment."""
from __future__ import annotations

import random
import shutil
import subprocess
import time
from pathlib import Path

import pytest

from calling import environment, rdfd, words_of
from conftest import PROGRAM, Running, Start, id_of, patch
from rdfdelta import Journal, RdfDeltaError, moves
from rdfdelta.datasets import of_log
from rdfdelta.program import Program


def versions(running: Running) -> dict[str, int]:
    return {source.name: running.client.log(source.name).state().version for source in running.client.sources()}


def lines_of(running: Running, program: Program, name: str) -> list[str]:
    log = running.client.log(name)
    return of_log(program, log, log.state().version, lambda done, total: None)


def kill_often(words: list[str], address: str, seed: int) -> None:
    """Runs a command and kills it at a random moment, three times."""
    dice = random.Random(seed)
    for _ in range(3):
        nothing = subprocess.DEVNULL
        running = subprocess.Popen(words, stdout=nothing, stderr=nothing, env=environment(address))
        time.sleep(dice.uniform(0.1, 0.9))
        running.kill()
        running.wait()


def test_a_copy_takes_only_what_is_new(running: Running, tmp_path: Path) -> None:
    running.fill("ABC", 3)
    running.fill("DEF", 1)
    copy = tmp_path / "copy"
    done = rdfd("backup", copy, address=running.address)
    assert (done.status, done.out) == (0, "ABC: version 3, 3 new\nDEF: version 1, 1 new\n")
    source = running.client.source("ABC")
    first = copy / source.id / "1"
    assert first.read_bytes() == patch(1)
    before = first.stat().st_ino
    running.fill("ABC", 2, begin=4)
    assert rdfd("backup", copy, address=running.address).out == "ABC: version 5, 2 new\nDEF: version 1, 0 new\n"
    assert first.stat().st_ino == before
    noted = (copy / "check").read_text()
    running.stop()
    checked = subprocess.run([PROGRAM, "check", running.folder], capture_output=True, text=True).stdout
    assert noted == "".join(line + "\n" for line in checked.splitlines()[1:3])


def test_a_copy_is_given_back(serve: Start, tmp_path: Path) -> None:
    old = serve("old")
    old.fill("ABC", 3)
    old.fill("DEF", 2)
    old.client.rename("ABC", "XYZ")
    copy = tmp_path / "copy"
    rdfd("backup", copy, address=old.address)
    new = serve("new")
    done = rdfd("restore", copy, address=new.address)
    assert (done.status, done.out) == (0, "XYZ: version 3, 3 given back\nDEF: version 2, 2 given back\n")
    assert new.client.sources() == old.client.sources()
    assert rdfd("restore", copy, address=new.address).out.count(" 0 given back") == 2
    old.stop()
    new.stop()
    for name in ("rdj-0001", "rdj-0002"):
        found = [list(Journal.read(running.folder / name).patches()) for running in (old, new)]
        assert found[0] == found[1] != []


def test_killed_copies_go_on(serve: Start, tmp_path: Path) -> None:
    old, new, other, copy = serve("old"), serve("new"), serve("other"), tmp_path / "copy"
    old.fill("ABC", 300)
    kill_often(words_of("backup", copy), old.address, 1)
    if (copy / "sources.json").exists() and not (copy / "check").exists():
        assert "may have had more patches" in rdfd("restore", copy, address=other.address).err
    done = rdfd("backup", copy, address=old.address)
    assert done.status == 0 and done.out.startswith("ABC: version 300, ")
    kill_often(words_of("restore", copy), new.address, 2)
    assert rdfd("restore", copy, address=new.address).status == 0
    assert list(new.client.log("ABC").patches()) == list(old.client.log("ABC").patches())


def test_a_copy_of_another_log_is_left_alone(serve: Start, tmp_path: Path) -> None:
    old, new, copy = serve("old"), serve("new"), tmp_path / "copy"
    old.fill("ABC", 3)
    old.fill("DEF", 1)
    rdfd("backup", copy, address=old.address)
    source = old.client.source("ABC")
    new.client.create("ABC", source.uri, source.id)
    new.client.log("ABC").append(patch(7, behind=0))
    new.fill("GHI", 1)
    done = rdfd("backup", copy, address=new.address)
    assert done.status == 10 and "ABC: the copy has 3 patches and the log 1" in done.err
    assert "GHI: version 1, 1 new" in done.out and (copy / source.id / "3").read_bytes() == patch(3)
    # The sources are those of the new server now, which has other patches than the copy.
    assert rdfd("restore", copy, address=new.address).status == 10
    other = serve("other")
    other.client.create("other", "http://e/")
    done = rdfd("restore", copy, address=other.address)
    assert done.status == 10 and "isn't empty" in done.err


def test_a_copy_that_lacks_a_patch_is_refused(serve: Start, tmp_path: Path) -> None:
    old, copy = serve("old"), tmp_path / "copy"
    old.fill("ABC", 3)
    rdfd("backup", copy, address=old.address)
    folder = copy / old.client.source("ABC").id
    (folder / "2").unlink()
    done = rdfd("restore", copy, address=serve("new").address)
    assert done.status == 9 and "has 1 patches without a gap, and was noted as: file 1 patches 3" in done.err
    (copy / "check").write_text("file 1 patches\n")
    assert "no line of check" in rdfd("restore", copy, address=old.address).err
    # The next copy fetches what is missing again.
    assert rdfd("backup", copy, address=old.address).out == "ABC: version 3, 2 new\n"
    assert rdfd("restore", tmp_path / "none", address=old.address).status == 1


def test_lost_patches_are_given_back(serve: Start, tmp_path: Path) -> None:
    running, copy = serve("data"), tmp_path / "copy"
    running.fill("ABC", 2)
    running.stop()
    shutil.copytree(running.folder, tmp_path / "older")
    running = serve("data")
    running.fill("ABC", 2, begin=3)
    rdfd("backup", copy, address=running.address)
    running.stop()
    older = serve("older")
    assert rdfd("backup", copy, address=older.address).status == 10
    assert rdfd("restore", copy, address=older.address).out == "ABC: version 4, 2 given back\n"


def test_a_log_is_moved(running: Running, program: Program) -> None:
    running.fill("ABC", 3)
    rows = 'PA ex <http://e/> .\nPA no <http://e/> .\nPD no .\nD <http://e/s> <http://e/p> "1" .\n'
    running.client.log("ABC").append(patch(4, rows))
    before = lines_of(running, program, "ABC")
    refused = rdfd("move-log", "ABC", address=running.address)
    assert refused.status == 1 and "ABC isn't half full: 4 of 262,144 patches" in refused.err
    done = rdfd("move-log", "ABC", "--anyway", address=running.address)
    assert done.status == 0, done.err
    assert versions(running) == {"ABC": 1, "ABC-1": 4} and lines_of(running, program, "ABC") == before
    assert "\nPA ex <http://e/> .\nA <http" in running.client.log("ABC").fetch(1).decode()
    assert running.client.source("ABC").slot == 2
    assert rdfd("move-log", "ABC", "--anyway", address=running.address).status == 0
    assert versions(running) == {"ABC": 1, "ABC-1": 4, "ABC-2": 1}
    assert "no source has the name XYZ" in rdfd("move-log", "XYZ", address=running.address).err


def test_a_move_that_is_killed_goes_on(serve: Start, program: Program) -> None:
    running = serve(slots=8)
    running.fill("ABC", 30)
    before = lines_of(running, program, "ABC")
    kill_often(words_of("move-log", "ABC", "--anyway"), running.address, 5)
    done = rdfd("move-log", "ABC", "--anyway", address=running.address)
    assert done.status == 0, done.err
    assert lines_of(running, program, "ABC") == before
    assert versions(running)["ABC"] == 1 and versions(running)["ABC-1"] == 30 and "ABC.next" not in versions(running)


class Stopped(Exception):
    """Stands for a kill at a call of the server."""


@pytest.mark.parametrize("moment", range(12))
def test_a_move_that_was_stopped_goes_on(
    running: Running, program: Program, monkeypatch: pytest.MonkeyPatch, moment: int
) -> None:
    """It is stopped at one changing call in turn, before or behind it; meanwhile somebody appends."""
    running.fill("ABC", 3)
    monkeypatch.setattr(moves, "PATCH_LIMIT", 230)
    calls = 0

    def stopping(method: str) -> None:
        real = getattr(running.client, method)

        def call(*words: object, **members: object) -> object:
            nonlocal calls
            calls += 1
            if calls == moment // 2 + 1 and moment % 2 == 0:
                raise Stopped
            answer = real(*words, **members)
            if calls == moment // 2 + 1:
                raise Stopped
            return answer

        monkeypatch.setattr(running.client, method, call)

    for method in ("create", "rename", "post"):
        stopping(method)
    with pytest.raises(Stopped):
        moves.move_log(running.client, program, "ABC", True, lambda title, done, total: None)
    monkeypatch.undo()
    monkeypatch.setattr(moves, "PATCH_LIMIT", 230)
    names = {source.name for source in running.client.sources()}
    if "ABC" in names and "ABC-1" in names:
        # The move was done but for its last answer.
        return
    old = next(name for name in ("ABC", "ABC-1") if name in names)
    if moment != 1:
        running.client.log(old).append(patch(4))
    moved = moves.move_log(running.client, program, "ABC", True, lambda title, done, total: None)
    assert (moved.old.name, moved.new.name) == ("ABC-1", "ABC")
    assert lines_of(running, program, "ABC") == lines_of(running, program, "ABC-1")


def test_an_empty_dataset_is_moved(running: Running, program: Program) -> None:
    running.fill("ABC", 1)
    running.client.log("ABC").append(patch(2, 'D <http://e/s> <http://e/p> "1" .\n'))
    moves.move_log(running.client, program, "ABC", True, lambda title, done, total: None)
    assert versions(running) == {"ABC": 1, "ABC-1": 2} and lines_of(running, program, "ABC") == []
    assert b"moved-from" in running.client.log("ABC").fetch(1)
    running.client.create("DEF", "http://e/def")
    moves.move_log(running.client, program, "DEF", True, lambda title, done, total: None)
    assert versions(running)["DEF"] == 0


def test_a_move_needs_a_slot(serve: Start, program: Program) -> None:
    running = serve(slots=1)
    running.fill("ABC", 1)
    with pytest.raises(RdfDeltaError, match="slots"):
        moves.move_log(running.client, program, "ABC", True, lambda title, done, total: None)
    assert running.client.log("ABC").state().head == id_of(1)
