"""rdfd follow, dump and match: a zone keeps up, is read meanwhile, and may be stopped at any moment."""
from __future__ import annotations

import random
import signal
import subprocess
import time
from pathlib import Path

from calling import environment, rdfd, words_of
from conftest import PROGRAM, Running, Start, eventually, id_of, mark, old_file, patch
from rdfdelta import ProgramFailed, locks
from rdfdelta.journal import pieces_of
from rdfdelta.zones import hint


def lines(count: int) -> set[str]:
    return {f'<http://e/s> <http://e/p> "{number}" .' for number in range(1, count + 1)}


def following(running: Running, zone: Path, *words: object) -> "subprocess.Popen[bytes]":
    command = words_of("follow", zone, "ABC", "--every", "0.1", *words)
    pipe = subprocess.PIPE
    return subprocess.Popen(command, stdout=pipe, stderr=pipe, env=environment(running.address))


def test_once(running: Running, tmp_path: Path) -> None:
    running.fill("ABC", 3)
    zone = tmp_path / "a/zone"
    done = rdfd("follow", zone, "ABC", "--once", address=running.address)
    assert (done.status, done.out) == (0, "ABC: version 3\n")
    assert set(rdfd("dump", zone).out.splitlines()) == lines(3)
    assert rdfd("match", zone, "default", "*", "*", '"2"').out == '<http://e/s> <http://e/p> "2" .\n'
    assert rdfd("prefixes", zone).status == 0
    assert rdfd("match", zone, "default", "*", "*", "2").status == 2
    assert rdfd("dump", tmp_path / "none").err.endswith("no such folder\n")


def test_a_command_runs_when_it_grew(running: Running, tmp_path: Path) -> None:
    running.fill("ABC", 1)
    told = tmp_path / "told"
    command = f'echo "$RDFD_LOG $RDFD_VERSION $(rdfd_dump "$RDFD_ZONE")" >> {told}; test "$RDFD_VERSION" = 1'
    command = command.replace("rdfd_dump", " ".join(words_of("dump")))
    follower = following(running, tmp_path / "zone", "--run", command)
    for count in (1, 3):
        running.fill("ABC", max(0, count - 1), begin=2)
        sign = f"ABC {count} "
        assert eventually(lambda: told.exists() and sign in told.read_text())
    # That the command failed the second time is told, and the following goes on.
    assert follower.stderr is not None and b"status 1 of:" in follower.stderr.readline()
    assert follower.poll() is None
    follower.terminate()
    follower.communicate(timeout=20)
    text = told.read_text()
    assert text.startswith("ABC 1 ") and '"3" .' in text


def test_readers_wait_for_the_zone(running: Running, tmp_path: Path) -> None:
    running.fill("ABC", 5)
    zone = tmp_path / "zone"
    assert rdfd("follow", zone, "ABC", "--once", address=running.address).status == 0
    follower = following(running, zone)
    deadline = time.monotonic() + 3
    seen: list[int] = []
    while time.monotonic() < deadline:
        running.fill("ABC", 1, begin=6 + len(seen))
        done = rdfd("dump", zone)
        assert (done.status, done.err) == (0, "")
        seen.append(len(done.out.splitlines()))
    follower.terminate()
    assert b"disk failed" not in follower.communicate(timeout=20)[1]
    assert seen == sorted(seen) and seen[0] >= 5


def test_killed_at_any_moment(running: Running, tmp_path: Path) -> None:
    running.fill("ABC", 60)
    zone = tmp_path / "zone"
    dice = random.Random(7)
    for _ in range(3):
        follower = following(running, zone)
        time.sleep(dice.uniform(0.1, 0.8))
        follower.kill()
        follower.communicate()
    done = rdfd("follow", zone, "ABC", "--once", address=running.address)
    assert (done.status, done.out) == (0, "ABC: version 60\n")
    assert set(rdfd("dump", zone).out.splitlines()) == lines(60)


def test_a_server_that_comes_back(serve: Start, tmp_path: Path) -> None:
    running = serve()
    running.fill("ABC", 1)
    running.stop()
    follower = following(running, tmp_path / "zone")
    assert follower.stderr is not None and b"connection refused; trying again in" in follower.stderr.readline()
    assert follower.poll() is None
    follower.terminate()
    follower.communicate(timeout=20)
    assert rdfd("follow", tmp_path / "zone", "ABC", "--once", address=running.address).status == 6


def test_a_log_that_was_restored(serve: Start, tmp_path: Path) -> None:
    old, new = serve("old"), serve("new")
    old.fill("ABC", 4)
    new.fill("ABC", 2)
    zone = tmp_path / "zone"
    rdfd("follow", zone, "ABC", "--once", address=old.address)
    done = rdfd("follow", zone, "ABC", address=new.address)
    assert done.status == 10 and "peer behind: have 4, peer 2" in done.err
    assert f"rdfd patches {zone} FROM --append LOG" in done.err
    assert rdfd("patches", zone, 3, "--append", "ABC", address=new.address).status == 0
    assert rdfd("follow", zone, "ABC", "--once", address=new.address).status == 0
    other = serve("other")
    other.client.create("ABC", "http://e/")
    for number in range(11, 17):
        other.client.log("ABC").append(patch(number, behind=number - 1 if number > 11 else 0))
    done = rdfd("follow", zone, "ABC", address=other.address)
    assert done.status == 10 and "diverged at version 4" in done.err and "another folder" in done.err


def test_what_does_not_pass(running: Running, tmp_path: Path) -> None:
    done = rdfd("follow", tmp_path / "zone", "XYZ", address=running.address)
    assert done.status == 1 and "no_source" in done.err and "renamed or removed" in done.err
    running.fill("ABC", 2)
    rdfd("follow", tmp_path / "zone", "ABC", "--once", address=running.address)
    file = tmp_path / "zone/rdj-1000"
    file.write_bytes(file.read_bytes()[:-20])
    done = rdfd("follow", tmp_path / "zone", "ABC", address=running.address)
    assert done.status == 9 and "file 1000" in done.err and "damaged" in done.err


def test_ctrl_c_ends_it(running: Running, tmp_path: Path) -> None:
    running.fill("ABC", 1)
    follower = following(running, tmp_path / "zone")
    assert follower.stdout is not None and follower.stdout.readline() == b"ABC: version 1\n"
    follower.send_signal(signal.SIGINT)
    _, said = follower.communicate(timeout=20)
    assert b"Traceback" not in said and follower.returncode in (1, 130)
    assert id_of(1) in rdfd("patches", tmp_path / "zone").out


def test_a_zone_of_the_old_form(running: Running, tmp_path: Path) -> None:
    running.fill("ABC", 3)
    zone, new = tmp_path / "zone", tmp_path / "new"
    zone.mkdir()
    (zone / "rdj-1000").write_bytes(old_file(1000, [patch(1), patch(2)]))
    done = rdfd("follow", zone, "ABC", "--once", address=running.address)
    assert done.status == 9 and "file 1000: old format" in done.err and f"rdfdelta upgrade_zone {zone}" in done.err
    assert rdfd("rewrite", zone, new).status == 0
    assert rdfd("follow", new, "ABC", "--once", address=running.address).out == "ABC: version 3\n"


def test_a_zone_whose_upgrade_was_stopped(tmp_path: Path) -> None:
    zone = tmp_path / "zone"
    zone.mkdir()
    (zone / "rdj-1000").write_bytes(b"".join(pieces_of(1000, [patch(1)])))
    mark(zone, 3099)
    pending = ProgramFailed(9, "rdfdelta: file 3099: upgrade pending")
    assert f"rdfdelta upgrade_zone {zone}" in (hint(zone, pending) or "")
    done = rdfd("patches", zone)
    assert done.status == 9 and done.err.endswith("rdj-3099: upgrade pending\n")


def test_a_sync_that_outlives_its_caller_has_the_lock(running: Running, tmp_path: Path) -> None:
    running.fill("ABC", 1)
    zone = tmp_path / "zone"
    slow = tmp_path / "slow"
    slow.write_text(f'#!/bin/sh\n[ "$1" = zone ] || {{ touch "{tmp_path}/begun"; sleep 2; }}\nexec {PROGRAM} "$@"\n')
    slow.chmod(0o755)
    follower = following(running, zone, "--program", slow)
    assert eventually((tmp_path / "begun").exists)
    follower.kill()
    follower.wait()
    assert locks.is_held(zone / "rdfd.lock")
    done = rdfd("follow", zone, "ABC", "--once", address=running.address)
    assert (done.status, done.out) == (0, "ABC: version 1\n")
