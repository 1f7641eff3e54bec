"""Runs of patches: the table of answers, what sends them, and servers that take none."""
from __future__ import annotations

import subprocess
from collections.abc import Iterator
from pathlib import Path

import pytest

from calling import rdfd
from conftest import PROGRAM, TAKES_RUNS, TOP, Running, Start, id_of, patch
from rdfdelta import (
    Appended, AppendedRun, BadRun, Conflict, Full, Journal, Known, LinkFailed, Log, LogState, NoRuns, NoSource,
    RdfDeltaError, Refused, Server,
)
from rdfdelta.patches import PATCH_LIMIT, join, split, stand_apart
from rdfdelta.runs import append_all, runs_of
from standin import Logs, standing_in

needs_runs = pytest.mark.skipif(not TAKES_RUNS, reason="the program takes no runs")


def numbers(first: int, last: int) -> list[bytes]:
    return [patch(number) for number in range(first, last + 1)]


@pytest.fixture
def standin() -> Iterator[tuple[str, Logs]]:
    with standing_in() as found:
        yield found


@pytest.fixture
def older() -> Iterator[tuple[str, Logs]]:
    """A server that takes no runs."""
    with standing_in(takes_runs=False) as found:
        yield found


@pytest.fixture(params=["stand-in", pytest.param("program", marks=needs_runs)])
def log(request: pytest.FixtureRequest, serve: Start) -> Iterator[Log]:
    """An empty log of either server."""
    if request.param == "program":
        running = serve()
        running.client.create("ABC", "http://e/abc")
        yield running.client.log("ABC")
        return
    with standing_in() as (address, _), Server(address) as server:
        server.create("ABC", "http://e/abc")
        yield server.log("ABC")


def log_of(standin: tuple[str, Logs]) -> Log:
    server = Server(standin[0])
    server.create("ABC", "http://e/abc")
    return server.log("ABC")


def test_a_stream_is_cut() -> None:
    stream = b"# a\n" + patch(1) + b" # b\n" + patch(2).replace(b"H prev", b"H previous") + b"\n"
    found = split(stream)
    assert b"".join(one.text for one in found) == stream and found[1].text.startswith(b"H id")
    assert [(one.link.id, one.link.prev) for one in found] == [(id_of(1), None), (id_of(2), id_of(1))]
    assert split(b"") == split(b" # c") == [] and [one.text for one in split(patch(1))] == [patch(1)]
    # Without other rows an id row begins a patch, and a row of prev belongs to the patch before it.
    heads = [f"H id <uuid:{id_of(number)}> .\n".encode() for number in (1, 2)]
    prev = f"H prev <uuid:{id_of(1)}> .".encode()
    assert [one.text for one in split(b"".join(heads) + prev)] == [heads[0], heads[1] + prev]
    assert [one.text for one in split(heads[0] + prev + heads[1])] == [heads[0] + prev, heads[1]]
    assert len(split("# é\n".encode() + patch(1, "A <a:é> <a:p> <a:o> .\n") + patch(2))) == 2
    for bad in (b"TX . TC .", patch(1) + b"H note \"x\" .", patch(1).replace(b"TC .", b"") + patch(2)):
        with pytest.raises(RdfDeltaError):
            split(bad)


def test_patches_as_one_text() -> None:
    assert join([]) == b"" and join(numbers(1, 3)) == b"".join(numbers(1, 3))
    assert stand_apart(patch(1), patch(2)) and not stand_apart(patch(1)[:-1], patch(2))
    # They are looked at where that isn't seen by their fronts and ends.
    assert join([patch(1)[:-1], patch(2)]) == patch(1)[:-1] + patch(2)
    for second in (b"# c\n" + patch(2), b"\n" + patch(2)):
        with pytest.raises(RdfDeltaError, match="other patches"):
            join([patch(1), second])


def test_runs_are_as_long_as_a_request(monkeypatch: pytest.MonkeyPatch) -> None:
    size = len(patch(2))
    monkeypatch.setattr("rdfdelta.runs.PATCH_LIMIT", 3 * size)
    assert [len(run) for run in runs_of(numbers(2, 9))] == [3, 3, 2] and list(runs_of([])) == []
    assert list(runs_of([patch(1), b"\n" + patch(2), patch(3)])) == [[patch(1)], [b"\n" + patch(2), patch(3)]]


def test_the_table_of_answers(log: Log) -> None:
    assert log.append_run(numbers(1, 2)) == AppendedRun(1, 2)
    assert log.append_run(numbers(1, 2)) == AppendedRun(1, 2, known=True)
    assert log.append_run(numbers(3, 3)) == AppendedRun(3, 3)
    assert log.append_run(numbers(2, 3)) == AppendedRun(2, 3, known=True)
    assert log.append(patch(2)) == Appended(2, known=True)
    assert [text for _, text in log.patches()] == numbers(1, 3) and log.state() == LogState(id_of(3), 3)
    with pytest.raises(Refused, match="bad_patch"):
        log.append_run([b"TX ."])
    # A part of it is there; and its front is there with other bytes.
    for patches, version in ((numbers(3, 4), 3), ([patch(2) + b"#\n", patch(3)], 2)):
        with pytest.raises(Known) as known:
            log.append_run(patches)
        assert (known.value.version, known.value.same) == (version, False)
    with pytest.raises(Conflict) as conflict:
        log.append_run(numbers(5, 6))
    assert (conflict.value.head, conflict.value.version, conflict.value.prev_version) == (id_of(3), 3, None)
    with pytest.raises(NoSource):
        log.server.log("XYZ").append_run(numbers(1, 2))
    assert log.server.takes_runs and log.state().version == 3


@pytest.mark.parametrize("patches, at", [
    ([], 0),
    ([patch(1), patch(3)], 2),
    ([patch(1), patch(2, behind=0)], 2),
    ([patch(1), patch(2), patch(1, behind=2), patch(5)], 3),
])
def test_patches_that_are_no_run(log: Log, patches: list[bytes], at: int) -> None:
    with pytest.raises(BadRun) as bad:
        log.append_run(patches)
    assert bad.value.at == at and log.state().version == 0


def test_a_run_that_has_no_room() -> None:
    with standing_in(patches_limit=2) as standin:
        log = log_of(standin)
        log.append(patch(1))
        with pytest.raises(Full) as full:
            log.append_run(numbers(2, 3))
        assert (full.value.what, full.value.have, full.value.limit) == ("patches", 1, 2)
        assert log.state().version == 1
        long = [patch(1, f'A <a:s> <a:p> "{"x" * PATCH_LIMIT}" .\n'), patch(2)]
        with pytest.raises(RdfDeltaError, match="longer than a request may be"):
            log.append_run(long)


def test_a_run_whose_answer_was_lost(standin: tuple[str, Logs]) -> None:
    log = log_of(standin)
    standin[1].lost = 2
    assert log.append_run(numbers(1, 3)) == AppendedRun(1, 3, known=True)
    assert len(standin[1].logs["ABC"]) == 3
    standin[1].lost = 2
    with pytest.raises(LinkFailed):
        log.append_run(numbers(4, 5), tries=2)


def test_a_server_that_takes_none(older: tuple[str, Logs]) -> None:
    log = log_of(older)
    with pytest.raises(NoRuns, match="takes no runs"):
        log.append_run(numbers(1, 2))
    assert not log.server.takes_runs and log.state().version == 0
    # From then on it isn't asked any more.
    asked = older[1].asked
    asked.clear()
    assert list(append_all(log, numbers(1, 3))) == [Appended(1), Appended(2), Appended(3)]
    assert asked == ["POST /ABC"] * 3


@pytest.mark.skipif(TAKES_RUNS, reason="the program takes runs")
def test_the_program_takes_none(running: Running) -> None:
    running.client.create("ABC", "http://e/abc")
    log = running.client.log("ABC")
    with pytest.raises(NoRuns):
        log.append_run(numbers(1, 2))
    assert list(append_all(log, numbers(1, 3))) == [Appended(1), Appended(2), Appended(3)]


@needs_runs
def test_the_file_of_a_run(running: Running) -> None:
    running.client.create("ABC", "http://e/abc")
    texts = [(TOP / f"examples/{name}.rdfp").read_bytes() for name in ("first", "second")]
    assert running.client.log("ABC").append_run(texts) == AppendedRun(1, 2)
    running.fill("ABC", 1, begin=3)
    running.stop()
    file = running.folder / "rdj-0001"
    found = Journal.read(file)
    assert found.payloads == (b"".join(texts), patch(3)) and file.stat().st_size == 280 + 9 + len(patch(3))
    assert [text for _, text in found.patches()] == [*texts, patch(3)]
    checked = subprocess.run([PROGRAM, "check", running.folder], capture_output=True, text=True).stdout
    assert f"file 1 patches 3 head {id_of(3)}\n" in checked


def put(standin: tuple[str, Logs], *words: object) -> tuple[str, str]:
    """What `rdfd put` prints of a hundred rows in patches of a thousand bytes."""
    rows = "".join(f'A <http://e/s> <http://e/p> "{number}" .\n' for number in range(100))
    done = rdfd("put", "ABC", "--limit", 1000, *words, address=standin[0], text=rows.encode())
    assert done.status == 0, done.err
    return done.out, done.err


def chain_of(standin: tuple[str, Logs]) -> list[bytes]:
    log = standin[1].logs["ABC"]
    assert [one.link.prev for one in log] == [None, *(one.link.id for one in log[:-1])]
    return [one.text for one in log]


def test_put_sends_a_run(standin: tuple[str, Logs]) -> None:
    log_of(standin).append(patch(1))
    out, err = put(standin)
    assert standin[1].asked.count("POST /ABC/run") == 1 and standin[1].asked.count("POST /ABC") == 1
    assert len(chain_of(standin)) == 1 + len(out.splitlines()) == 5
    assert out.startswith("ABC: version 2: ") and "become 4: all or none of them" in err


def test_put_goes_behind_another_patch(standin: tuple[str, Logs], monkeypatch: pytest.MonkeyPatch) -> None:
    log = log_of(standin)
    log.append(patch(1))
    real = Log.append_run

    def late(self: Log, patches: list[bytes], tries: int = 5) -> AppendedRun:
        monkeypatch.undo()
        log.append(patch(2))
        return real(self, patches, tries)

    monkeypatch.setattr(Log, "append_run", late)
    out, _ = put(standin, "--retry", 1)
    assert len(chain_of(standin)) == 6 and out.startswith("ABC: version 3: ")


def test_put_sends_one_by_one(older: tuple[str, Logs]) -> None:
    log_of(older).append(patch(1))
    out, err = put(older)
    assert older[1].asked.count("POST /ABC/run") == 1 and len(chain_of(older)) == 5
    assert "become 4: who reads meanwhile sees a part" in err and out.count("ABC: version ") == 4


def test_put_sends_runs_that_are_as_long_as_a_request(
    standin: tuple[str, Logs], monkeypatch: pytest.MonkeyPatch
) -> None:
    log_of(standin)
    monkeypatch.setattr("rdfdelta.runs.PATCH_LIMIT", 2000)
    _, err = put(standin)
    assert len(chain_of(standin)) == 4 and "who reads meanwhile sees a part" in err
    assert [one for one in standin[1].asked if "ABC" in one] == ["POST /ABC/run"] * 2


@pytest.mark.parametrize("takes_runs", [True, False])
def test_restore(takes_runs: bool, running: Running, tmp_path: Path) -> None:
    running.fill("ABC", 5)
    copy = tmp_path / "copy"
    rdfd("backup", copy, address=running.address)
    with standing_in(takes_runs) as standin:
        done = rdfd("restore", copy, address=standin[0])
        assert (done.status, done.out) == (0, "ABC: version 5, 5 given back\n")
        assert chain_of(standin) == numbers(1, 5)
        assert standin[1].asked.count("POST /ABC") == (0 if takes_runs else 5)
        # What was given back till a stop is a front of the copy.
        del standin[1].logs["ABC"][2:]
        assert rdfd("restore", copy, address=standin[0]).out == "ABC: version 5, 3 given back\n"
        assert chain_of(standin) == numbers(1, 5)


@pytest.mark.parametrize("takes_runs", [True, False])
def test_patches_are_given_back(takes_runs: bool, running: Running) -> None:
    running.fill("ABC", 5)
    running.stop()
    with standing_in(takes_runs) as standin:
        log = log_of(standin)
        list(append_all(log, numbers(1, 2)))
        done = rdfd("patches", running.folder / "rdj-0001", "--append", "ABC", address=standin[0])
        known = [f"ABC: version {version}, which it had" for version in (1, 2)]
        assert done.out.splitlines() == [*known, *(f"ABC: version {version}" for version in (3, 4, 5))]
        assert chain_of(standin) == numbers(1, 5)
        del standin[1].logs["ABC"][1:]
        log.append(patch(7, behind=1))
        done = rdfd("patches", running.folder / "rdj-0001", 2, "--append", "ABC", address=standin[0])
        assert done.status == 1 and "conflict" in done.err


@needs_runs
def test_a_zone_takes_a_run_patch_by_patch(running: Running, tmp_path: Path) -> None:
    running.client.create("ABC", "http://e/abc")
    running.client.log("ABC").append_run(numbers(1, 3))
    assert rdfd("follow", tmp_path / "zone", "ABC", "--once", address=running.address).out == "ABC: version 3\n"
    assert Journal.read(tmp_path / "zone").payloads == tuple(numbers(1, 3))
