"""rdfd logs, put, diff, tail, patches and metrics, as they are called."""
from __future__ import annotations

import os
import subprocess
import sys
import urllib.request
from pathlib import Path
from types import SimpleNamespace

import pytest

from calling import environment, rdfd, words_of
from conftest import Running, Start, free_port, id_of, patch
from rdfdelta.commands import logs, options


def test_logs(running: Running) -> None:
    running.fill("ABC", 2)
    done = rdfd("logs", "--files", running.folder, address=running.address)
    assert (done.status, done.err) == (0, "")
    assert [line.split() for line in done.out.splitlines()] == [
        ["name", "slot", "version", "patches", "bytes", "head"],
        ["ABC", "1", "2", "0.0%", "0.0%", id_of(2)],
    ]


def test_logs_that_are_nearly_full(running: Running) -> None:
    running.fill("ABC", 1)
    # The file's length is what is looked at: a hole takes no room.
    os.truncate(running.folder / "rdj-0001", 240_000_000)
    done = rdfd("logs", "--files", running.folder, address=running.address)
    assert done.status == 1 and "89.4%" in done.out
    assert [logs.style_of(share) for share in (0.79, 0.8, 0.95)] == ["", "yellow", "bold red"]


def test_logs_are_watched_until_ctrl_c(running: Running, monkeypatch: pytest.MonkeyPatch) -> None:
    running.fill("ABC", 1)
    waits: list[float] = []

    def wait(seconds: float) -> None:
        waits.append(seconds)
        if len(waits) == 2:
            raise KeyboardInterrupt
        running.fill("ABC", 1, begin=2)

    monkeypatch.setattr(logs, "time", SimpleNamespace(sleep=wait))
    done = rdfd("logs", "--watch", address=running.address)
    assert done.status == 0 and id_of(2) in done.out and waits == [2.0, 2.0]


def test_put(running: Running) -> None:
    running.fill("ABC", 1)
    rows = b'A <http://e/s> <http://e/p>\n "x" . # c\nPA e <http://e/> .'
    done = rdfd("put", "ABC", address=running.address, text=rows)
    assert done.status == 0 and done.out.startswith("ABC: version 2: 2 rows, id ")
    text = running.client.log("ABC").fetch(2).decode()
    assert text.split("TX .\n")[1] == 'A <http://e/s> <http://e/p>\n "x" .\nPA e <http://e/> .\nTC .\n'
    assert f"H prev <uuid:{id_of(1)}> ." in text
    assert rdfd("put", "ABC", address=running.address).status == 0
    assert running.client.log("ABC").state().version == 2


def test_put_cuts(running: Running) -> None:
    running.fill("ABC", 1)
    rows = "".join(f'A <http://e/s> <http://e/p> "{number}" .\n' for number in range(100))
    done = rdfd("put", "ABC", "--limit", 1000, address=running.address, text=rows.encode())
    count = len(done.out.splitlines())
    assert done.status == 0 and f"100 rows are too long for one patch, and become {count}" in done.err
    patches = list(running.client.log("ABC").patches(1))
    assert len(patches) == count > 3 and all(len(text) <= 1000 for _, text in patches)


def test_put_nquads(running: Running) -> None:
    running.fill("ABC", 1)
    done = rdfd("put", "ABC", "--nquads", address=running.address, text=b"<http://e/b><http://e/p>'x' .")
    assert (done.status, done.out) == (3, "") and "input: line 1 byte" in done.err
    document = b"<http://e/b><http://e/p><http://e/o>.\n<http://e/a><http://e/p>\"\\u0041\"."
    assert rdfd("put", "ABC", "--nquads", address=running.address, text=document).status == 0
    lines = running.client.log("ABC").fetch(2).decode().splitlines()
    assert lines[3:5] == ['A <http://e/a> <http://e/p> "A" .', "A <http://e/b> <http://e/p> <http://e/o> ."]


@pytest.mark.parametrize("text, said", [
    (b"A <http://e/s> .\n", "line 1 byte 15: a part is missing"),
    ("# \u00e9\nTX . TC .".encode(), "line 2 byte 5: a row of TX"),
    (b"A <http://e/s> <http://e/p> <o> .", "line 1 byte 28: an IRI without a scheme"),
])
def test_put_sends_nothing_of_what_is_wrong(running: Running, text: bytes, said: str) -> None:
    running.fill("ABC", 1)
    done = rdfd("put", "ABC", address=running.address, text=text)
    assert done.status == 3 and said in done.err
    assert running.client.log("ABC").state().version == 1


def test_put_behind_a_head_that_was(running: Running) -> None:
    running.fill("ABC", 2)
    row = b'A <http://e/s> <http://e/p> "x" .'
    done = rdfd("put", "ABC", "--behind", id_of(1), address=running.address, text=row)
    assert done.status == 1 and f"another patch is the head, {id_of(2)} at version 2" in done.err
    done = rdfd("put", "ABC", "--behind", "none", address=running.address, text=row)
    assert done.status == 1
    assert rdfd("put", "ABC", "--behind", "2", address=running.address, text=row).status == 2
    assert rdfd("put", "ABC", "--behind", id_of(2), address=running.address, text=row).status == 0
    assert rdfd("put", "ABC", "--behind", id_of(2), "--retry", 1, address=running.address, text=row).status == 2


def test_puts_at_once_are_one_chain(running: Running) -> None:
    running.fill("ABC", 1)
    words = words_of("put", "ABC", "--retry", 50)
    writers = [subprocess.Popen(words, stdin=subprocess.PIPE, env=environment(running.address)) for _ in range(4)]
    for number, writer in enumerate(writers):
        writer.communicate(f'A <http://e/s> <http://e/p> "w{number}" .'.encode(), timeout=30)
    assert [writer.returncode for writer in writers] == [0] * 4
    assert len(list(running.client.log("ABC").patches())) == 5


def test_diff_makes_what_put_takes(running: Running, tmp_path: Path) -> None:
    running.fill("ABC", 3)
    new = tmp_path / "new.nq"
    new.write_text('<http://e/s> <http://e/p> "2" .\n<http://e/s> <http://e/p> "new" .\n')
    rows = rdfd("diff", "ABC@head", new, address=running.address)
    assert rows.out.splitlines() == [f'{code} <http://e/s> <http://e/p> "{value}" .'
                                     for code, value in (("D", "1"), ("D", "3"), ("A", "new"))]
    assert rdfd("put", "ABC", address=running.address, text=rows.out.encode()).status == 0
    assert rdfd("diff", "ABC@head", new, address=running.address).out == ""
    assert rdfd("diff", "ABC@1", "ABC@2", address=running.address).out == 'A <http://e/s> <http://e/p> "2" .\n'
    assert rdfd("diff", new, "-", address=running.address, text=new.read_bytes()).out == ""
    assert rdfd("diff", new, "none.nq", address=running.address).err.startswith("rdfd: none.nq: No such file")


def test_control_characters_have_no_effect_on_a_terminal() -> None:
    assert options.visible("a\x1b[31m\t\x7f\x9b\n\u00e9") == "a\u241b[31m\t\u2421\ufffd\n\u00e9"


def test_tail(running: Running) -> None:
    running.fill("ABC", 4)
    done = rdfd("tail", "ABC", "-n", 2, address=running.address)
    assert done.out.encode() == patch(3) + patch(4)
    done = rdfd("tail", "XYZ", address=running.address)
    assert done.status == 1 and done.err == 'rdfd: refused: 404 {"error":"no_source"}\n'


def test_tail_follows_through_a_restart(serve: Start) -> None:
    running = serve(workers=1)
    running.fill("ABC", 2)
    running.client.rest()
    words = words_of("tail", "ABC", "-n", "1", "--follow")
    tailing = subprocess.Popen(words, stdout=subprocess.PIPE, stderr=subprocess.PIPE, env=environment(running.address))
    assert tailing.stdout is not None
    assert tailing.stdout.read(len(patch(2))) == patch(2)
    # One worker: it is free for another client meanwhile.
    running.fill("ABC", 2, begin=3)
    running.client.rest()
    assert tailing.stdout.read(2 * len(patch(3))) == patch(3) + patch(4)
    running.stop()
    assert tailing.stderr is not None and b"connection refused; trying again" in tailing.stderr.readline()
    tailing.terminate()
    tailing.communicate(timeout=20)


def test_patches(running: Running) -> None:
    running.fill("ABC", 3)
    file = running.folder / "rdj-0001"
    held = rdfd("patches", file)
    assert held.status == 5 and f"held by pid {running.process.pid}" in held.err
    running.stop()
    assert rdfd("patches", file, 2).out.encode() == patch(2) + patch(3)
    file.write_bytes(file.read_bytes()[:-10])
    done = rdfd("patches", file)
    assert (done.status, done.out) == (9, "") and "damaged" in done.err
    assert rdfd("patches", running.folder / "rdj-0000").err.endswith("the registry has no patches\n")


def test_patches_are_given_back(serve: Start) -> None:
    full, empty = serve("full"), serve("empty")
    full.fill("ABC", 3)
    empty.fill("ABC", 1)
    full.stop()
    done = rdfd("patches", full.folder / "rdj-0001", "--append", "ABC", address=empty.address)
    assert done.out.splitlines() == ["ABC: version 1, which it had", "ABC: version 2", "ABC: version 3"]
    assert empty.client.log("ABC").fetch(3) == patch(3)


def test_metrics(running: Running) -> None:
    pytest.importorskip("prometheus_client")
    running.fill("ABC", 2)
    done = rdfd("metrics", "--once", "--files", running.folder, address=running.address)
    found = dict(line.rsplit(" ", 1) for line in done.out.splitlines() if not line.startswith("#"))
    source = running.client.source("ABC")
    assert found["rdfdelta_up"] == "1.0"
    assert found[f'rdfdelta_log_version{{id="{source.id}",name="ABC",slot="1"}}'] == "2.0"
    assert float(found['rdfdelta_file_bytes{slot="1"}']) == (running.folder / "rdj-0001").stat().st_size
    assert float(found["rdfdelta_resident_bytes"]) > 100_000 and float(found["rdfdelta_disk_free_bytes"]) > 0
    running.stop()
    assert "rdfdelta_up 0.0" in rdfd("metrics", "--once", address=running.address).out


def test_metrics_are_served(running: Running) -> None:
    pytest.importorskip("prometheus_client")
    place = f"127.0.0.1:{free_port()}"
    words = words_of("metrics", "--listen", place)
    exporter = subprocess.Popen(words, stdout=subprocess.PIPE, env=environment(running.address))
    assert exporter.stdout is not None
    assert exporter.stdout.readline().decode() == f"metrics of {running.address} at http://{place}/metrics\n"
    with urllib.request.urlopen(f"http://{place}/metrics", timeout=20) as reply:
        text = reply.read().decode()
    exporter.terminate()
    exporter.communicate(timeout=20)
    assert "rdfdelta_up 1.0" in text and "rdfdelta_resident_bytes" in text


def test_names_of_logs_are_completed(running: Running) -> None:
    for name in ("books", "boats", "cars"):
        running.client.create(name, f"http://e/{name}")

    def completed(words: str, address: str) -> list[str]:
        asked = {"_RDFD_COMPLETE": "bash_complete", "COMP_WORDS": words, "COMP_CWORD": str(len(words.split()) - 1)}
        done = subprocess.run(
            [sys.executable, "-c", 'from rdfdelta.commands import main; main(prog_name="rdfd")'],
            env=environment(address) | asked, capture_output=True, text=True, timeout=60, check=True,
        )
        return [line.removeprefix("plain,") for line in done.stdout.split()]

    nobody = f"127.0.0.1:{free_port()}"
    assert completed("rdfd tail bo", running.address) == ["boats", "books"]
    assert completed(f"rdfd put -s {running.address} ca", nobody) == ["cars"]
    assert completed("rdfd follow zone bo", running.address) == ["boats", "books"]
    assert completed("rdfd patches file --append bo", running.address) == ["boats", "books"]
    assert completed(f"rdfd patches file -s {running.address} --append ca", nobody) == ["cars"]
    assert completed("rdfd tail bo", nobody) == []


def test_no_server() -> None:
    address = f"127.0.0.1:{free_port()}"
    done = rdfd("logs", address=address)
    assert (done.status, done.err) == (6, f"rdfd: link failed: {address}: connection refused\n")
    assert rdfd("logs", address="localhost").status == 2
