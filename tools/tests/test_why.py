"""rdfd why tells each cause that it knows, and nothing where there is none."""
from __future__ import annotations

import os
import resource
import shutil
import socket
import subprocess
import sys
import threading
from collections.abc import Iterator
from contextlib import contextmanager
from pathlib import Path

import pytest

from calling import rdfd
from conftest import AGED, PROGRAM, Running, Start, eventually, free_port, mark, old_file
from rdfdelta import sockets, why


@pytest.fixture
def files(tmp_path: Path) -> Path:
    folder = tmp_path / "files"
    folder.mkdir()
    subprocess.run([PROGRAM, "init", folder, "2"], check=True)
    return folder


def told(place: object) -> str:
    return "\n".join(f"{finding.text}: {finding.remedy}" for finding in why.why(str(place)) if finding.is_cause)


def test_nothing_is_wrong(files: Path, running: Running) -> None:
    assert told(files) == "" and rdfd("why", files).status == 0
    done = rdfd("why", running.address)
    assert done.status == 0 and "answers" in done.out


def test_folders(files: Path, tmp_path: Path) -> None:
    assert "No such file or directory" in told(tmp_path / "none")
    assert "not a folder" in told(files / "rdj-0000")
    (tmp_path / "empty").mkdir()
    assert "no rdj- files" in told(tmp_path / "empty")
    (files / "rdj-0001").write_bytes(b"RDJ1")
    assert "rdj-0001: byte 0: damaged" in told(files)
    (files / "rdj-0001").write_bytes(old_file(1, []))
    assert f"rdj-0001: old format: rdfdelta upgrade {files}" in told(files)
    (files / "rdj-0001").unlink()
    assert "rdj-0001: not there" in told(files)
    (files / "rdj-0001").mkdir()
    assert "rdj-0001: not a file" in told(files)
    (files / "rdj-0000").unlink()
    assert "rdj-0000: not there" in told(files)
    assert rdfd("why", files).status == 1


def test_upgrades(files: Path, tmp_path: Path) -> None:
    mark(files)
    (files / "rdj-0001").write_bytes(b"written in part")
    remedy = f"rdfdelta upgrade {files}; see A new version in OPERATING.md"
    assert told(files) == f"{files}/rdj-2099: upgrade pending: {remedy}"
    # A gate that is shut, and a marker of nine bytes, say nothing.
    marker = (files / "rdj-2099").read_bytes()
    for content in (marker[:8] + b"\0" + marker[9:], b"", marker[:9]):
        (files / "rdj-2099").write_bytes(content)
        assert "rdj-0001: byte 0: damaged" in told(files) and "2099" not in told(files)
    (files / "rdj-2099").write_bytes(marker[:12])
    assert "rdj-2099: byte 9: damaged" in told(files) and "0001" not in told(files)
    zone = tmp_path / "zone"
    shutil.copytree(AGED / "zone", zone)
    assert f"rdj-1000: old format: rdfdelta upgrade_zone {zone}" in told(zone)
    mark(zone, 3099)
    assert f"rdj-3099: upgrade pending: rdfdelta upgrade_zone {zone}" in told(zone)


def test_who_holds_it(running: Running) -> None:
    assert f"held by pid {running.process.pid} ({PROGRAM} serve" in told(running.folder)


@contextmanager
def as_nobody() -> Iterator[None]:
    """As a user without rights, where the tests run as root."""
    user = os.geteuid()
    if user == 0:
        os.seteuid(65_534)
    try:
        yield
    finally:
        if user == 0:
            os.seteuid(user)


def test_rights(files: Path, tmp_path: Path) -> None:
    for folder in (tmp_path, tmp_path.parent, tmp_path.parent.parent):
        folder.chmod(0o755)
    files.chmod(0o644)
    with as_nobody():
        assert "may not search it: drw-r--r--" in told(files)
    files.chmod(0o711)
    for path in files.iterdir():
        path.chmod(0o666)
    with as_nobody():
        assert told(files) == ""
    (files / "rdj-0002").chmod(0o444)
    with as_nobody():
        assert "rdj-0002: " in told(files) and "may not read and write it: -r--r--r--" in told(files)
    # The program opens it before all others, so one that another user made keeps it away.
    (files / "rdj-2099").touch()
    (files / "rdj-2099").chmod(0o600)
    with as_nobody():
        assert os.geteuid() == os.getuid() or "rdj-2099: nobody may not read and write it: -rw-------" in told(files)
    (files / "rdj-2099").unlink()
    tmp_path.chmod(0o700)
    with as_nobody():
        assert os.geteuid() == os.getuid() or "can't be searched" in told(files)
    tmp_path.chmod(0o755)


@pytest.mark.parametrize("members, said", [
    ({"f_flag": os.ST_RDONLY}, "mounted read-only"),
    ({"f_bavail": 3}, "no room: 12,288 bytes are free"),
    ({"f_favail": 0}, "no more files can be made"),
])
def test_the_place(files: Path, monkeypatch: pytest.MonkeyPatch, members: dict[str, int], said: str) -> None:
    """What the system tells of a filesystem is put in its mouth."""

    class Place:
        f_flag, f_bavail, f_frsize, f_files, f_favail = 0, 1 << 30, 4096, 1 << 20, 1 << 20

    for name, value in members.items():
        setattr(Place, name, value)
    monkeypatch.setattr(os, "statvfs", lambda path: Place)
    assert said in told(files)


def test_descriptors(files: Path) -> None:
    soft, hard = resource.getrlimit(resource.RLIMIT_NOFILE)
    try:
        resource.setrlimit(resource.RLIMIT_NOFILE, (36, hard))
        assert "may open 36 descriptors" in told(files)
    finally:
        resource.setrlimit(resource.RLIMIT_NOFILE, (soft, hard))


def test_addresses(running: Running) -> None:
    assert "have no http://" in told(f"http://{running.address}")
    assert "write it as" in told("https://127.0.0.1:1/")
    assert "neither a folder nor an address" in told("localhost")
    assert "a port from 1 to 65535" in told("127.0.0.1:70000")
    assert "nobody listens there" in told(f"127.0.0.1:{free_port()}")
    assert "no machine has this name" in told("name.invalid:10660")


def test_what_takes_connections_and_does_not_answer(monkeypatch: pytest.MonkeyPatch) -> None:
    monkeypatch.setattr(why, "ANSWER_SECONDS", 0.3)
    with socket.socket() as gate:
        gate.bind(("127.0.0.1", 0))
        gate.listen()
        port = gate.getsockname()[1]
        # As a worker that is held: one client is taken and never answered.
        with socket.create_connection(("127.0.0.1", port)) as client:
            held, _ = gate.accept()
            with held:
                assert "doesn't answer" in told(f"127.0.0.1:{port}")
                assert sockets.served(port) == [("127.0.0.1:%d" % client.getsockname()[1], os.getpid())]
        assert sockets.listener(port) == os.getpid()


def test_workers_that_are_held(serve: Start) -> None:
    running = serve(workers=1)
    running.client.rest()
    host, port = running.address.split(":")
    # A request that has begun and doesn't go on.
    begin = f"link = socket.create_connection(('{host}', {port})); link.send(b'GET ')"
    hold = f"import socket, time; {begin}; time.sleep(60)"
    holder = subprocess.Popen([sys.executable, "-c", hold])
    assert eventually(lambda: any(pid == holder.pid for _, pid in sockets.served(int(port))))
    done = rdfd("why", running.address)
    holder.kill()
    holder.wait()
    assert done.status == 1 and "doesn't answer within 5 seconds" in done.out
    assert f"1 of its connections held by pid {holder.pid}" in done.out


def test_something_else_answers() -> None:
    with socket.socket() as gate:
        gate.bind(("127.0.0.1", 0))
        gate.listen()

        def answer() -> None:
            for _ in range(2):
                link, _ = gate.accept()
                with link:
                    if link.recv(65_536):
                        link.sendall(b"HTTP/1.1 200 OK\r\nContent-Length: 2\r\n\r\nhi")

        thread = threading.Thread(target=answer, daemon=True)
        thread.start()
        assert "no rdfdelta server" in told(f"127.0.0.1:{gate.getsockname()[1]}")
        thread.join(5)
