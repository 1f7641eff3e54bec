"""The real server on a free port of loopback, over a folder of the test's own."""
from __future__ import annotations

import socket
import subprocess
import time
from collections.abc import Callable, Iterator
from dataclasses import dataclass
from pathlib import Path

import pytest

from rdfdelta import Server
from rdfdelta.journal import file_of, pieces_of
from rdfdelta.program import Program

TOP = Path(__file__).resolve().parents[2]
# Files that version 0.2.0 wrote.
AGED = TOP / "contrib/old-format"
PROGRAM = subprocess.run([TOP / "bin/program"], capture_output=True, text=True, check=True).stdout.strip()
HELP = subprocess.run([PROGRAM, "--help"], capture_output=True, text=True, check=True).stdout
# Whether it is one that takes runs of patches: those up to version 0.2.0 take none.
TAKES_RUNS = "\n  append_run " in HELP
# Whether it is one that makes checkpoints of zones.
MAKES_CHECKPOINTS = "\n  checkpoint " in HELP
SOURCE_ID = "00000000-0000-4000-8000-000000000009"


def free_port() -> int:
    with socket.socket() as probe:
        probe.bind(("127.0.0.1", 0))
        port: int = probe.getsockname()[1]
        return port


def patch(number: int, rows: str = "", behind: int | None = None) -> bytes:
    """The patch of a number, behind that of the number before."""
    prev = number - 1 if behind is None else behind
    head = f"H prev <uuid:{id_of(prev)}> .\n" if prev else ""
    rows = rows or f'A <http://e/s> <http://e/p> "{number}" .\n'
    return f"H id <uuid:{id_of(number)}> .\n{head}TX .\n{rows}TC .\n".encode()


def id_of(number: int) -> str:
    return f"00000000-0000-4000-8000-{number:012d}"


def old_file(number: int, payloads: list[bytes]) -> bytes:
    """The file of these payloads as versions up to 0.2.0 write it."""
    parts = (b"\1" + len(payload).to_bytes(4, "big") + payload for payload in payloads)
    return b"RDJ1" + number.to_bytes(4, "big") + b"".join(parts) + b"\0"


def mark(folder: Path, number: int = 2099) -> None:
    """Leaves in a folder the marker of an upgrade that was stopped."""
    file_of(folder, number).write_bytes(b"".join(pieces_of(number, [b"U"])))


@dataclass
class Running:
    """A server that runs: its folder, its address, and a client of it."""

    folder: Path
    address: str
    client: Server
    process: subprocess.Popen[bytes]

    def stop(self) -> None:
        self.client.rest()
        self.process.kill()
        self.process.wait()

    def fill(self, name: str, count: int, begin: int = 1) -> None:
        """Appends the patches of these numbers to a log, which is made where it isn't there."""
        if all(source.name != name for source in self.client.sources()):
            self.client.create(name, f"http://e/{name}")
        for number in range(begin, begin + count):
            self.client.log(name).append(patch(number))


def start(folder: Path, slots: int = 4, workers: int = 4) -> Running:
    if not folder.exists():
        folder.mkdir(parents=True)
        subprocess.run([PROGRAM, "init", folder, str(slots)], check=True)
    address = f"127.0.0.1:{free_port()}"
    process = subprocess.Popen([PROGRAM, "serve", folder, address, str(workers)])
    client = Server(address)
    for _ in range(500):
        try:
            client.ping()
            break
        except Exception:
            time.sleep(0.01)
    return Running(folder, address, client, process)


Start = Callable[..., Running]


@pytest.fixture
def serve(tmp_path: Path) -> Iterator[Start]:
    """Starts servers, each over a folder of a name; all end with the test."""
    started: list[Running] = []

    def begin(name: str = "data", slots: int = 4, workers: int = 4) -> Running:
        started.append(start(tmp_path / name, slots, workers))
        return started[-1]

    yield begin
    for running in started:
        running.stop()


@pytest.fixture
def running(serve: Start) -> Running:
    return serve()


@pytest.fixture
def program() -> Program:
    return Program(PROGRAM)


def eventually(is_so: Callable[[], bool], seconds: float = 40) -> bool:
    """Whether something comes to be so in time."""
    end = time.monotonic() + seconds
    while not is_so():
        if time.monotonic() > end:
            return False
        time.sleep(0.05)
    return True
