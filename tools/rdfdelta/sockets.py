"""Who is connected with a port of this machine, by the tables of the system."""
from __future__ import annotations

import ipaddress
import os
import re
from dataclasses import dataclass
from pathlib import Path

ESTABLISHED, LISTENING = "01", "0A"


@dataclass(frozen=True, slots=True)
class Socket:
    """A row of the table: its own end, the other one, its state, and its number, 0 while no process took it."""

    local: tuple[str, int]
    remote: tuple[str, int]
    state: str
    inode: int


def _end(text: str) -> tuple[str, int]:
    """An address and a port, from words of four bytes that are written in the machine's order."""
    address, port = text.split(":")
    words = [bytes.fromhex(address[at:at + 8])[::-1] for at in range(0, len(address), 8)]
    found = ipaddress.ip_address(b"".join(words))
    mapped = found.ipv4_mapped if isinstance(found, ipaddress.IPv6Address) else None
    return str(mapped or found), int(port, 16)


def sockets() -> list[Socket]:
    found = []
    for table in ("tcp", "tcp6"):
        try:
            lines = Path(f"/proc/net/{table}").read_text().splitlines()[1:]
        except OSError:
            continue
        for row in (line.split() for line in lines):
            found.append(Socket(_end(row[1]), _end(row[2]), row[3], int(row[9])))
    return found


def owners(inodes: set[int]) -> dict[int, int]:
    """The processes that have these sockets, as far as they can be seen from here."""
    found: dict[int, int] = {}
    for folder in Path("/proc").glob("[0-9]*/fd"):
        try:
            names = [os.readlink(entry.path) for entry in os.scandir(folder)]
        except OSError:
            continue
        for name in names:
            number = re.fullmatch(r"socket:\[([0-9]+)\]", name)
            if number and int(number[1]) in inodes:
                found[int(number[1])] = int(folder.parent.name)
    return found


def listener(port: int) -> int | None:
    """The process that listens at a port of this machine."""
    inodes = {one.inode for one in sockets() if one.state == LISTENING and one.local[1] == port}
    return next(iter(owners(inodes).values()), None)


def served(port: int) -> list[tuple[str, int | None]]:
    """The clients whose connections a worker at a port has, each with its process where that is of this machine."""
    table = sockets()
    taken = [one for one in table if one.local[1] == port and one.state == ESTABLISHED and one.inode]
    others = {(one.local, one.remote): one.inode for one in table}
    inodes = {one: others.get((one.remote, one.local), 0) for one in taken}
    pids = owners(set(inodes.values()) - {0})
    return [(f"{one.remote[0]}:{one.remote[1]}", pids.get(inodes[one])) for one in taken]
