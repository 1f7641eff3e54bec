"""One stream of requests sent again to a server of its own, for making it shorter while it still differs."""
import socket
import tempfile
from pathlib import Path

from fuzzing.lanes import Difference, Judge, Lane
from journals import framed
from reading.files import file_name, hall_of
from serving import Server


class Again:
    """A server that begins with the same files each time."""

    def __init__(self, program: Path, events: list[bytes], slots: int, payloads: dict[int, list[bytes]]):
        self.program, self.events, self.slots, self.payloads = program, events, slots, payloads

    def difference(self, stream: bytes) -> str:
        """What is otherwise than the documents say; empty where nothing is."""
        with tempfile.TemporaryDirectory() as name:
            folder = Path(name)
            write(folder, self.events, self.slots, self.payloads)
            judge = Judge(Lane("again", hall_of(folder), is_alone=True))
            server = Server(self.program, folder)
            try:
                server.start()
                return told(server.port, judge, stream)
            finally:
                server.kill()


def write(folder: Path, events: list[bytes], slots: int, payloads: dict[int, list[bytes]]) -> None:
    """The files of a registry and its logs."""
    (folder / file_name(0)).write_bytes(framed(0, events))
    for slot in range(1, slots + 1):
        (folder / file_name(slot)).write_bytes(framed(slot, payloads.get(slot, [])))


def told(port: int, judge: Judge, stream: bytes) -> str:
    """What differs where a stream is sent at once and its end is told."""
    judge.sends(stream)
    try:
        with socket.create_connection(("127.0.0.1", port), timeout=10) as link:
            link.sendall(stream)
            link.shutdown(socket.SHUT_WR)
            while data := link.recv(1 << 20):
                judge.receives(data)
    except Difference as fault:
        return str(fault)
    except (ValueError, OSError) as fault:
        return judge.ends() or (repr(fault) if not isinstance(fault, ConnectionError) else "")
    return judge.ends()
