"""A server over a folder."""
import http.client
import socket
import subprocess
import time
from pathlib import Path

from serving import free_port

PING = b"GET /$/ping HTTP/1.1\r\nHost: a\r\n\r\n"
LONGEST = 20


class NotServed(Exception):
    """A server that ended, or doesn't answer."""


class Served:
    """The program as a server until it is let go. With one worker it would end connections that are silent."""

    def __init__(
        self, program: Path, folder: Path, environment: dict[str, str] | None = None, workers: int = 2
    ) -> None:
        self.port = free_port()
        self.address = f"127.0.0.1:{self.port}"
        words = [program, "serve", folder, self.address, str(workers)]
        self.process = subprocess.Popen(words, env=environment, stderr=subprocess.PIPE)
        self.written = b""

    def __enter__(self) -> "Served":
        self.await_ping()
        return self

    def __exit__(self, *_: object) -> None:
        self.end()

    def end(self) -> bytes:
        """Ends it, where it hasn't ended; what it has written."""
        self.process.kill()
        if self.process.stderr and not self.process.stderr.closed:
            self.written = self.process.communicate()[1]
        return self.written

    def connect(self, seconds: float = LONGEST) -> http.client.HTTPConnection:
        connection = http.client.HTTPConnection("127.0.0.1", self.port, timeout=seconds)
        connection.connect()
        return connection

    def await_ping(self) -> None:
        """Waits until it answers a ping and has let that connection go."""
        end = time.monotonic() + LONGEST
        while time.monotonic() < end and self.process.poll() is None:
            try:
                if self.say(PING).endswith(b'{"ping":"ok"}'):
                    return
            except ConnectionError:
                time.sleep(0.001)
        raise NotServed(f"status {self.process.poll()}: {self.end()!r}")

    def say(self, sent: bytes) -> bytes:
        """Sends bytes over a connection of their own; what comes until it ends."""
        with socket.create_connection(("127.0.0.1", self.port), LONGEST) as link:
            came = b""
            try:
                link.sendall(sent)
                link.shutdown(socket.SHUT_WR)
                while piece := link.recv(65_536):
                    came += piece
            except OSError as fault:
                # It was let go, maybe with bytes that nobody read.
                if isinstance(fault, TimeoutError):
                    raise
            return came
