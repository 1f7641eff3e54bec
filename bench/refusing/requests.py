"""Requests to a server that is refused memory."""
import time
from collections.abc import Callable, Iterator
from contextlib import contextmanager
from dataclasses import dataclass, field
from pathlib import Path

from refusing.orders import Orders
from refusing.served import LONGEST, Served
from refusing.tries import DONE, ENDED, OTHER, STATUS_8, STATUS_503, USUAL

REASONS = {200: "OK", 400: "Bad Request", 404: "Not Found", 405: "Method Not Allowed", 409: "Conflict",
           413: "Payload Too Large", 503: "Service Unavailable", 507: "Insufficient Storage"}
GO_ON = b"HTTP/1.1 100 Continue\r\n\r\n"


def request(method: str, path: str, body: bytes | None = None, *fields: str) -> bytes:
    length = [] if body is None else [f"Content-Length: {len(body)}"]
    lines = [f"{method} {path} HTTP/1.1", "Host: a", *length, *fields, "", ""]
    return "\r\n".join(lines).encode() + (body or b"")


def reply(status: int, body: bytes, *fields: str, type: str = "application/json") -> bytes:
    lines = [f"HTTP/1.1 {status} {REASONS[status]}", *fields, f"Content-Type: {type}", f"Content-Length: {len(body)}"]
    return "\r\n".join([*lines, "", ""]).encode() + body


NO_MEMORY = reply(503, b'{"error":"out_of_memory"}')


@dataclass
class Requests:
    """Requests over one connection, and the reply to each."""

    program: Path
    title: str
    begin: Callable[[Path], None]
    sent: list[bytes]
    usual: list[bytes]
    # The replies where the requests have been answered before, and what else is asked in the end.
    done: list[bytes] = field(default_factory=list)
    looks: list[tuple[bytes, bytes]] = field(default_factory=list)

    @contextmanager
    def begun(self, folder: Path, orders: Orders) -> Iterator["Session"]:
        self.begin(folder)
        with Served(self.program, folder, orders.environment) as served:
            yield Session(self, orders, served)


def end_of(found: bytes, usual: list[bytes]) -> str:
    """What became of requests: each has its usual reply or status 503, and where these end too early nothing stands
    behind them but what has a request go on."""
    ends = set()
    for wanted in usual:
        go_on = GO_ON if wanted.startswith(GO_ON) else b""
        fronts = {wanted: USUAL, go_on + NO_MEMORY: STATUS_503, NO_MEMORY: STATUS_503}
        front = next((front for front in fronts if found.startswith(front)), None)
        if front is None:
            ends.add(ENDED if found in (b"", go_on) else OTHER)
            found = b""
            break
        ends.add(fronts[front])
        found = found[len(front):]
    return OTHER if found else next(end for end in (OTHER, ENDED, STATUS_503, USUAL) if end in ends)


@dataclass
class Session:
    """The requests to one server."""

    requests: Requests
    orders: Orders
    served: Served

    def ask(self, first: int, last: int) -> tuple[str, bytes, int]:
        usual = self.requests.usual
        self.orders.refuse(first, last)
        found = self.served.say(b"".join(self.requests.sent))
        refused = self.orders.allow()
        return end_of(found, usual), found, refused

    def ask_again(self) -> tuple[str, bytes]:
        usual, done = b"".join(self.requests.usual), b"".join(self.requests.done or self.requests.usual)
        found = self.served.say(b"".join(self.requests.sent))
        return DONE if found == done else USUAL if found == usual else OTHER, found

    def left(self, end: str) -> object:
        looks = self.requests.looks
        return [(sent, found) for sent, wanted in looks if (found := self.served.say(sent)) != wanted]


@dataclass
class Start:
    """A server that is refused memory where it begins, and up to its first reply."""

    program: Path
    title: str
    begin: Callable[[Path], None]
    sent: bytes
    wanted: bytes

    @contextmanager
    def begun(self, folder: Path, orders: Orders) -> Iterator["Begun"]:
        self.begin(folder)
        yield Begun(self, folder, orders)


@dataclass
class Begun:
    """A folder over which servers begin."""

    start: Start
    folder: Path
    orders: Orders

    def ask(self, first: int, last: int) -> tuple[str, bytes, int]:
        self.orders.refuse(first, last)
        served = Served(self.start.program, self.folder, self.orders.environment)
        try:
            end, found = self.answer(served)
        finally:
            written = served.end()
        refused = self.orders.allow()
        if (served.process.returncode, written) == (8, b"rdfdelta: out of memory\n"):
            return STATUS_8, written, refused
        return end, found or written, refused

    def answer(self, served: Served) -> tuple[str, bytes]:
        """What it answers at last; empty where it ended."""
        found, until = b"", time.monotonic() + LONGEST
        while served.process.poll() is None and time.monotonic() < until:
            try:
                found = served.say(self.start.sent)
            except ConnectionError:
                time.sleep(0.001)
                continue
            if found == self.start.wanted:
                return USUAL, found
            if found not in (b"", NO_MEMORY):
                return OTHER, found
            # It was refused memory for this answer, and isn't for the next one.
            self.orders.stop()
        return OTHER, found

    def ask_again(self) -> tuple[str, bytes]:
        end, found, _ = self.ask(0, 0)
        return DONE if end == USUAL else end, found

    def left(self, end: str) -> object:
        return []
