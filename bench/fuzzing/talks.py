"""Connections side by side: requests sent in pieces of any size, and replies read as they come."""
import random
import selectors
import socket
import time
from collections import deque
from collections.abc import Callable

from fuzzing.lanes import Difference, Judge, Lane

# A server with no free worker ends a connection that is silent for 50 milliseconds between two requests.
SILENCE = 0.04
LONGEST_WAIT = 20
MOST_PIECES = 40


def pieces_of(data: bytes, draw: random.Random) -> list[tuple[bytes, float]]:
    """The bytes in pieces, each with the time to wait before it."""
    way = draw.random()
    if way < 0.4:
        places = []
    elif way < 0.5 and len(data) < 200:
        places = list(range(1, len(data)))
    else:
        places = sorted(draw.randrange(len(data) + 1) for _ in range(draw.randrange(1, MOST_PIECES)))
    cuts = [0, *places, len(data)]
    parts = [data[here:there] for here, there in zip(cuts, cuts[1:]) if here < there]
    return [(part, draw.choice((0, 0, 0, 0.001, 0.004))) for part in parts]


class Talk:
    """One connection. Groups of bytes are sent, each once the replies to the one before are there."""

    def __init__(self, port: int, lane: Lane, groups: list[bytes], draw: random.Random):
        self.judge, self.draw = Judge(lane), draw
        self.groups, self.stream, self.pieces = deque(groups), b"", deque()
        # Whether the end of the requests is told at once, or only once all replies are there.
        self.is_hasty = draw.random() < 0.7
        self.is_shut = self.has_told_end = self.is_done = False
        self.last = self.due = self.heard = time.monotonic()
        # Each sending with the moment at which it was begun and how many bytes are sent behind it; and at how many bytes
        # there was a silence.
        self.sendings: list[tuple[float, int]] = [(self.heard, 0)]
        self.silences, self.end = set[int](), "in order"
        self.socket = socket.create_connection(("127.0.0.1", port), timeout=LONGEST_WAIT)
        self.socket.setblocking(False)
        self.socket.setsockopt(socket.IPPROTO_TCP, socket.TCP_NODELAY, 1)

    def spoke(self, begun: float, sent: int) -> None:
        """Notes that a sending was begun and is done, and that there was a silence before it, which may have lasted from
        before the sending before it was done."""
        self.last = time.monotonic()
        if self.last - self.sendings[-1][0] >= SILENCE:
            self.silences.add(self.sent())
        self.sendings.append((begun, self.sent() + sent))

    def sent(self) -> int:
        """How many bytes are sent."""
        return self.sendings[-1][1]

    def wants_to_write(self, now: float) -> bool:
        return not self.is_shut and self.due <= now and (bool(self.pieces) or self.is_hasty or not self.judge.expected)

    def write(self) -> None:
        """Sends a piece, takes the next group, or tells the end."""
        if not self.pieces and self.groups and not self.judge.requests.is_over:
            group = self.groups.popleft()
            self.stream += group
            self.judge.sends(group)
            self.pieces.extend(pieces_of(group, self.draw))
        begun = time.monotonic()
        try:
            if self.pieces:
                piece, _ = self.pieces[0]
                sent = self.socket.send(piece)
                self.spoke(begun, sent)
                self.pieces[0] = (piece[sent:], 0)
                if sent == len(piece):
                    self.pieces.popleft()
                    self.due = time.monotonic() + (self.pieces[0][1] if self.pieces else 0)
            elif not self.groups or self.judge.requests.is_over:
                self.is_shut = True
                self.has_told_end = not self.judge.requests.is_over or self.is_hasty
                if self.has_told_end:
                    self.socket.shutdown(socket.SHUT_WR)
        except BlockingIOError:
            self.due = time.monotonic() + 0.001
        except OSError:
            # The server has closed: what it sent before can still be read.
            self.is_shut = True

    def read(self) -> None:
        """Reads what there is. Raises what differs."""
        try:
            data = self.socket.recv(1 << 20)
        except BlockingIOError:
            return
        except ConnectionResetError:
            data, self.end = b"", "by a reset"
        self.last = time.monotonic()
        if data:
            self.heard = self.last
            self.judge.receives(data)
            return
        self.is_done = True
        self.spoke(self.last, 0)
        wrong = self.judge.ends()
        is_early = not self.has_told_end and not self.judge.is_over()
        if (wrong or is_early) and not self.may_be_silence():
            how = f"{self.end}, {self.sent()} of {len(self.stream)} bytes sent, answered up to {self.judge.answered_to}"
            raise Difference(f"{wrong or 'the connection ends before its end was told'} ({how})")

    def may_be_silence(self) -> bool:
        """Whether a silence of this client may be why the connection has ended between two requests. Where the front of a
        request is sent before the reply to the one before has come, a silence behind that front may be one between the two
        for the server, which may have read it with the end of the one before."""
        here = self.judge.answered_to
        ahead = any(begun <= self.heard and sent > here for begun, sent in self.sendings)
        return not self.judge.incoming and any(at == here or ahead and at > here for at in self.silences)

    def close(self) -> None:
        self.socket.close()


Begin = Callable[[int], Talk | None]


class Talks:
    """So many connections side by side. Where one is done, the next one is begun in its place."""

    def __init__(self, count: int, begin: Begin, found: Callable[[Talk, str], None]):
        self.count, self.begin, self.found = count, begin, found
        self.selector = selectors.DefaultSelector()
        self.talks: dict[int, Talk] = {}
        self.connections = self.silences = 0

    def run(self, until: float, drains: bool) -> None:
        """Talks up to a moment, and to the end of what is begun then if it drains."""
        while time.monotonic() < until or drains and self.talks:
            if time.monotonic() < until:
                self.refill()
            self.turn()

    def refill(self) -> None:
        for place in range(self.count):
            if place not in self.talks:
                talk = self.begin(place)
                if talk is not None:
                    self.add(place, talk)

    def add(self, place: int, talk: Talk) -> None:
        self.connections += 1
        self.talks[place] = talk
        self.selector.register(talk.socket, selectors.EVENT_READ, place)

    def turn(self) -> None:
        """Lets each connection read what there is and send what is due."""
        now = time.monotonic()
        is_due = any(talk.wants_to_write(now) for talk in self.talks.values())
        for key, _ in self.selector.select(0 if is_due else 0.001):
            self.guarded(key.data, Talk.read)
        for place, talk in list(self.talks.items()):
            if talk.wants_to_write(now):
                self.guarded(place, Talk.write)
            if not talk.is_done and now - talk.last > LONGEST_WAIT:
                self.ended(place, "nothing comes any more")

    def guarded(self, place: int, step: Callable[[Talk], None]) -> None:
        talk = self.talks[place]
        if talk.is_done:
            return
        try:
            step(talk)
        except (Difference, ValueError, KeyError, TypeError) as fault:
            self.ended(place, str(fault) if isinstance(fault, Difference) else f"no reply can be read: {fault!r}")
            return
        if talk.is_done:
            is_early = bool(talk.groups) and not talk.judge.requests.is_over
            self.silences += is_early or bool(talk.judge.expected)
            self.ended(place, "")

    def ended(self, place: int, difference: str) -> None:
        talk = self.talks.pop(place)
        talk.is_done = True
        self.selector.unregister(talk.socket)
        talk.close()
        if difference:
            self.found(talk, difference)
            # To find fewer bytes takes a while, in which the others were silent.
            for other in self.talks.values():
                other.spoke(time.monotonic(), 0)

    def close(self) -> None:
        for place in list(self.talks):
            self.ended(place, "")
        self.selector.close()
