"""Servers and clients of which a call on a connection fails."""
import socket
from dataclasses import dataclass, field
from pathlib import Path

from journals import framed
from refusing import folders
from refusing.folders import FIVE
from refusing.orders import END
from refusing.served import LONGEST, Served
from stopping.disks import Image, image_of
from stopping.judging import Differs, Found, State, Told, holds, laid_out, require_state, told
from stopping.recorder import Recorder
from stopping.requests import Effect, mixed, states, ten_appends
from stopping.servers import ACCEPTED, DONE, EMPTY, status_of

LINK_FAILED: Told = (6, "", "rdfdelta: link failed\n")


def say_in_turns(served: Served, effects: list[Effect]) -> bytes:
    """Sends requests over one connection, each behind the reply to the one before; what comes."""
    came = b""
    with socket.create_connection(("127.0.0.1", served.port), LONGEST) as link:
        try:
            for effect in effects:
                link.sendall(effect.sent)
                piece = link.recv(65_536)
                came += piece
                if not piece:
                    break
        except OSError as fault:
            if isinstance(fault, TimeoutError):
                raise
    return came


def say_at_once(served: Served, effects: list[Effect]) -> bytes:
    return served.say(b"".join(effect.sent for effect in effects))


@dataclass
class Link:
    """Requests over one connection, at once or in turns."""

    program: Path
    title: str
    effects: list[Effect]
    is_in_turns: bool

    def fail(self, recorder: Recorder, within: Path, step: int) -> Found:
        """Has each read and write fail by itself, and then each with all behind it, up to the one that isn't made. How
        many there are, and how many runs."""
        usual, number, failed = self.said(recorder, within, b"", END, END)[1], 1, 0
        if usual.count(ACCEPTED) != len(self.effects):
            raise Differs(f"{self.title}: {usual!r}")
        while all([self.said(recorder, within, usual, number, last)[0] for last in (number, END)]):
            number, failed = number + step, failed + 1
        return failed, 2 * failed

    def said(self, recorder: Recorder, within: Path, usual: bytes, first: int, last: int) -> tuple[int, bytes]:
        """How many calls failed of those of these numbers, and what came. It is a front of what comes usually; then the
        requests that weren't answered are sent again, and all stand."""
        image = {number: framed(number, payloads) for number, payloads in EMPTY.items()}
        with laid_out(image, within) as folder, Served(self.program, folder, recorder.environment(folder)) as served:
            recorder.fail_links(first, last)
            found = (say_in_turns if self.is_in_turns else say_at_once)(served, self.effects)
            failed = recorder.failed()
            recorder.fail_links(0, 0)
            if usual and not usual.startswith(found):
                raise Differs(f"{self.title}: call {first} failed, and what came is {found!r}")
            left = self.effects[found.count(ACCEPTED):]
            again = [status_of(served, effect) for effect in left]
            wanted = states(self.effects, EMPTY)[-1:]
            served.end()
            require_state(self.program, folder, wanted, f"{self.title}: call {first} failed")
        if set(again[1:]) - {ACCEPTED} or set(again[:1]) - {ACCEPTED, *DONE}:
            raise Differs(f"{self.title}: call {first} failed, {found!r} came, and then {again}")
        return failed, found


@dataclass
class Client:
    """A command of a client beside a server of its own, over a folder of its own."""

    program: Path
    words: str
    says: Told
    # What it says once it has been done, and what stands then in the server's files and in its own.
    done: Told
    peer: State
    stands: State
    before: Image = field(default_factory=dict)
    given: bytes = b""

    @property
    def title(self) -> str:
        return f"a client's {self.words.split()[0]}"

    def fail(self, recorder: Recorder, within: Path, step: int) -> Found:
        """Has each connect, read and write fail by itself, and then each with all behind it."""
        number, failed = 1, 0
        while all([self.failed_at(recorder, within, number, last) for last in (number, END)]):
            number, failed = number + step, failed + 1
        return failed, 2 * failed

    def failed_at(self, recorder: Recorder, within: Path, first: int, last: int) -> int:
        """How many calls of these numbers failed; where one did, so did the command. Then it is run again."""
        files = {number: framed(number, payloads) for number, payloads in self.peer.items()}
        with laid_out(self.before, within) as folder, laid_out(files, within) as peer:
            with Served(self.program, peer) as served:
                words = [{"DIR": str(folder), "ADDR": served.address}.get(word, word) for word in self.words.split()]
                environment = recorder.environment(folder)
                recorder.fail_links(first, last)
                found = told(self.program, *words, given=self.given, environment=environment)
                failed = recorder.failed()
                again = told(self.program, *words, given=self.given)
            image = {**image_of(peer), **image_of(folder)}
        wanted = (LINK_FAILED, (self.says, self.done)) if failed else (self.says, (self.done,))
        if found != wanted[0] or again not in wanted[1] or not holds(image, self.stands):
            raise Differs(f"{self.title}: call {first} failed: {found}, then {again}, then {image}")
        return failed


def clients(program: Path) -> list[Client]:
    two = {**EMPTY, 0: folders.EVENTS, 1: FIVE[:2]}
    five = {**two, 1: [*FIVE[:2], b"".join(FIVE[2:])]}
    zone = {1000: framed(1000, FIVE[:2])}
    known = 1, "", 'rdfdelta: refused: 409 {"error":"known","same":true,"version":3}\n'
    three, run = (0, '{"version":3}\n', ""), (0, '{"first":3,"version":5}\n', "")
    caught_up, fetched = (0, "caught up at version 5\n", ""), (0, FIVE[1].decode(), "")
    return [
        Client(program, "append ADDR ABC", three, known, two, {1: FIVE[:3]}, given=FIVE[2]),
        Client(program, "append_run ADDR ABC", run, known, two, five, given=b"".join(FIVE[2:])),
        Client(program, "fetch ADDR ABC 2", fetched, fetched, two, two),
        Client(program, "sync DIR ADDR ABC", caught_up, caught_up, five, {**five, 1000: FIVE}, zone),
    ]


def links(program: Path) -> list[Link | Client]:
    servers = [
        Link(program, f"{title}, {way}", effects, way == "in turns")
        for title, effects in (("ten appends", ten_appends()), ("runs and patches", mixed()))
        for way in ("at once", "in turns")
    ]
    return [*servers, *clients(program)]
