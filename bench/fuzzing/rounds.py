"""Servers over folders of their own, which are asked, stopped and opened again."""
import random
import signal
import subprocess
import tempfile
import time
import uuid
from collections import Counter
from collections.abc import Iterator
from dataclasses import dataclass, field
from pathlib import Path

from fuzzing import edges, mutations
from fuzzing.again import Again, write
from fuzzing.grammar import RequestTexts, raw
from fuzzing.lanes import SHARED_WORDS, WORDS, Difference, Lane, Shared
from fuzzing.talks import LONGEST_WAIT, Talk, Talks
from journals import framed
from measure import knows
from reading.checkpoints import checkpoint
from reading.files import Broken, bytes_of, checked, hall_of
from reading.hall import Hall, Source
from reading.wire import LAST_REQUEST, Call, Request, call_of
from reading.zones import SECOND, ZONE, dataset_of, zone_of
from serving import Server

SLOTS = 16
LANES_WITH_SOURCE = SLOTS - len(SHARED_WORDS)


@dataclass
class Seeds:
    """What is drawn from: a number, and the texts of the cases."""

    number: int
    streams: list[bytes]
    others: list[bytes]

    def draw(self, *names: object) -> random.Random:
        return random.Random("/".join(str(name) for name in (self.number, *names)))


@dataclass
class Counts:
    """What was tried, and what differs."""

    replies: Counter[str] = field(default_factory=Counter)
    connections: int = 0
    silences: int = 0
    stops: int = 0
    files: int = 0
    differences: int = 0

    def differs(self, text: str) -> None:
        self.differences += 1
        print(f"DIFFERENCE {self.differences}: {text}", flush=True)


def sources_of(draw: random.Random) -> list[Source]:
    """A source for each connection but two, and those that all share."""
    names = [*WORDS[:LANES_WITH_SOURCE], *SHARED_WORDS]
    ids = [str(uuid.UUID(int=draw.getrandbits(128))) for _ in names]
    return [Source(slot, id, name, f"http://e/{name}") for slot, (id, name) in enumerate(zip(ids, names), 1)]


def lane_of(number: int, sources: list[Source], shared: list[Shared]) -> Lane:
    """A connection that knows its own source and the shared ones. No slot is left, so none makes another source."""
    hall = Hall(SLOTS)
    hall.made = SLOTS
    for source in sources:
        hall.note(f"C {source.slot} {source.id} {source.name} {source.uri}".encode())
    mine = [source for source in sources if source.name == WORDS[number]]
    known = [*mine, *(source for source in sources if source.name in SHARED_WORDS)]
    hall.sources = {source.name: Source(**vars(source)) for source in known}
    return Lane(WORDS[number], hall, shared, [source.slot for source in mine])


class Round:
    """A server over one folder, and what is known of it."""

    def __init__(self, program: Path, folder: Path, seeds: Seeds, name: str, counts: Counts):
        self.program, self.folder, self.seeds, self.name, self.counts = program, folder, seeds, name, counts
        self.server = Server(program, folder)
        self.draw = seeds.draw(name)
        self.zone: dict[int, bytes] = {}

    def close(self) -> None:
        """Ends the server if it still runs."""
        if self.server.process and self.server.process.poll() is None:
            self.server.kill()

    def edges(self) -> None:
        """Each request and text that is written by hand, once, and one request more than a connection takes."""
        hall = Hall(1)
        hall.create("ABC", "http://e/abc", edges.ID)
        hall.append("ABC", f"H id <uuid:{edges.ID}> .".encode())
        write(self.folder, hall.events, 1, {1: hall.logs[1].payloads})
        self.sources, self.shared = [], []
        self.lanes = [Lane("ABC", hall, is_alone=True, replies=self.counts.replies)]
        self.server.start()
        self.talks = Talks(1, self.begin, self.found)
        for stream in (edges.PING * (LAST_REQUEST + 1), *edges.streams()):
            self.talks.add(0, Talk(self.server.port, self.lanes[0], [stream], self.draw))
            self.talks.run(time.monotonic(), drains=True)
        self.note_talks()
        self.stop_and_verify()

    def together(self, count: int, seconds: float) -> None:
        """Many connections side by side, a stop while they go on or behind them, and once more."""
        self.sources, self.shared = sources_of(self.draw), [Shared(name) for name in SHARED_WORDS]
        self.lanes = [lane_of(number, self.sources, self.shared) for number in range(count)]
        for lane in self.lanes:
            lane.replies = self.counts.replies
        write(self.folder, self.lanes[0].hall.events, SLOTS, {})
        for part in range(2):
            self.server.start()
            self.talk(count, seconds / 2, drains=part == self.draw.randrange(2))
            self.stop_and_verify()

    def alone(self, seconds: float) -> None:
        """One connection after another, which makes sources of its own."""
        slots = self.draw.choice((1, 2, 5, SLOTS))
        subprocess.run([self.program, "init", self.folder, str(slots)], check=True)
        self.sources, self.shared = [], []
        self.lanes = [Lane(WORDS[0], Hall(slots), is_alone=True, replies=self.counts.replies)]
        self.server.start()
        self.talk(1, seconds, drains=True)
        self.stop_and_verify()

    def talk(self, count: int, seconds: float, drains: bool) -> None:
        self.talks = Talks(count, self.begin, self.found)
        self.talks.run(time.monotonic() + seconds, drains)
        self.note_talks()

    def note_talks(self) -> None:
        self.counts.connections += self.talks.connections
        self.counts.silences += self.talks.silences

    def begin(self, place: int) -> Talk | None:
        lane = self.lanes[place]
        if lane.is_lost:
            return None
        lane.talks += 1
        draw = self.seeds.draw(self.name, place, lane.talks)
        try:
            return Talk(self.server.port, lane, groups_of(draw, lane, self.seeds), draw)
        except OSError as fault:
            lane.is_lost = True
            self.counts.differs(f"{self.name}, {lane.word}: no connection: {fault}")
            return None

    def found(self, talk: Talk, difference: str) -> None:
        """Notes a difference, with the bytes that show it, as few as can be found."""
        lane, (events, payloads) = talk.judge.lane, talk.judge.before
        lane.is_lost = True
        logs = {slot: log.payloads[: payloads[slot]] for slot, log in lane.hall.logs.items()}
        again = Again(self.program, lane.hall.events[:events], lane.hall.slots, logs)
        text = f"{self.name}, {lane.word}: {difference}"
        if again.difference(talk.stream):
            fewer = mutations.shrunk(talk.stream, lambda stream: bool(again.difference(stream)))
            text += f"\n  shown by {fewer[:4000]!r}\n  where {again.difference(fewer)}"
        else:
            text += f"\n  not found again by itself in {talk.stream[:4000]!r}"
        self.counts.differs(text)

    def stop_and_verify(self) -> None:
        """Stops the server, looks at its files, and has it tell all logs."""
        process, by = self.server.process, self.draw.choice((signal.SIGTERM, signal.SIGKILL))
        talks = dict(self.talks.talks)
        self.talks.close()
        self.counts.stops += 1
        try:
            if process.poll() is not None:
                raise Difference(f"the server has ended with status {process.returncode}")
            process.send_signal(by)
            process.wait(LONGEST_WAIT)
            self.verify(talks)
        except (Difference, Broken, subprocess.TimeoutExpired) as fault:
            self.counts.differs(f"{self.name}: behind a stop by {by.name}: {fault}")
            self.close()

    def verify(self, talks: dict[int, Talk]) -> None:
        actual = hall_of(self.folder)
        done = subprocess.run([self.program, "check", self.folder], capture_output=True, timeout=60)
        if (done.returncode, done.stdout) != (0, checked(actual)):
            raise Difference(f"check prints {done}, and is to print {checked(actual)!r}")
        for place, lane in enumerate(self.lanes):
            if not lane.is_lost:
                settle(lane, talks.get(place), actual)
        by_name = {source.name: source.slot for source in self.sources}
        for shared in self.shared:
            shared.verify(actual.logs[by_name[shared.name]].texts())
        self.server.start()
        self.tell_all(actual)
        self.follow(actual)
        self.server.kill()

    def tell_all(self, actual: Hall) -> None:
        """Has each source, log and patch told by the server."""
        stream = post({"operation": "list"}) + b"".join(readings(actual))
        differences: list[str] = []
        lane = Lane("all", actual, is_alone=True)
        talks = Talks(1, lambda place: None, lambda talk, difference: differences.append(difference))
        talks.add(0, Talk(self.server.port, lane, [stream], random.Random(0)))
        talks.run(time.monotonic(), drains=True)
        if differences:
            raise Difference(differences[0])

    def follow(self, actual: Hall) -> None:
        """Has a zone catch up with a log, and makes a checkpoint of it; compares its files and its dataset."""
        if not actual.sources:
            return
        name = self.draw.choice(list(actual.sources))
        log = actual.log_of(name)
        with tempfile.TemporaryDirectory() as zone:
            subprocess.run([self.program, "zone", zone], check=True, timeout=60)
            words = [self.program, "sync", zone, f"127.0.0.1:{self.server.port}", name]
            done = subprocess.run(words, capture_output=True, timeout=60)
            if (done.returncode, done.stdout) != (0, b"caught up at version %d\n" % len(log.patches)):
                raise Difference(f"sync of {name} prints {done}")
            if bytes_of(Path(zone), ZONE) != framed(ZONE, log.texts()):
                raise Difference(f"the zone's file isn't that of the patches of {name}")
            if knows(self.program, "checkpoint"):
                self.keep_zone(Path(zone), name)
            self.zone = {number: data for number in (ZONE, SECOND) if (data := bytes_of(Path(zone), number))}
            dumped = subprocess.run([self.program, "dump", zone], capture_output=True, timeout=60).stdout
            if dumped != dataset_of(Path(zone)).lines():
                raise Difference(f"dump prints another dataset than that of {name}: {dumped!r}")


    def keep_zone(self, zone: Path, name: str) -> None:
        """Makes a checkpoint of a zone without one, and compares it."""
        before = zone_of(zone)
        done = subprocess.run([self.program, "checkpoint", zone], capture_output=True, timeout=60)
        if (done.returncode, done.stdout) != (0, b"checkpoint at version %d\n" % len(before.brief.ids)):
            raise Difference(f"checkpoint of a zone of {name} prints {done}")
        if bytes_of(zone, SECOND) != framed(SECOND, [checkpoint(1, before.brief)]):
            raise Difference(f"the checkpoint isn't that of the patches of {name}")


def groups_of(draw: random.Random, lane: Lane, seeds: Seeds) -> list[bytes]:
    """What is sent over one connection, in groups that wait for each other's replies."""
    chance = draw.random()
    if chance < 0.01:
        return [raw(draw)]
    is_changed = chance < 0.15
    grammar = RequestTexts(draw, lane.owner(draw), seeds.streams, seeds.others, [] if is_changed else lane.shared)
    requests = grammar.stream(draw.choice((1, 3, 8, 15, 30)))
    if is_changed:
        return [mutations.mutated(b"".join(requests), draw, seeds.others)]
    groups, at = [], 0
    while at < len(requests):
        length = draw.choice((1, 3, 30))
        groups.append(b"".join(requests[at : at + length]))
        at += length
    return groups


def signature(hall: Hall, slots: list[int]) -> list:
    """The sources in these slots and their logs."""
    sources = {source.slot: (source.name, source.id, source.uri) for source in hall.sources.values()}
    return [(sources.get(slot), hall.logs[slot].texts()) for slot in slots]


def settle(lane: Lane, talk: Talk | None, actual: Hall) -> None:
    """Takes of the requests that were under way as many as have taken effect."""
    slots, shared = lane.own_slots(), [log.name for log in lane.shared]
    calls = [call_of(event) for event, _ in talk.judge.expected if isinstance(event, Request)] if talk else []
    while signature(lane.hall, slots) != signature(actual, slots):
        if not calls:
            raise Difference(f"the source or the log of {lane.word} is another than what was answered")
        call = calls.pop(0)
        if isinstance(call, Call) and call.members.get("name") not in shared:
            lane.hall.answer(call)


def readings(hall: Hall) -> Iterator[bytes]:
    """Requests that fetch all there is."""
    for name, source in hall.sources.items():
        yield f"GET /{name} HTTP/1.1\r\nHost: a\r\n\r\n".encode()
        for version, patch in enumerate(hall.logs[source.slot].patches, 1):
            which = version if version % 2 else patch.id
            yield f"GET /{name}/{which} HTTP/1.1\r\nHost: a\r\n\r\n".encode()


def post(members: dict) -> bytes:
    body = str(members).replace("'", '"').encode()
    return b"POST /$/rpc HTTP/1.1\r\nHost: a\r\nContent-Length: %d\r\n\r\n" % len(body) + body
