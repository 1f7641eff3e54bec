"""What is known of each connection's source and of the logs that all share, and whether replies are as they are to be."""
import json
import random
import re
import uuid
from collections import Counter, deque
from dataclasses import dataclass, field

from fuzzing.grammar import Owner, PatchTexts
from reading.hall import CONTINUE, Hall, Reply
from reading.texts import Patch, read_patch
from reading.texts import uuid as id_of
from reading.wire import Call, Continue, Event, Request, Requests, call_of

WORDS = (
    "Alfa", "Bravo", "Charlie", "Delta", "Echo", "Foxtrot", "Golf", "Hotel", "India", "Juliett", "Kilo", "Lima",
    "Mike", "November", "Oscar", "Papa",
)
SHARED_WORDS = ("Shared-Quebec", "Shared-Romeo")
LENGTH = re.compile(rb"\r\nContent-Length: ([0-9]+)\r\n")
DRAWN = re.compile(rb'"id":"([0-9a-f-]{36})"')
LONGEST_HEAD = 1_000


class Difference(Exception):
    """What the program does otherwise than the documents say."""


class Shared:
    """A log that all connections append to. What each reply is isn't known, but that it tells of one chain."""

    def __init__(self, name: str):
        self.name = name
        self.sent: dict[str, Patch] = {}
        self.accepted: dict[int, str] = {}
        self.version, self.head = 0, None

    def request(self, texts: PatchTexts) -> bytes:
        """An append behind the head that was told last, or a reading."""
        chance = texts.draw.random()
        if chance < 0.5 or not self.sent:
            id = texts.id()
            body = f"H id <uuid:{id}> .\n" + (f"H prev <uuid:{self.head}> .\n" if self.head else "")
            self.sent[id] = read_patch(body.encode())
            return self.posted(body.encode())
        if chance < 0.6:
            return self.posted(texts.draw.choice(list(self.sent.values())).text)
        which = "" if chance < 0.8 else f"/{texts.draw.randrange(self.version + 2)}"
        return f"GET /{self.name}{which} HTTP/1.1\r\nHost: a\r\n\r\n".encode()

    def posted(self, body: bytes) -> bytes:
        return f"POST /{self.name} HTTP/1.1\r\nHost: a\r\nContent-Length: {len(body)}\r\n\r\n".encode() + body

    def takes(self, call: Call, reply: Reply, floor: int) -> None:
        """Looks at a reply to a request that was sent when the log had so many patches at least."""
        if call.operation == "fetch_version" and reply.status == 200:
            self.require(reply.body in (patch.text for patch in self.sent.values()), "a patch that nobody sent")
            return
        told = json.loads(reply.body)
        version = told["version"]
        if call.operation == "append":
            self.takes_append(read_patch(call.members["patch"]), reply.status, told, floor)
        elif call.operation == "fetch_version":
            wanted = call.members["version"]
            self.require(reply.status == 404 and (wanted == 0 or wanted > version), "a patch isn't there")
            self.reached(version, floor)
        else:
            self.require(reply.status == 200, "no log")
            self.require((told["head"] in self.sent) == (version > 0), "a head that nobody sent")
            self.reached(version, floor, told["head"])

    def takes_append(self, patch: Patch, status: int, told: dict, floor: int) -> None:
        version = told["version"]
        if status == 200:
            self.require(version > floor and version not in self.accepted, "a version that another patch has")
            self.require(patch.id not in self.accepted.values(), "a patch is taken twice")
            self.require(version == 1 or self.accepted.get(version - 1, patch.prev) == patch.prev, "another chain")
            self.accepted[version] = patch.id
            self.reached(version, floor, patch.id)
        elif told["error"] == "known":
            known = self.accepted.get(version, patch.id)
            self.require(status == 409 and told["same"] and known == patch.id, "a patch is known at another's version")
        else:
            self.require((status, told["error"]) == (409, "conflict") and told["head"] != patch.prev, "no conflict")
            self.reached(version, floor, told["head"])

    def reached(self, version: int, floor: int, head: str | None = None) -> None:
        self.require(version >= floor, f"a version below {floor}, which was told before")
        if version > self.version and head:
            self.version, self.head = version, head

    def require(self, holds: bool, what: str) -> None:
        if not holds:
            raise Difference(f"{self.name}: {what}")

    def verify(self, texts: list[bytes]) -> None:
        """The whole log, as it stands behind a stop: one chain that has all that was acknowledged."""
        patches = [read_patch(text) for text in texts]
        ids = [patch.id for patch in patches]
        self.require(all(self.sent.get(patch.id) == patch for patch in patches), "a patch that nobody sent")
        self.require([patch.prev for patch in patches] == [None, *ids][: len(ids)], "no chain")
        stands = all(ids[version - 1 : version] == [id] for version, id in self.accepted.items())
        self.require(stands, "an acknowledged patch is lost")
        self.require(len(ids) >= self.version, "a version that was told is lost")
        self.accepted = dict(enumerate(ids, 1))
        self.version, self.head = len(ids), ids[-1] if ids else None


@dataclass
class Lane:
    """Whose source it is, and what a plain reading has of it: the sources and logs that no other connection changes. Where it is
    alone, that is all there is. Behind a difference it is lost: what it has isn't known any more."""

    word: str
    hall: Hall
    shared: list[Shared] = field(default_factory=list)
    slots: list[int] = field(default_factory=list)
    is_alone: bool = False
    is_lost: bool = False
    talks: int = 0
    replies: Counter[str] = field(default_factory=Counter)

    def own_slots(self) -> list[int]:
        """The slots of which no other connection changes the source or the log."""
        return list(self.hall.logs) if self.is_alone else self.slots

    def length(self) -> tuple[int, dict[int, int]]:
        """How many events there are, and how many payloads of each log."""
        return len(self.hall.events), {slot: len(log.payloads) for slot, log in self.hall.logs.items()}

    def owner(self, draw: random.Random) -> Owner:
        """The source that the next requests speak of, as it is now."""
        own = [source for source in self.hall.sources.values() if not source.name.startswith("Shared-")]
        if not own:
            return Owner(self.word, self.word, str(uuid.UUID(int=draw.getrandbits(128))), f"http://e/{self.word}")
        source = draw.choice(own)
        log = self.hall.logs[source.slot]
        patches = log.patches[-20:]
        ids, texts = [patch.id for patch in patches], [patch.text for patch in patches[-10:] if len(patch.text) < 9_000]
        return Owner(self.word, source.name, source.id, source.uri, log.head(), ids, len(log.patches), texts)

    def written(self, event: Event, closes: bool, actual: bytes, floors: dict[str, int]) -> bytes:
        """The reply that is to come, where this one came. What only other connections know is taken from it."""
        if isinstance(event, Continue):
            return CONTINUE
        self.replies[word_of(actual)] += 1
        call = call_of(event) if isinstance(event, Request) else None
        if isinstance(call, Call) and not self.is_alone:
            shared = [log for log in self.shared if log.name == call.members.get("name")]
            if shared or call.operation == "list":
                status, reply = reply_of(actual)
                if shared:
                    shared[0].takes(call, reply, floors[shared[0].name])
                else:
                    self.takes_list(status, reply)
                return reply.written(closes)
        found = DRAWN.search(actual)
        self.hall.drawn = lambda: found[1].decode() if found else "none"
        return self.hall.reply(event).written(closes)

    def takes_list(self, status: int, reply: Reply) -> None:
        """Looks at a list of all sources, of which this connection knows its own ones."""
        sources = json.loads(reply.body)["sources"]
        names, slots = [source["name"] for source in sources], [source["slot"] for source in sources]
        known = [source for source in sources if source["name"] in self.hall.sources]
        good = names == sorted(names) and len(set(slots)) == len(slots) and all(id_of(each["id"]) for each in sources)
        if status != 200 or not good or known != json.loads(self.hall.list().body)["sources"]:
            raise Difference("a list that isn't one of the sources by name")


def word_of(actual: bytes) -> str:
    """The status of a reply, with the error that it tells."""
    words = re.findall(rb'"(?:error|kind)":"(\w+)"', actual[-200:]) if not actual.startswith(b"HTTP/1.1 200") else []
    return " ".join(word.decode() for word in [actual[9:12], *words])


def reply_of(actual: bytes) -> tuple[int, Reply]:
    """A reply as it came, for what can't be known before."""
    head, _, body = actual.partition(b"\r\n\r\n")
    kind = re.search(rb"\r\nContent-Type: ([^\r]*)", head + b"\r\n")
    status = int(head[9:12])
    return status, Reply(status, body, kind[1].decode() if kind else "")


@dataclass
class Judge:
    """One connection of a lane: what was sent, what is to come, and what came."""

    lane: Lane
    requests: Requests = field(default_factory=Requests)
    expected: deque[tuple[Event, bool]] = field(default_factory=deque)
    incoming: bytes = b""
    came: int = 0
    answered: int = 0
    # Where the last request ends that was answered, in what was sent.
    answered_to: int = 0
    floors: dict[str, int] = field(default_factory=dict)

    def __post_init__(self) -> None:
        self.before = self.lane.length()
        self.floors = {log.name: log.version for log in self.lane.shared}

    def sends(self, data: bytes) -> None:
        events = self.requests.feed(data)
        for place, event in enumerate(events, 1):
            closes = place == len(events) and self.requests.is_over and not isinstance(event, Continue)
            self.expected.append((event, closes))

    def is_over(self) -> bool:
        """Whether the connection's last reply has come."""
        return self.requests.is_over and not self.expected

    def receives(self, data: bytes) -> None:
        """Looks at what came. Raises what differs."""
        self.incoming += data
        while self.incoming:
            length = length_of(self.incoming)
            if length is None:
                return
            actual, self.incoming = self.incoming[:length], self.incoming[length:]
            if not self.expected:
                raise Difference(f"a reply that nothing asks for: {shown(actual)}")
            event, closes = self.expected.popleft()
            self.came += 1
            if isinstance(event, Request):
                self.answered_to = self.requests.ends[self.answered]
                self.answered += 1
            wanted = self.lane.written(event, closes, actual, self.floors)
            if wanted != actual:
                raise Difference(f"reply {self.came} is {shown(actual)}, and is to be {shown(wanted)}")

    def ends(self) -> str:
        """What is wrong where the connection ends now; empty where nothing is."""
        if self.incoming:
            return f"the connection ends within a reply: {shown(self.incoming)}"
        if self.expected:
            return f"the connection ends without reply {self.came + 1}, to {shown(repr(self.expected[0][0]).encode())}"
        return ""


def length_of(incoming: bytes) -> int | None:
    """How long the first reply is, once that is known and the reply is whole."""
    if incoming.startswith(CONTINUE):
        return len(CONTINUE)
    head = incoming.find(b"\r\n\r\n", 0, LONGEST_HEAD)
    if head < 0:
        if len(incoming) > LONGEST_HEAD:
            raise Difference(f"no reply: {shown(incoming)}")
        return None
    found = LENGTH.search(incoming, 0, head + 2)
    if found is None:
        if incoming.startswith(b"HTTP/1.1 100 "):
            return None
        raise Difference(f"a reply without a length: {shown(incoming)}")
    length = head + 4 + int(found[1])
    return length if len(incoming) >= length else None


def shown(data: bytes, most: int = 600) -> str:
    return repr(data) if len(data) <= most else f"{data[:most]!r} and {len(data) - most} bytes more"
