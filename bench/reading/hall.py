"""The registry and the logs as plain lists, and what is answered to a call, as docs/FORMATS.md and docs/HTTP.md state it."""
import json
import re
from collections.abc import Callable
from dataclasses import dataclass, field

from reading.texts import IRI_RUN, Fault, NoRun, Patch, has_scheme, read_patch, read_run
from reading.wire import Call, NoCall, Refusal, Request, call_of

MOST_PATCHES, MOST_BYTES, MOST_REGISTRY = 262_144, 268_435_456, 2_097_152
LONGEST_NAME, LONGEST_URI = 64, 1_024
NAME_BYTES = re.compile(rb"[A-Za-z0-9_.-]*")
PHRASES = {
    200: "OK",
    400: "Bad Request",
    404: "Not Found",
    405: "Method Not Allowed",
    409: "Conflict",
    413: "Payload Too Large",
    415: "Unsupported Media Type",
    431: "Request Header Fields Too Large",
    507: "Insufficient Storage",
}
CONTINUE = b"HTTP/1.1 100 Continue\r\n\r\n"


@dataclass
class Reply:
    status: int
    body: bytes
    kind: str = "application/json"
    allow: str = ""

    def written(self, closes: bool) -> bytes:
        lines = [f"HTTP/1.1 {self.status} {PHRASES[self.status]}"]
        lines += [f"Allow: {self.allow}"] if self.allow else []
        lines += ["Connection: close"] if closes else []
        lines += [f"Content-Type: {self.kind}", f"Content-Length: {len(self.body)}", "", ""]
        return "\r\n".join(lines).encode() + self.body


def told(status: int, **members: object) -> Reply:
    text = json.dumps(members, separators=(",", ":"), sort_keys=True, ensure_ascii=False)
    return Reply(status, text.encode())


@dataclass
class Source:
    slot: int
    id: str
    name: str
    uri: str

    def members(self) -> dict:
        return {"id": self.id, "name": self.name, "slot": self.slot, "uri": self.uri}


@dataclass
class Log:
    """The patches of a log, and the version of each id. The payloads are the runs as they came."""

    patches: list[Patch] = field(default_factory=list)
    versions: dict[str, int] = field(default_factory=dict)
    payloads: list[bytes] = field(default_factory=list)
    size: int = 9

    def head(self) -> str | None:
        return self.patches[-1].id if self.patches else None

    def texts(self) -> list[bytes]:
        return [patch.text for patch in self.patches]

    def take(self, run: list[Patch], payload: bytes) -> None:
        for patch in run:
            self.patches.append(patch)
            self.versions[patch.id] = len(self.patches)
            self.size += 9 + len(patch.text)
        self.payloads.append(payload)

    def refusal(self, run: list[Patch]) -> Reply | None:
        """Why the log doesn't take a run."""
        version = len(self.patches)
        for patch in run:
            if patch.id in self.versions:
                known = self.versions[patch.id]
                same = self.texts()[known - 1 : known - 1 + len(run)] == [patch.text for patch in run]
                return told(409, error="known", same=same, version=known)
        prev = run[0].prev
        if prev != self.head():
            prev_version = 0 if prev is None else self.versions.get(prev)
            return told(409, error="conflict", head=self.head(), prev_version=prev_version, version=version)
        if version + len(run) > MOST_PATCHES:
            return told(507, error="full", have=version, limit=MOST_PATCHES, what="patches")
        size = self.size + sum(9 + len(patch.text) for patch in run)
        if size > MOST_BYTES:
            return told(507, error="full", have=size, limit=MOST_BYTES, what="bytes")
        return None


def bad_name(name: str) -> int | None:
    """The place at which a name is bad."""
    data = name.encode()
    end = 0 if data[:1] == b"." else NAME_BYTES.match(data).end()
    if end < len(data) or not data:
        return min(end, LONGEST_NAME)
    return LONGEST_NAME if len(data) > LONGEST_NAME else None


def bad_uri(uri: str) -> int | None:
    """The place at which a URI is bad."""
    length = len(uri.encode())
    at = len(uri[: IRI_RUN.match(uri).end()].encode())
    if at < length:
        return min(at, LONGEST_URI)
    if not has_scheme(uri):
        return 0
    return LONGEST_URI if length > LONGEST_URI else None


class Hall:
    """The sources of a server and their logs. What an id is that the server draws tells `drawn`."""

    def __init__(self, slots: int, drawn: Callable[[], str] = lambda: ""):
        self.slots, self.drawn, self.made = slots, drawn, 0
        self.sources: dict[str, Source] = {}
        self.logs: dict[int, Log] = {slot: Log() for slot in range(1, slots + 1)}
        self.events: list[bytes] = []
        self.size = 9
        self.note(b"S %d" % slots)

    def note(self, event: bytes) -> None:
        self.events.append(event)
        self.size += 9 + len(event)

    def reply(self, request: Request | Refusal) -> Reply:
        if isinstance(request, Refusal):
            return told(request.status(), error="bad_request", kind=request.kind)
        call = call_of(request)
        return no_call(call) if isinstance(call, NoCall) else self.answer(call)

    def answer(self, call: Call) -> Reply:
        return getattr(self, call.operation)(**call.members)

    def ping(self) -> Reply:
        return told(200, ping="ok")

    def list(self) -> Reply:
        return told(200, sources=[self.sources[name].members() for name in sorted(self.sources)])

    def source(self, name: str) -> Reply:
        return self.tell(self.sources.get(name))

    def source_by_id(self, id: str) -> Reply:
        return self.tell(next((source for source in self.sources.values() if source.id == id), None))

    def source_by_uri(self, uri: str) -> Reply:
        found = [source for source in self.sources.values() if source.uri == uri]
        return self.tell(min(found, key=lambda source: source.slot, default=None))

    def tell(self, source: Source | None) -> Reply:
        return told(404, error="no_source") if source is None else told(200, **source.members())

    def room_for(self, event: bytes) -> Reply | None:
        """Why the registry has no room for an event."""
        have = self.size + 9 + len(event)
        if have <= MOST_REGISTRY:
            return None
        return told(507, error="full", have=have, limit=MOST_REGISTRY, what="bytes")

    def create(self, name: str, uri: str, id: str | None = None) -> Reply:
        for fault, at in (("bad_name", bad_name(name)), ("bad_uri", bad_uri(uri))):
            if at is not None:
                return told(400, at=at, error=fault)
        if name in self.sources:
            return told(409, error="name_taken", id=self.sources[name].id)
        same = [source.name for source in self.sources.values() if source.id == id]
        if same:
            return told(409, error="id_taken", name=same[0])
        if self.made == self.slots:
            return told(507, error="full", have=self.made, limit=self.slots, what="slots")
        source = Source(self.made + 1, id or self.drawn(), name, uri)
        event = f"C {source.slot} {source.id} {name} {uri}".encode()
        refusal = self.room_for(event)
        if refusal is None:
            self.made += 1
            self.sources[name] = source
            self.note(event)
        return refusal or self.tell(source)

    def rename(self, name: str, new_name: str) -> Reply:
        if name not in self.sources:
            return told(404, error="no_source")
        at = bad_name(new_name)
        if at is not None:
            return told(400, at=at, error="bad_name")
        if new_name in self.sources:
            return told(409, error="name_taken", id=self.sources[new_name].id)
        event = f"R {self.sources[name].slot} {new_name}".encode()
        refusal = self.room_for(event)
        if refusal is None:
            source = self.sources.pop(name)
            source.name = new_name
            self.sources[new_name] = source
            self.note(event)
        return refusal or self.source(new_name)

    def remove(self, name: str) -> Reply:
        if name not in self.sources:
            return told(404, error="no_source")
        event = f"D {self.sources[name].slot}".encode()
        refusal = self.room_for(event)
        if refusal is None:
            self.note(event)
        return refusal or self.tell(self.sources.pop(name))

    def log_of(self, name: str) -> Log | None:
        return self.logs[self.sources[name].slot] if name in self.sources else None

    def log(self, name: str) -> Reply:
        log = self.log_of(name)
        return told(404, error="no_source") if log is None else told(200, head=log.head(), version=len(log.patches))

    def version(self, name: str) -> Reply:
        log = self.log_of(name)
        return told(404, error="no_source") if log is None else told(200, version=len(log.patches))

    def fetch_version(self, name: str, version: int) -> Reply:
        log = self.log_of(name)
        if log is None:
            return told(404, error="no_source")
        if not 1 <= version <= len(log.patches):
            return told(404, error="no_patch", version=len(log.patches))
        return Reply(200, log.patches[version - 1].text, "application/rdf-patch")

    def fetch_id(self, name: str, id: str) -> Reply:
        log = self.log_of(name)
        return self.fetch_version(name, log.versions.get(id, 0) if log else 0)

    def append(self, name: str, patch: bytes) -> Reply:
        log = self.log_of(name)
        if log is None:
            return told(404, error="no_source")
        try:
            run = [read_patch(patch)]
        except Fault as fault:
            return told(400, at=fault.at, error="bad_patch", kind=fault.kind)
        refusal = log.refusal(run)
        if refusal is None:
            log.take(run, patch)
        return refusal or told(200, version=len(log.patches))

    def append_run(self, name: str, patches: bytes) -> Reply:
        log = self.log_of(name)
        if log is None:
            return told(404, error="no_source")
        try:
            run = read_run(patches)
        except Fault as fault:
            return told(400, at=fault.at, error="bad_patch", kind=fault.kind)
        except NoRun as fault:
            return told(400, at=fault.at, error="bad_run")
        refusal = log.refusal(run)
        if refusal is None:
            log.take(run, patches)
        return refusal or told(200, first=len(log.patches) + 1 - len(run), version=len(log.patches))


def no_call(call: NoCall) -> Reply:
    members = {"member": call.member} if call.member else {}
    reply = told(call.status, error=call.error, **members)
    reply.allow = call.allow
    return reply
