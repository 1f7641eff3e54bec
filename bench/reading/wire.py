"""Requests of a connection, and the calls that they are, as docs/FORMATS.md states them under "HTTP framing"."""
import json
import re
from collections.abc import Callable
from dataclasses import dataclass, field
from urllib.parse import unquote_to_bytes

from reading.texts import uuid

LONGEST_HEAD, LONGEST_LINE, LONGEST_TRAILERS = 16_384, 256, 16_384
LONGEST_BODY = 4_194_304
MOST_FIELDS = 64
DEEPEST_JSON = 127
LAST_REQUEST = 10_000

EMPTY_LINES = re.compile(rb"(?:\r?\n)*")
TOKEN = re.compile(rb"[0-9A-Za-z!#$%&'*+.^_`|~-]*")
TARGET, TARGET_END = re.compile(rb"[\x21-\x7e\x80-\xff]*"), re.compile(rb"[ \r\n]")
VALUE = re.compile(rb"[\t\x20-\x7e\x80-\xff]*")
VERSION = b"HTTP/1."
CHUNK_SIZE, CHUNK_PAD = re.compile(rb"[0-9A-Fa-f]{0,16}"), re.compile(rb"[ \t]*")
EXTENSION = re.compile(rb";[^\r\n]*")


class Cut(Exception):
    """The bytes end before it is told."""


class Bad(Exception):
    """No bytes can follow that make it good, from the one at this place on."""

    def __init__(self, at: int):
        super().__init__(at)
        self.at = at


@dataclass
class Refusal:
    """Bytes that are no request."""

    kind: str

    def status(self) -> int:
        return {"TooManyFields": 431, "HeadTooLong": 431, "BodyTooLong": 413}.get(self.kind, 400)


@dataclass
class Request:
    method: str
    path: bytes
    fields: list[tuple[bytes, bytes]]
    minor: int
    body: bytes = b""

    def all(self, name: bytes) -> list[bytes]:
        return [value for found, value in self.fields if found.lower() == name]

    def first(self, name: bytes) -> bytes | None:
        values = self.all(name)
        return values[0] if values else None

    def closes(self) -> bool:
        items = [item for value in self.all(b"connection") for item in value.split(b",")]
        return self.minor == 0 or any(item.strip(b" \t").lower() == b"close" for item in items)

    def is_chunked(self) -> bool:
        return bool(self.all(b"transfer-encoding"))

    def length(self) -> int:
        return int(self.first(b"content-length") or b"0")

    def asks(self) -> bool:
        """Whether 100 Continue is asked for."""
        expected = (self.first(b"expect") or b"").lower() == b"100-continue"
        return self.minor == 1 and expected and (self.is_chunked() or self.length() > 0)

    def fault(self) -> str:
        """The first fault of a whole head; empty where it has none."""
        lengths, codings = self.all(b"content-length"), self.all(b"transfer-encoding")
        if len(self.fields) > MOST_FIELDS:
            return "TooManyFields"
        if self.minor == 1 and len(self.all(b"host")) != 1:
            return "BadHost"
        if lengths and codings:
            return "TwoLengths"
        if len(lengths) > 1 or lengths and not re.fullmatch(rb"[0-9]{1,18}", lengths[0]):
            return "BadLength"
        if codings and (self.minor == 0 or [coding.lower() for coding in codings] != [b"chunked"]):
            return "BadLength"
        return "BodyTooLong" if self.length() > LONGEST_BODY else ""


@dataclass
class Continue:
    """The line that asks for a body."""


Event = Request | Refusal | Continue


@dataclass
class Requests:
    """The requests of one connection, which come in any pieces, and the places at which they end. `is_over` where nothing
    more is read of it."""

    rest: bytes = b""
    is_over: bool = False
    has_asked: bool = False
    ends: list[int] = field(default_factory=list)

    def feed(self, piece: bytes) -> list[Event]:
        """What these bytes bring: requests, lines that ask for a body, and a refusal at last."""
        self.rest += piece
        events: list[Event] = []
        while not self.is_over:
            try:
                self.rest = self.rest[self.message(events) :]
            except Cut:
                break
        return events

    def message(self, events: list[Event]) -> int:
        """Appends what the next message is, and tells where it ends."""
        head = read_head(self.rest)
        if isinstance(head, Refusal):
            return self.refuse(head.kind, events)
        request, end = head
        kind = request.fault()
        if kind:
            return self.refuse(kind, events)
        if request.asks() and not self.has_asked:
            events.append(Continue())
            self.has_asked = True
        if request.is_chunked():
            kind, request.body, end = read_chunks(self.rest, end)
            if kind:
                return self.refuse(kind, events)
        else:
            request.body = whole(self.rest, end, request.length())
            end += request.length()
        self.has_asked = False
        self.ends.append(sum(self.ends[-1:]) + end)
        self.is_over = request.closes() or len(self.ends) == LAST_REQUEST
        events.append(request)
        return end

    def refuse(self, kind: str, events: list[Event]) -> int:
        events.append(Refusal(kind))
        self.is_over = True
        return len(self.rest)


def whole(data: bytes, at: int, length: int) -> bytes:
    if len(data) < at + length:
        raise Cut
    return data[at : at + length]


def line_end(data: bytes, at: int) -> int:
    """The place behind a line end."""
    if data[at : at + 1] == b"\r":
        at += 1
    if at == len(data):
        raise Cut
    if data[at : at + 1] != b"\n":
        raise Bad(at)
    return at + 1


def token(data: bytes, at: int, behind: bytes) -> int:
    """Where a token ends that this byte stands behind."""
    end = TOKEN.match(data, at).end()
    if end == len(data):
        raise Cut
    if end == at or data[end : end + 1] != behind:
        raise Bad(end)
    return end


def read_fields(data: bytes, at: int) -> tuple[list[tuple[bytes, bytes]], int]:
    """Fields up to the empty line behind them."""
    fields = []
    while True:
        if at == len(data):
            raise Cut
        if data[at : at + 1] in b"\r\n":
            return fields, line_end(data, at)
        colon = token(data, at, b":")
        end = VALUE.match(data, colon + 1).end()
        fields.append((data[at:colon], data[colon + 1 : end].strip(b" \t")))
        at = line_end(data, end)


def read_start(data: bytes) -> tuple[str, bytes, int, int]:
    """The method, target and version of a start line, and the place behind it."""
    at = EMPTY_LINES.match(data).end()
    if data[at : at + 1] == b"\r":
        line_end(data, at)
    end = token(data, at, b" ")
    method, at = data[at:end].decode(), end + 1
    found = TARGET_END.search(data, at)
    if found is None:
        raise Cut
    target, end = data[at : found.start()], found.start()
    if not target or data[end : end + 1] != b" " or not TARGET.fullmatch(target) or not is_utf8(target):
        raise Bad(end)
    at = end + 1
    for place, wanted in enumerate([*(bytes([byte]) for byte in VERSION), b"01"], at):
        if place == len(data):
            raise Cut
        if data[place : place + 1] not in wanted:
            raise Bad(place)
    at += len(VERSION)
    return method, target, data[at] - ord("0"), line_end(data, at + 1)


def is_utf8(data: bytes) -> bool:
    try:
        data.decode()
    except UnicodeDecodeError:
        return False
    return True


def path_of(target: bytes) -> bytes:
    path = target.split(b"?")[0]
    if path.startswith(b"http://"):
        _, slash, rest = path[len(b"http://") :].partition(b"/")
        path = b"/" + rest
    return path


def read_head(rest: bytes) -> tuple[Request, int] | Refusal:
    """The request that a head begins, without its body, and where the head ends."""
    window = rest[:LONGEST_HEAD]
    try:
        method, target, minor, at = read_start(window)
        fields, at = read_fields(window, at)
    except Bad:
        return Refusal("BadHead")
    except Cut:
        if len(window) == LONGEST_HEAD:
            return Refusal("HeadTooLong")
        raise
    return Request(method, path_of(target), fields, minor), at


def chunk_line(data: bytes, at: int) -> tuple[int, int]:
    """The size that a chunk line tells, and the place behind it."""
    window = data[at : at + LONGEST_LINE]
    end = CHUNK_SIZE.match(window).end()
    digits = window[:end]
    if not digits and window:
        raise Bad(0)
    end = CHUNK_PAD.match(window, end).end()
    found = EXTENSION.match(window, end)
    end = found.end() if found else end
    for place, wanted in ((end, b"\r"), (end + 1, b"\n")):
        if place >= len(window):
            if len(window) == LONGEST_LINE:
                raise Bad(place)
            raise Cut
        if window[place : place + 1] != wanted:
            raise Bad(place)
    return int(digits, 16), at + end + 2


def read_chunks(data: bytes, at: int) -> tuple[str, bytes, int]:
    """The fault of a chunked body, which is empty where it has none, its data, and where it ends."""
    parts, length = [], 0
    try:
        while True:
            size, at = chunk_line(data, at)
            length += size
            if length > LONGEST_BODY:
                return "BodyTooLong", b"", at
            if size == 0:
                return "", b"".join(parts), trailers_end(data, at)
            parts.append(whole(data, at, size))
            at += size
            for wanted in b"\r\n":
                if at == len(data):
                    raise Cut
                if data[at] != wanted:
                    raise Bad(at)
                at += 1
    except Bad:
        return "BadChunk", b"", at


def trailers_end(data: bytes, at: int) -> int:
    window = data[at : at + LONGEST_TRAILERS]
    try:
        return at + read_fields(window, 0)[1]
    except Cut:
        if len(window) == LONGEST_TRAILERS:
            raise Bad(at + len(window)) from None
        raise


@dataclass
class Call:
    """An operation with its members."""

    operation: str
    members: dict = field(default_factory=dict)


@dataclass
class NoCall:
    """Why a request is no call."""

    status: int
    error: str
    member: str = ""
    allow: str = ""


ROWS: dict[str, dict[str, str]] = {
    "ping": {"GET": "ping", "POST": "ping"},
    "rpc": {"POST": "rpc"},
    "name": {"GET": "log", "POST": "append"},
    "run": {"POST": "append_run"},
    "version": {"GET": "fetch_version"},
    "id": {"GET": "fetch_id"},
}


def segments_of(path: bytes) -> list[str] | None:
    """The segments of a path, decoded."""
    if not path.startswith(b"/"):
        return None
    try:
        return [unquote_to_bytes(segment).decode() for segment in path[1:].split(b"/")]
    except UnicodeDecodeError:
        return None


def route(path: bytes) -> tuple[str, dict]:
    """The row of the table that a path is of, with the members that it names; no word where it has no route."""
    segments = segments_of(path)
    if segments in (["$", "ping"], ["$", "rpc"]):
        return segments[1], {}
    if segments is None or len(segments) > 2 or segments[0] in ("$", ""):
        return "", {}
    members: dict = {"name": segments[0]}
    if len(segments) == 1:
        return "name", members
    which = segments[1]
    if which == "run":
        return "run", members
    if re.fullmatch("[0-9]{1,10}", which):
        return "version", members | {"version": int(which)}
    id = uuid(which)
    return ("id", members | {"id": id}) if id else ("", {})


def is_not_taken(request: Request) -> bool:
    """Whether a body is of a type or coding that isn't taken."""
    kind = (request.first(b"content-type") or b"").split(b";")[0].strip(b" \t").lower()
    coding = request.first(b"content-encoding")
    return kind == b"application/rdf-patch+thrift" or coding is not None and coding.lower() != b"identity"


def call_of(request: Request) -> Call | NoCall:
    row, members = route(request.path)
    if not row:
        return NoCall(404, "no_route")
    operations = ROWS[row]
    if request.method not in operations:
        return NoCall(405, "bad_method", allow=", ".join(operations))
    if request.method == "POST" and is_not_taken(request):
        return NoCall(415, "media")
    operation = operations[request.method]
    if operation == "rpc":
        return rpc_of(request.body)
    if operation == "append":
        members["patch"] = request.body
    if operation == "append_run":
        members["patches"] = request.body
    return Call(operation, members)


class Whole(int):
    """A whole number of JSON, without point and exponent."""


def is_text(value: object) -> bool:
    return isinstance(value, str)


def is_version(value: object) -> bool:
    return isinstance(value, Whole) and 0 <= value <= 0xFFFFFFFF


def is_id(value: object) -> bool:
    return isinstance(value, str) and uuid(value) is not None


MEMBERS: dict[str, tuple[str, ...]] = {
    "ping": (),
    "list": (),
    "source": ("name",),
    "log": ("name",),
    "version": ("name",),
    "remove": ("name",),
    "source_by_id": ("id",),
    "source_by_uri": ("uri",),
    "create": ("name", "uri", "id"),
    "rename": ("name", "new_name"),
    "append": ("name", "patch"),
    "append_run": ("name", "patches"),
    "fetch_version": ("name", "version"),
    "fetch_id": ("name", "id"),
}
TESTS: dict[str, Callable[[object], bool]] = {"version": is_version, "id": is_id}


def rpc_of(body: bytes) -> Call | NoCall:
    """The operation that the body of `/$/rpc` names."""
    value = read_json(body)
    if value is None:
        return NoCall(400, "bad_json")
    operation = value.get("operation")
    if not isinstance(operation, str) or operation not in MEMBERS:
        return NoCall(400, "bad_call", "operation")
    members = {}
    for name in MEMBERS[operation]:
        if operation == "create" and name == "id" and name not in value:
            continue
        if not TESTS.get(name, is_text)(value.get(name)):
            return NoCall(400, "bad_call", name)
        members[name] = uuid(value[name]) if name == "id" else value[name]
    for name in ("patch", "patches"):
        if name in members:
            members[name] = members[name].encode()
    return Call(operation, members)


def refuse_word(word: str) -> None:
    raise ValueError(word)


def whole_number(digits: str) -> float:
    """A whole number; `-0` is one with a sign, and one that no float holds is none of JSON here."""
    if abs(float(digits)) == float("inf"):
        raise ValueError(digits)
    return Whole(digits) if digits != "-0" else -0.0


def broken_number(digits: str) -> float:
    if abs(float(digits)) == float("inf"):
        raise ValueError(digits)
    return float(digits)


def paired(pairs: list[tuple[str, object]]) -> dict:
    for name, value in pairs:
        require_text(name)
        require_text(value)
    return dict(pairs)


def require_text(value: object) -> None:
    """Refuses strings with half of a surrogate pair."""
    for item in value if isinstance(value, list) else [value]:
        if isinstance(item, list):
            require_text(item)
        if isinstance(item, str):
            item.encode()


def depth_of(text: str) -> int:
    """How deep arrays and objects stand within each other at most."""
    depth = deepest = 0
    for mark in re.sub(r'"(?:[^"\\]|\\.)*"|[^][{}"]', "", text, flags=re.DOTALL):
        depth += 1 if mark in "[{" else -1
        deepest = max(deepest, depth)
    return deepest


def read_json(body: bytes) -> dict | None:
    """The object that a text of JSON is."""
    try:
        text = body.decode()
        if depth_of(text) > DEEPEST_JSON:
            return None
        value = json.loads(
            text, parse_constant=refuse_word, parse_int=whole_number, parse_float=broken_number, object_pairs_hook=paired
        )
    except (ValueError, RecursionError):
        return None
    return value if isinstance(value, dict) else None
