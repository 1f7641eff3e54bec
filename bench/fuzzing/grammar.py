"""Patches, calls and requests made at random, most of them good."""
import json
import random
import uuid
from dataclasses import dataclass, field

from fuzzing.mutations import MARKS, mutated
from reading.hall import LONGEST_NAME
from reading.texts import LONGEST_PATCH
from reading.wire import LONGEST_HEAD, LONGEST_TRAILERS, MEMBERS

IRIS = [
    "<http://e/s>", "<http://e/p>", "<http://e/o>", "<urn:x>", "<a:>", "<http://e/\u00e9>", "<http://e/\\u00E9>",
    "<http://e/\\U0001F600>", "<_:b>", "<x+y.z-1:>",
]
BLANKS = ["_:a", "_:a.b", "_:1", "_:a:b", "_:\u00e9", "_:a..b-", "<_:c>"]
LITERALS = [
    '"o"', '""', '"o"@en', '"o"@EN-gb-1', '"1"^^<http://www.w3.org/2001/XMLSchema#integer>', '"a\\tb\\"\\\\\\n\\r"',
    '"o"^^<http://www.w3.org/2001/XMLSchema#string>', '"\\u00E9\u00e9\\U0001F600"', '"o" ^^ <a:b>', '"\t\u0000"',
    "\"'\"", '"o"@a',
]
PREFIXES = ["ex", "ex:", ":", '"ex"', '""', 'e-x_1', '"ex"^^<http://www.w3.org/2001/XMLSchema#string>', '"\u00e9"']
BAD_TERMS = [
    "<a>", "<a b:c>", "<a:\\u0020>", "<a:\\x>", "_:", "_:-", "_x", '"\\q"', '"a\nb"', '"o"@', '"o"@en-', '"o"@1',
    '"o"^<a:b>', '"o"^^"a"', '"o"^^<b>', '"o"^^<http://www.w3.org/1999/02/22-rdf-syntax-ns#langString>', "<_:->",
    "<_:a.>", "x", "1", ",", '"\\uD800"', '"\\U00110000"', "<a:", '"o', "<_:\\u0061>", "<_\\u003Aa>", '"o" @en',
    '"o"^^<_:a>', "<a:b", ". .",
]
PATHS = [
    "/", "//", "/$", "/$/", "/$/x", "/None", "/None/1", "/%FF", "/None/run", "/$/run", "*", "", "/$/rpc", "/NAME/",
    "/NAME/x", "/NAME/run/1", "http:/x", "/a%2Fb", "/NAME/00000000000", "/NAME%00", "/%24/ping", "/\u00e9", "/$/PING",
]
METHODS = ["GET", "POST", "PUT", "OPTIONS", "get", "HEAD"]
OPERATIONS = [*MEMBERS, "fetch_id", "append", "pong"]
VERSIONS = [0, 1, 4294967295, 4294967296, -1, 1.0, "1"]
ODD_VALUES = [None, 1, -0.0, True, [], {}, [[{"a": "\ud83d\ude00"}]], 10**400, 1e300]
URIS = [
    "ab", "a b", "a:\u00e9", "", "a:\x7f", "a:\\u0041", *("http://e/" + "x" * length for length in (1014, 1015, 1016)),
    *("x" * length + " " for length in (1023, 1024, 1025)), "x" * 1024,
]
BAD_NAMES = ["", "x" * 63 + " ", "x" * 64 + " ", "x" * 65 + "\u00e9"]
EXTRA_FIELDS = [
    ("Content-Type", "application/rdf-patch"), ("Content-Type", "application/rdf-patch+thrift"),
    ("Content-Type", "Application/RDF-Patch+Thrift ; a=b"), ("Content-Encoding", "gzip"),
    ("Content-Encoding", "identity"), ("Content-Encoding", "Identity"), ("Content-Encoding", ""),
    ("Connection", "keep-alive"), ("Connection", "x, Close"), ("Connection", "close"), ("Host", "a"),
    ("Connection", "closes,"), ("Expect", "100-continue"), ("Expect", "100-Continue"), ("Expect", "x"),
    ("Accept", "*/*"), ("X", "\u00e9"), ("Transfer-Encoding", "chunked"), ("Content-Length", "0"),
    ("Transfer-Encoding", "gzip"), ("X", ""),
]
LENGTHS = [
    "+{}", "{:018}", "{:019}", "", "x", "{0} {0}", "{0},{0}", "4194304", "4194305", "999999999999999999", "-0",
    "0x{:x}",
]
EXTENSIONS = [
    ";", ";a", ";a=b", " ", "\t;\0\x7f", *("; " + "x" * length for length in (249, 250, 251, 252, 253)), " x", "g",
]
SPACES = [" ", "\n", "\t", "\r\n", "\r", "  ", " # c\n", "#\u00e9\r", ""]


@dataclass
class PatchTexts:
    """PatchTexts of patches, drawn at random."""

    draw: random.Random
    others: list[bytes]
    # How many of the terms may be any.
    roughness: float = 0.01

    def id(self) -> str:
        return str(uuid.UUID(int=self.draw.getrandbits(128)))

    def term(self, *kinds: list[str]) -> str:
        if self.draw.random() < self.roughness:
            return self.draw.choice(self.draw.choice((BAD_TERMS, IRIS, BLANKS, LITERALS, PREFIXES)))
        return self.draw.choice(self.draw.choice(kinds))

    def space(self) -> str:
        return " " if self.draw.random() < 0.9 else self.draw.choice(SPACES)

    def row(self, *parts: str) -> str:
        text = parts[0]
        for part in (*parts[1:], "."):
            # A part that ends with a letter is to stand apart from what comes next.
            text += (self.space() or " ") + part
        return text + (self.space() if self.draw.random() < 0.2 else "\n")

    def uuid_text(self, id: str) -> str:
        value = self.draw.choice((id, id, id, id.replace("-", ""), id.upper(), f"urn:uuid:{id}"))
        form = self.draw.choice(("<uuid:%s>", "<uuid:%s>", "<uuid:%s>", "<urn:uuid:%s>", '"%s"', '"{%s}"'))
        return form % (id if "{" in form else value)

    def change(self) -> str:
        code = self.draw.choice("AAAADD")
        graph = [self.term(IRIS, BLANKS)] if self.draw.random() < 0.3 else []
        if self.draw.random() < 0.2:
            prefix = self.term(PREFIXES)
            if self.draw.random() < 0.5:
                return self.row("PD", prefix, *graph)
            return self.row("PA", prefix, self.draw.choice(("<http://e/>", '"http://e/"', self.term(IRIS[:8]))), *graph)
        return self.row(code, self.term(IRIS, BLANKS), self.term(IRIS[:8]), self.term(IRIS, BLANKS, LITERALS), *graph)

    def headers(self, id: str, prev: str | None) -> list[str]:
        rows = [self.row("H", "id", self.uuid_text(id))]
        if prev is not None:
            rows.append(self.row("H", self.draw.choice(("prev", "prev", "previous")), self.uuid_text(prev)))
        if self.draw.random() < 0.1:
            rows.append(self.row("H", self.draw.choice(("k", "ID", "a-b_1")), self.term(IRIS, BLANKS, LITERALS)))
        return rows

    def patch(self, id: str, prev: str | None) -> bytes:
        """A patch, nearly always one that is well."""
        rows = self.headers(id, prev)
        for _ in range(self.draw.choice((0, 1, 1, 2))):
            begin, end = self.draw.choice((("TX", "TC"), ("TX", "TC"), ("TX", "TA"), ("", "")))
            changes = [self.change() for _ in range(self.draw.randrange(4))]
            rows += [self.row(begin), *changes, self.row(end)] if begin else changes
        if self.draw.random() < 0.06:
            self.disorder(rows)
        return "".join(rows).encode()

    def disorder(self, rows: list[str]) -> None:
        """Leaves a row out, writes one twice, or changes their order."""
        one, two = self.draw.randrange(len(rows)), self.draw.randrange(len(rows))
        way = self.draw.randrange(3)
        if way == 0:
            del rows[one]
        elif way == 1:
            rows.insert(two, rows[one])
        else:
            rows[one], rows[two] = rows[two], rows[one]

    def run(self, prev: str | None, length: int) -> tuple[bytes, str | None]:
        """A run behind an id, and the id of its last patch."""
        parts = []
        for _ in range(length):
            id = self.id()
            parts.append(self.patch(id, prev))
            prev = id
        return b"".join(parts), prev

    def wrong(self) -> bytes:
        """A text that is seldom a patch or a run."""
        if self.draw.random() < 0.2:
            parts = self.draw.choices(self.others, k=self.draw.randrange(4))
            return self.draw.choice((b"", b"\n", b" . ")).join(parts)
        rough = PatchTexts(self.draw, self.others, 0.2)
        text = b"".join(rough.patch(self.id(), None) for _ in range(self.draw.choice((1, 1, 2))))
        return mutated(text, self.draw, self.others) if self.draw.random() < 0.7 else text

    def long(self, text: bytes) -> bytes:
        """The text with a comment behind it, up to about the most bytes."""
        length = LONGEST_PATCH + self.draw.choice((-1, 0, 0, 1))
        return text + b"#" + b"x" * (length - len(text) - 1)


@dataclass
class Owner:
    """Whose names the requests of a connection have: its own source, and what it plans of its log. All names that it
    gives begin with the same word."""

    word: str
    name: str
    id: str
    uri: str
    head: str | None = None
    known: list[str] = field(default_factory=list)
    version: int = 0
    texts: list[bytes] = field(default_factory=list)


@dataclass
class RequestTexts:
    """Requests of one connection, drawn at random."""

    draw: random.Random
    owner: Owner
    streams: list[bytes]
    others: list[bytes]
    shared: list = field(default_factory=list)

    def __post_init__(self) -> None:
        self.texts = PatchTexts(self.draw, self.others)

    def stream(self, count: int) -> list[bytes]:
        """So many requests, of which some are changed."""
        found = []
        for _ in range(count):
            if self.draw.random() < 0.08:
                request = self.draw.choice(self.streams).replace(b"ABC", self.owner.name.encode())
            else:
                request = self.request()
            if self.draw.random() < 0.04:
                request = mutated(request, self.draw, self.others)
            found.append(request)
            if self.shared and self.draw.random() < 0.05:
                found.append(self.draw.choice(self.shared).request(self.texts))
        return found

    def request(self) -> bytes:
        kinds = {self.ping: 1, self.read: 3, self.append: 4, self.append_run: 2, self.wrong: 5, self.operation: 6, self.other: 2}
        method, path, body = self.draw.choices(list(kinds), list(kinds.values()))[0]()
        if body and self.draw.random() < 0.1:
            body = mutated(body, self.draw, self.others)
        return self.written(method, path, body)

    def ping(self) -> tuple[str, str, bytes]:
        return self.draw.choice(("GET", "POST", "HEAD")), "/$/ping", b""

    def read(self) -> tuple[str, str, bytes]:
        which = self.draw.choice(("", f"/{self.a_version()}", f"/{self.form(self.an_id())}"))
        return self.draw.choice(("GET", "GET", "GET", "POST", "DELETE")), f"/{self.owner.name}{which}", b""

    def other(self) -> tuple[str, str, bytes]:
        path = self.draw.choice(PATHS).replace("NAME", self.owner.name)
        return self.draw.choice(METHODS), path, self.draw.choice((b"", b"x", b"{}"))

    def wrong(self) -> tuple[str, str, bytes]:
        return "POST", f"/{self.owner.name}{self.draw.choice(('', '/run'))}", self.texts.wrong()

    def next_patch(self) -> bytes:
        """A patch that the log takes, as far as the plan goes, or one that it doesn't."""
        owner, draw = self.owner, self.draw
        if owner.texts and draw.random() < 0.1:
            return draw.choice(owner.texts)
        id = self.an_id() if draw.random() < 0.05 else self.texts.id()
        prev = owner.head if draw.random() < 0.9 else draw.choice((None, self.an_id(), self.texts.id()))
        text = self.texts.patch(id, prev)
        if draw.random() < 0.002:
            text = self.texts.long(text)
        if prev == owner.head and id not in owner.known and len(text) <= LONGEST_PATCH:
            self.planned([id], text)
        return text

    def planned(self, ids: list[str], text: bytes) -> None:
        self.owner.head = ids[-1]
        self.owner.known = (self.owner.known + ids)[-20:]
        self.owner.version += len(ids)
        self.owner.texts = (self.owner.texts + [text])[-10:]

    def append(self) -> tuple[str, str, bytes]:
        return "POST", f"/{self.owner.name}", self.next_patch()

    def next_run(self) -> bytes:
        owner, draw = self.owner, self.draw
        if owner.texts and draw.random() < 0.2:
            return b"".join(draw.sample(owner.texts, min(2, len(owner.texts))))
        text, last = self.texts.run(owner.head if draw.random() < 0.9 else self.an_id(), draw.choice((1, 2, 3, 8)))
        if last:
            self.planned([last], text)
        return text

    def append_run(self) -> tuple[str, str, bytes]:
        return "POST", f"/{self.owner.name}/run", self.next_run()

    def an_id(self) -> str:
        return self.draw.choice(self.owner.known) if self.owner.known and self.draw.random() < 0.9 else self.texts.id()

    def a_version(self) -> str:
        near = self.owner.version + self.draw.randrange(-3, 3)
        return str(self.draw.choice((max(near, 0), max(near, 0), 0, 1, f"{max(near, 0):010}", 4294967296, 9999999999)))

    def form(self, id: str) -> str:
        return self.draw.choice((id, id, id, id.replace("-", ""), f"{{{id}}}", f"urn:uuid:{id}", id.upper(), id[:-1], "{" + id))

    def operation(self) -> tuple[str, str, bytes]:
        return "POST", "/$/rpc", self.json_text(self.members())

    def members(self) -> dict:
        """An operation with its members, nearly always of their kinds."""
        draw, owner = self.draw, self.owner
        operation = draw.choice(OPERATIONS)
        if operation == "remove" and draw.random() < 0.97:
            operation = "version"
        name = owner.name if draw.random() < 0.9 else draw.choice(("None", "", "a/b", "$", ".", "\u00e9"))
        named: dict = {"operation": operation, "name": name}
        more = {
            "source_by_id": lambda: {"id": draw.choice((owner.id, self.form(owner.id), self.an_id()))},
            "source_by_uri": lambda: {"uri": draw.choice((owner.uri, owner.uri, "http://e/none"))},
            "create": self.created,
            "rename": lambda: {"new_name": self.new_name()},
            "append": lambda: {"patch": self.next_patch().decode(errors="replace")},
            "append_run": lambda: {"patches": self.next_run().decode(errors="replace")},
            "fetch_version": lambda: {"version": draw.choice((owner.version, owner.version + 1, *VERSIONS))},
            "fetch_id": lambda: {"id": self.form(self.an_id())},
        }
        named.update(more.get(operation, dict)())
        if draw.random() < 0.1:
            named.pop(draw.choice(list(named)))
        if draw.random() < 0.1:
            named[draw.choice((*named, "more"))] = draw.choice((f"{owner.word}.x", *ODD_VALUES))
        return named

    def created(self) -> dict:
        draw, owner = self.draw, self.owner
        uri = draw.choice((owner.uri, f"http://e/{draw.randrange(9)}", *URIS))
        id = {"id": draw.choice((owner.id, self.texts.id(), self.form(self.texts.id()), None))} if draw.random() < 0.7 else {}
        return {"name": self.new_name(), "uri": uri} | id

    def new_name(self) -> str:
        """A name that no other connection has."""
        draw, word = self.draw, self.owner.word
        good = f"{word}.{draw.randrange(4)}"
        longest = f"{word}.{'x' * (LONGEST_NAME - 1 - len(word))}"
        bad = (f"{word}/{word}", f".{word}", f"{word}\u00e9", f"{word}$", f"{longest}x", *BAD_NAMES)
        return draw.choice((word, good, good, good, longest, draw.choice(bad)))

    def json_text(self, members: dict) -> bytes:
        draw = self.draw
        separators = draw.choice(((",", ":"), (", ", ": "), ("\r\n,\t", " : ")))
        items = list(members.items())
        draw.shuffle(items)
        pairs = [json.dumps(name) + separators[1] + json.dumps(value, ensure_ascii=draw.random() < 0.5) for name, value in items]
        if draw.random() < 0.05:
            pairs.insert(0, json.dumps(draw.choice(items)[0]) + ":0")
        text = "{" + separators[0].join(pairs) + "}"
        return text.encode(errors="surrogatepass")

    def written(self, method: str, path: str, body: bytes) -> bytes:
        """The bytes of a request, in one of the forms of the wire."""
        draw = self.draw
        minor = 0 if draw.random() < 0.01 else 1
        line = f"{method} {self.target(path)} HTTP/1.{minor}".encode()
        fields = [] if draw.random() < 0.005 else [self.field("Host", "localhost")]
        while draw.random() < 0.07:
            fields.append(self.extra_field())
        if draw.random() < 0.003:
            fields += [b"X%d:" % number for number in range(draw.choice((60, 61, 62, 63, 64, 65)))]
        if body or draw.random() < 0.2:
            more, body = self.framed(body)
            fields += more
        draw.shuffle(fields)
        end = b"\n" if draw.random() < 0.02 else b"\r\n"
        front = draw.choice((b"\r\n", b"\n\r\n")) if draw.random() < 0.01 else b""
        if draw.random() < 0.003:
            length = len(front + line) + sum(len(each + end) for each in fields) + 2 * len(end)
            fields.append(b"X:" + b"x" * (LONGEST_HEAD + draw.choice((-1, 0, 1)) - length - 2 - len(end)))
        return front + end.join([line, *fields, b"", b""]) + body

    def target(self, path: str) -> str:
        draw, chance = self.draw, self.draw.random()
        if chance < 0.05:
            path = "".join(self.escaped(mark) for mark in path)
        path = path.replace("{", "%7B").replace("}", "%7d") if draw.random() < 0.7 else path
        if chance > 0.97:
            path = draw.choice(("http://localhost", "http://", "HTTP://localhost", "http://a?")) + path
        return path + draw.choice(("?", "?x=1/2", "#x")) if 0.9 < chance < 0.93 else path

    def escaped(self, mark: str) -> str:
        """A letter or a digit as it is, or as a path may also have it."""
        return f"%{ord(mark):02X}" if mark.isalnum() and mark.isascii() and self.draw.random() < 0.5 else mark

    def field(self, name: str, value: str) -> bytes:
        draw = self.draw
        if draw.random() < 0.1:
            name = draw.choice((name.lower(), name.upper(), name.swapcase()))
        return f"{name}:{draw.choice((' ', ' ', ' ', '', '  ', chr(9)))}{value}{draw.choice(('', '', '', ' ', chr(9)))}".encode()

    def extra_field(self) -> bytes:
        draw = self.draw
        return self.field(*draw.choice(EXTRA_FIELDS))

    def framed(self, body: bytes) -> tuple[list[bytes], bytes]:
        """The fields that tell where a body ends, and its bytes."""
        draw, chance = self.draw, self.draw.random()
        if chance < 0.7:
            return [self.field("Content-Length", f"{len(body)}")], body
        if chance < 0.72:
            length = draw.choice(LENGTHS).format(len(body))
            return [self.field("Content-Length", length)], body
        if chance < 0.725:
            return [], body
        return [self.field("Transfer-Encoding", draw.choice(("chunked", "Chunked", "CHUNKED")))], self.chunked(body)

    def chunked(self, body: bytes) -> bytes:
        draw, parts, at = self.draw, [], 0
        while at < len(body):
            length = min(draw.choice((1, 2, 16, 300, 4096, 70_000, 5_000_000)), len(body) - at)
            line = f"{length:x}" if draw.random() < 0.5 else f"{length:04X}"
            if draw.random() < 0.1:
                line += draw.choice(EXTENSIONS)
            parts += [line.encode("latin-1"), b"\r\n", body[at : at + length], b"\r\n" if draw.random() < 0.998 else b"\n"]
            at += length
            if length < 16 and draw.random() < 0.3:
                # Many chunks of a few bytes are slow to read, so the rest is one chunk.
                parts += [b"%x\r\n" % (len(body) - at), body[at:], b"\r\n"] if at < len(body) else []
                at = len(body)
        last = draw.choice(("0", "0", "0", "000", "0;x", "0" * 16, "0" * 17)) if draw.random() < 0.2 else "0"
        trailers = draw.choice((b"", b"", b"", b"A: b\r\n", b"A:\n", b"A b\r\n", b"a:\n" * draw.choice((5460, 5461)),
                                b"A:" + b"x" * (LONGEST_TRAILERS - 6 + draw.choice((-1, 0, 1))) + b"\r\n"))
        return b"".join(parts) + last.encode() + b"\r\n" + (trailers if draw.random() < 0.2 else b"") + b"\r\n"


def raw(draw: random.Random) -> bytes:
    """Bytes of no form."""
    return b"".join(draw.choice(MARKS) for _ in range(draw.randrange(1, 30)))
