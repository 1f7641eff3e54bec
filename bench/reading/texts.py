"""Terms, rows, patches and runs, as docs/FORMATS.md states them."""
import re
from collections.abc import Iterator
from dataclasses import dataclass, field

LONGEST_PATCH = 4_194_304
XSD_STRING = "http://www.w3.org/2001/XMLSchema#string"
LANG_STRING = "http://www.w3.org/1999/02/22-rdf-syntax-ns#langString"

# What no IRI has, and what an IRI begins with.
IRI_RUN = re.compile('[^\\x00-\\x20<>"{}|^`\\\\]*')
SCHEME = re.compile("[A-Za-z][A-Za-z0-9+.-]*:")
STRING_RUN = re.compile('[^"\\\\\\r\\n]*')
LETTERS_OR_DIGITS = re.compile("[A-Za-z0-9]+")
LETTERS, KEY = re.compile("[A-Za-z]+"), re.compile("[A-Za-z][A-Za-z0-9_-]*")
BLANKS, SPACE = re.compile("[ \\t]*"), re.compile("(?:[ \\t\\r\\n]+|#[^\\r\\n]*)*")
LINES, REST_OF_LINE = SPACE, re.compile("[ \\t]*(?:#[^\\r\\n]*)?")
BEGINS_TERM = '<_"'
BASE = (
    "A-Za-z\u00c0-\u00d6\u00d8-\u00f6\u00f8-\u02ff\u0370-\u037d\u037f-\u1fff\u200c-\u200d\u2070-\u218f\u2c00-\u2fef"
    "\u3001-\ud7ff\uf900-\ufdcf\ufdf0-\ufffd\U00010000-\U000effff"
)
FIRST = re.compile(f"[{BASE}_:0-9]")
CHARACTER = f"{BASE}_:0-9\u00b7\u0300-\u036f\u203f-\u2040-"
LABEL = re.compile(f"{FIRST.pattern}(?:[{CHARACTER}.]*[{CHARACTER}])?")
ESCAPES = {"t": "\t", "b": "\b", "n": "\n", "r": "\r", "f": "\f", '"': '"', "'": "'", "\\": "\\"}
HEX = frozenset("0123456789abcdefABCDEF")
HYPHENATED = "[0-9a-f]{8}(?:-[0-9a-f]{4}){3}-[0-9a-f]{12}"
UUID = re.compile(f"[0-9a-f]{{32}}|{HYPHENATED}|\\{{{HYPHENATED}\\}}|urn:uuid:{HYPHENATED}")


class Fault(Exception):
    """The first fault of a text: its kind, and its place in bytes."""

    def __init__(self, kind: str, at: int):
        super().__init__(kind, at)
        self.kind, self.at = kind, at


class NoRun(Exception):
    """Patches that are no run: the number of the first one that doesn't go on, or 0 where there is none."""

    def __init__(self, at: int):
        super().__init__(at)
        self.at = at


@dataclass(frozen=True)
class Iri:
    value: str

    def written(self) -> str:
        return f"<{self.value}>"


@dataclass(frozen=True)
class Blank:
    label: str

    def written(self) -> str:
        return f"_:{self.label}"


@dataclass(frozen=True)
class Literal:
    text: str
    datatype: str = XSD_STRING
    tag: str = ""

    def written(self) -> str:
        text = self.text.replace("\\", "\\\\").replace('"', '\\"').replace("\n", "\\n").replace("\r", "\\r")
        if self.tag:
            return f'"{text}"@{self.tag}'
        return f'"{text}"' if self.datatype == XSD_STRING else f'"{text}"^^<{self.datatype}>'


Term = Iri | Blank | Literal


@dataclass(frozen=True)
class Row:
    """A row with its place in bytes. The parts of H are its key and a term, those of PA and PD begin with the prefix."""

    code: str
    parts: tuple
    at: int


def uuid(text: str) -> str | None:
    """The id of a text in one of the four forms, with hyphens and in lower case."""
    # Of letters out of ASCII some have one of ASCII in lower case.
    if not text.isascii() or not UUID.fullmatch(text.lower()):
        return None
    digits = re.sub("urn:uuid:|[^0-9a-f]", "", text.lower())
    return "-".join((digits[:8], digits[8:12], digits[12:16], digits[16:20], digits[20:]))


def has_scheme(iri: str) -> bool:
    return SCHEME.match(iri) is not None


class Reader:
    """A text that is read from left to right, in characters; faults tell places in bytes."""

    def __init__(self, data: bytes):
        self.length, self.broken = len(data), False
        try:
            self.text = data.decode()
        except UnicodeDecodeError as fault:
            self.text, self.broken = data[: fault.start].decode(), True
        self.is_ascii = self.text.isascii()

    def byte(self, at: int) -> int:
        return at if self.is_ascii else len(self.text[:at].encode())

    def fault(self, kind: str, at: int) -> Fault:
        return Fault(kind, self.byte(at))

    def peek(self, at: int) -> str:
        """The character there; empty at the end. Bytes that aren't UTF-8 are a fault once they are looked at."""
        if at < len(self.text):
            return self.text[at]
        if self.broken:
            raise self.fault("NotUtf8", at)
        return ""

    def goes_on(self, at: int, character: str) -> bool:
        """Whether a term goes on with this character. Bytes that aren't UTF-8 end it as others do."""
        return self.text.startswith(character, at)

    def need(self, at: int) -> str:
        """The character there, where the text may not end."""
        character = self.peek(at)
        if not character:
            raise Fault("Truncated", self.length)
        return character

    def run(self, pattern: re.Pattern, at: int) -> int:
        """Where the longest front of this form ends that may be empty."""
        found = pattern.match(self.text, at)
        return found.end() if found else at

    def space(self, at: int) -> int:
        """The first place from there on that is no blank."""
        return self.run(BLANKS, at)

    def escape(self, at: int, short: dict[str, str]) -> tuple[str, int]:
        """What a backslash stands for."""
        letter = self.need(at + 1)
        if letter in short:
            return short[letter], at + 2
        if letter not in "uU":
            raise self.fault("BadEscape", at)
        end = at + (6 if letter == "u" else 10)
        for place in range(at + 2, end):
            if self.need(place) not in HEX:
                raise self.fault("BadEscape", at)
        number = int(self.text[at + 2 : end], 16)
        if number > 0x10FFFF or 0xD800 <= number <= 0xDFFF:
            raise self.fault("BadEscape", at)
        return chr(number), end

    def iri_text(self, at: int) -> tuple[str, int]:
        """What stands in the brackets that begin there, and the place behind them."""
        parts, at = [], at + 1
        while True:
            end = self.run(IRI_RUN, at)
            parts.append(self.text[at:end])
            at, character = end, self.need(end)
            if character == ">":
                return "".join(parts), at + 1
            if character != "\\":
                raise self.fault("BadIri", at)
            character, behind = self.escape(at, {})
            if not IRI_RUN.fullmatch(character):
                raise self.fault("BadIri", at)
            parts.append(character)
            at = behind

    def iri(self, at: int) -> tuple[Iri, int]:
        value, end = self.iri_text(at)
        if not has_scheme(value):
            raise self.fault("RelativeIri", at)
        return Iri(value), end

    def bracketed(self, at: int) -> tuple[Iri | Blank, int]:
        return self.iri(at)

    def blank(self, at: int) -> tuple[Blank, int]:
        if self.need(at + 1) != ":" or not FIRST.match(self.need(at + 2)):
            raise self.fault("BadLabel", at)
        end = self.run(LABEL, at + 2)
        return Blank(self.text[at + 2 : end]), end

    def string(self, at: int) -> tuple[str, int]:
        parts, at = [], at + 1
        while True:
            end = self.run(STRING_RUN, at)
            parts.append(self.text[at:end])
            at, character = end, self.need(end)
            if character == '"':
                return "".join(parts), at + 1
            if character != "\\":
                raise self.fault("BadToken", at)
            character, at = self.escape(at, ESCAPES)
            parts.append(character)

    def tag(self, at: int) -> tuple[str, int]:
        """The tag behind an `@`, in lower case."""
        end, part = at, LETTERS
        while end == at or self.goes_on(end, "-"):
            self.need(end + 1)
            behind = self.run(part, end + 1)
            if behind == end + 1:
                raise self.fault("BadLang", at)
            end, part = behind, LETTERS_OR_DIGITS
        return self.text[at + 1 : end].lower(), end

    def literal(self, at: int) -> tuple[Literal, int]:
        text, end = self.string(at)
        if self.goes_on(end, "@"):
            tag, end = self.tag(end)
            return Literal(text, LANG_STRING, tag), end
        mark = self.run(BLANKS, end)
        if not self.goes_on(mark, "^"):
            return Literal(text), end
        if self.need(mark + 1) != "^":
            raise self.fault("BadToken", mark + 1)
        mark = self.run(BLANKS, mark + 2)
        if self.need(mark) != "<":
            raise self.fault("BadToken", mark)
        datatype, end = self.iri(mark)
        if datatype.value == LANG_STRING:
            raise self.fault("LangStringWithoutTag", at)
        return Literal(text, datatype.value), end

    def term(self, at: int) -> tuple[Term, int]:
        """The term that begins there with one of the bytes that a term begins with."""
        read = {"<": self.bracketed, "_": self.blank, '"': self.literal}
        return read[self.text[at]](at)

    def part(self, at: int, kinds: tuple[type, ...]) -> tuple[Term, int]:
        """A term of one of these kinds that is needed next."""
        at = self.space(at)
        character = self.need(at)
        if character not in BEGINS_TERM:
            raise self.fault(self.kind_of_no_term(character), at)
        term, end = self.term(at)
        if not isinstance(term, kinds):
            raise self.fault("BadPosition", at)
        return term, end

    def kind_of_no_term(self, character: str) -> str:
        return "BadToken"

    def graph(self, at: int) -> tuple[tuple, int]:
        """The graph, where a term stands next."""
        if self.need(self.space(at)) not in BEGINS_TERM:
            return (), at
        term, end = self.part(at, (Iri, Blank))
        return (term,), end

    def quad(self, at: int) -> tuple[tuple, int]:
        subject, at = self.part(at, (Iri, Blank))
        predicate, at = self.part(at, (Iri,))
        thing, at = self.part(at, (Iri, Blank, Literal))
        graph, end = self.graph(at)
        return (subject, predicate, thing, *graph), end


class DocumentReader(Reader):
    """The statements of an N-Quads document."""

    def statements(self) -> Iterator[tuple]:
        at = 0
        while self.peek(at := self.run(LINES, at)):
            quad, at = self.quad(at)
            at = self.space(at)
            if self.need(at) != ".":
                raise self.fault("MissingDot", at)
            at = self.run(REST_OF_LINE, at + 1)
            if self.peek(at) not in ("", "\r", "\n"):
                raise self.fault("BadToken", at)
            yield quad


class RowReader(Reader):
    """Rows one after another."""

    def space(self, at: int) -> int:
        """The first place from there on that is neither white space nor in a comment."""
        end = self.run(SPACE, at)
        self.peek(end)
        return end

    def bracketed(self, at: int) -> tuple[Iri | Blank, int]:
        """An IRI, or a blank node in brackets."""
        value, end = self.iri_text(at)
        if not value.startswith("_:"):
            return self.iri(at)
        if not LABEL.fullmatch(value, 2):
            raise self.fault("BadLabel", at)
        return Blank(value[2:]), end

    def kind_of_no_term(self, character: str) -> str:
        return "WrongCount" if character == "." else "BadToken"

    def rows(self) -> Iterator[Row]:
        at = self.space(0)
        while self.peek(at):
            row, at = self.row(at)
            yield row
            at = self.space(at)

    def row(self, at: int) -> tuple[Row, int]:
        """The row that begins there, and the place behind its dot."""
        end = self.run(LETTERS, at)
        if end == at:
            raise self.fault("BadToken", at)
        if end == len(self.text) and not self.broken:
            raise Fault("Truncated", self.length)
        code = self.text[at:end]
        read = {"H": self.header, "PA": self.prefix_set, "PD": self.prefix_removed, "A": self.quad, "D": self.quad}
        if code in ("TX", "TC", "TA"):
            parts: tuple = ()
        elif code in read:
            parts, end = read[code](end)
        else:
            raise self.fault("UnknownCode", at)
        return Row(code, parts, self.byte(at)), self.dot(end, "MissingDot" if parts else "BadToken")

    def dot(self, at: int, kind: str) -> int:
        """The place behind the dot that is needed next."""
        at = self.space(at)
        character = self.need(at)
        if character == ".":
            return at + 1
        raise self.fault("WrongCount" if character in BEGINS_TERM else kind, at)

    def header(self, at: int) -> tuple[tuple, int]:
        at = self.space(at)
        end = self.run(KEY, at)
        character = self.need(end)
        if end == at:
            raise self.fault("WrongCount" if character == "." else "BadToken", at)
        term, behind = self.part(end, (Iri, Blank, Literal))
        return (self.text[at:end], term), behind

    def prefix(self, at: int) -> tuple[str, int]:
        at = self.space(at)
        character = self.need(at)
        if character not in BEGINS_TERM:
            end = self.run(KEY, at)
            if self.need(end) == ":":
                return self.text[at:end], end + 1
            if end == at:
                raise self.fault("WrongCount" if character == "." else "BadToken", at)
            return self.text[at:end], end
        term, end = self.part(at, (Literal,))
        if term.datatype != XSD_STRING:
            raise self.fault("BadPosition", at)
        return term.text, end

    def prefix_set(self, at: int) -> tuple[tuple, int]:
        prefix, at = self.prefix(at)
        at = self.space(at)
        term, end = self.part(at, (Iri, Literal))
        if isinstance(term, Literal):
            if term.datatype != XSD_STRING:
                raise self.fault("BadPosition", at)
            if not IRI_RUN.fullmatch(term.text):
                raise self.fault("BadIri", at)
            if not has_scheme(term.text):
                raise self.fault("RelativeIri", at)
            term = Iri(term.text)
        graph, end = self.graph(end)
        return (prefix, term, *graph), end

    def prefix_removed(self, at: int) -> tuple[tuple, int]:
        prefix, at = self.prefix(at)
        graph, end = self.graph(at)
        return (prefix, *graph), end


@dataclass
class Patch:
    """A patch with its place in the stream that it came in."""

    at: int
    text: bytes = b""
    id: str | None = None
    prev: str | None = None
    rows: list[Row] = field(default_factory=list)
    is_open: bool = False
    has_others: bool = False

    def take(self, row: Row) -> None:
        """Takes a row more, or raises its fault."""
        self.rows.append(row)
        if row.code == "H":
            self.take_header(row)
            return
        self.has_others = True
        if row.code == "TX" and self.is_open:
            raise Fault("Nested", row.at)
        if row.code in ("TC", "TA") and not self.is_open:
            raise Fault("NotInBlock", row.at)
        self.is_open = row.code == "TX" or self.is_open and row.code not in ("TC", "TA")

    def take_header(self, row: Row) -> None:
        key, term = row.parts
        name = {"id": "id", "prev": "prev", "previous": "prev"}.get(key)
        if name:
            id = id_of(term)
            if id is None:
                raise Fault("BadId", row.at)
            if getattr(self, name) is not None:
                raise Fault("TwoIds" if name == "id" else "TwoPrevs", row.at)
            setattr(self, name, id)
        if self.has_others:
            raise Fault("LateHeader", row.at)

    def end(self, at: int) -> None:
        """The patch's text ends there."""
        if self.is_open:
            raise Fault("OpenBlock", at)
        if self.id is None:
            raise Fault("NoId", at)


def id_of(term: Term) -> str | None:
    """The id that a header's value names."""
    if isinstance(term, Literal):
        return uuid(term.text) if term.datatype == XSD_STRING else None
    if isinstance(term, Blank):
        return None
    for front in ("uuid:", "urn:uuid:"):
        if term.value.startswith(front):
            return uuid(term.value[len(front) :])
    return None


def read_patch(text: bytes) -> Patch:
    """The patch that a text is. Raises the text's first fault."""
    if len(text) > LONGEST_PATCH:
        raise Fault("TooLong", len(text))
    patch = Patch(0, text)
    for row in RowReader(text).rows():
        patch.take(row)
    patch.end(len(text))
    return patch


def read_term(word: bytes) -> Term:
    """The term of N-Quads that a whole text is. Raises a fault where it is none."""
    reader = Reader(word)
    if reader.peek(0) not in tuple(BEGINS_TERM):
        raise reader.fault("BadToken", 0)
    term, end = reader.term(0)
    if reader.peek(end):
        raise reader.fault("BadToken", end)
    return term


def read_document(text: bytes) -> bytes:
    """The canonical form of an N-Quads document. Raises its first fault."""
    return joined(set(DocumentReader(text).statements()))


def read_stream(text: bytes) -> list[Patch]:
    """The patches of a stream. Raises its first fault."""
    patches: list[Patch] = []
    for row in RowReader(text).rows():
        last = patches[-1] if patches else None
        is_id = row.code == "H" and row.parts[0] == "id"
        if last is None or row.code == "H" and last.has_others or is_id and last.id is not None:
            if last is not None:
                last.end(row.at)
                last.text = text[last.at : row.at]
            last = Patch(row.at if patches else 0)
            patches.append(last)
        last.take(row)
    if patches:
        patches[-1].end(len(text))
        patches[-1].text = text[patches[-1].at :]
    return patches


def read_run(text: bytes) -> list[Patch]:
    """The patches of a run. Raises the first fault of its stream, or that they are no run."""
    if len(text) > LONGEST_PATCH:
        raise Fault("TooLong", len(text))
    patches = read_stream(text)
    if not patches:
        raise NoRun(0)
    ids = {patches[0].id}
    for number, (before, patch) in enumerate(zip(patches, patches[1:]), 2):
        if patch.prev != before.id or patch.id in ids:
            raise NoRun(number)
        ids.add(patch.id)
    return patches


class Dataset:
    """The quads and prefixes that patches make."""

    def __init__(self) -> None:
        self.quads: set[tuple] = set()
        self.prefixes: dict[tuple, Iri] = {}

    def apply(self, patch: Patch) -> None:
        """Makes the changes of a patch, but those of blocks that TA ends."""
        block: list[Row] | None = None
        for row in patch.rows:
            if row.code == "TX":
                block = []
            elif row.code in ("TC", "TA"):
                for change in block if row.code == "TC" and block else []:
                    self.change(change)
                block = None
            elif block is not None:
                block.append(row)
            else:
                self.change(row)

    def change(self, row: Row) -> None:
        if row.code == "A":
            self.quads.add(row.parts)
        elif row.code == "D":
            self.quads.discard(row.parts)
        elif row.code == "PA":
            self.prefixes[(row.parts[0], *row.parts[2:])] = row.parts[1]
        elif row.code == "PD":
            self.prefixes.pop(row.parts, None)

    def lines(self, pattern: tuple = (None, None, None, None)) -> bytes:
        """The canonical lines of the quads that match a graph, which may be `default`, a subject, a predicate and an object."""
        return joined(quad for quad in self.quads if matches(quad, pattern))

    def prefix_rows(self) -> bytes:
        """The canonical rows that set the prefixes."""
        rows = []
        for (prefix, *graph), iri in self.prefixes.items():
            terms = [Literal(prefix), iri, *graph]
            rows.append(f"PA {' '.join(term.written() for term in terms)} .\n".encode())
        return b"".join(sorted(rows))


def matches(quad: tuple, pattern: tuple) -> bool:
    graph = quad[3] if len(quad) == 4 else "default"
    return all(wanted is None or wanted == found for wanted, found in zip(pattern, (graph, *quad[:3])))


def joined(quads) -> bytes:
    lines = [f"{' '.join(term.written() for term in quad)} .\n".encode() for quad in quads]
    return b"".join(sorted(lines))
