"""Rows of patches, read by the grammar of docs/FORMATS.md: terms with their values, rows with their places.

What is refused here is refused by the server too. It tells the kind of a fault; here its place is told.
"""
from __future__ import annotations

import re
from collections.abc import Iterator
from dataclasses import dataclass
from typing import NoReturn

from rdfdelta import errors

XSD_STRING = "http://www.w3.org/2001/XMLSchema#string"
RDF_LANG_STRING = "http://www.w3.org/1999/02/22-rdf-syntax-ns#langString"


@dataclass(frozen=True, slots=True)
class Iri:
    value: str

    def __str__(self) -> str:
        return f"<{self.value}>"


@dataclass(frozen=True, slots=True)
class Blank:
    label: str

    def __str__(self) -> str:
        return f"_:{self.label}"


@dataclass(frozen=True, slots=True)
class Literal:
    """A text with a language tag or a datatype, or neither, as a plain literal is."""

    value: str
    language: str | None = None
    datatype: str | None = None

    def __str__(self) -> str:
        quoted = '"' + self.value.translate(_ESCAPED) + '"'
        if self.language is not None:
            return f"{quoted}@{self.language}"
        return quoted if self.datatype is None else f"{quoted}^^<{self.datatype}>"


Term = Iri | Blank | Literal


@dataclass(frozen=True, slots=True)
class Row:
    """A row: its code, its parts, its text as it was written, and the byte and the line where it begins.

    The first part of H is its key and that of PA and PD the prefix, both as plain literals; the IRI of PA is an IRI.
    """

    code: str
    parts: tuple[Term, ...]
    text: str
    at: int
    line: int


_ESCAPED = str.maketrans({'"': '\\"', "\\": "\\\\", "\n": "\\n", "\r": "\\r"})
_UNESCAPED = {"t": "\t", "b": "\b", "n": "\n", "r": "\r", "f": "\f", '"': '"', "'": "'", "\\": "\\"}

_CODE_POINT = r"\\u[0-9A-Fa-f]{4}|\\U[0-9A-Fa-f]{8}"
_NO_IRI = re.compile(r"[\x00-\x20<>\"{}|^`\\]")
_SCHEME = re.compile(r"[A-Za-z][A-Za-z0-9+.-]*:")
_LABEL_FIRST = (
    "A-Za-z_:0-9\u00c0-\u00d6\u00d8-\u00f6\u00f8-\u02ff\u0370-\u037d\u037f-\u1fff\u200c-\u200d\u2070-\u218f"
    "\u2c00-\u2fef\u3001-\ud7ff\uf900-\ufdcf\ufdf0-\ufffd\U00010000-\U000effff"
)
_LABEL_NEXT = _LABEL_FIRST + "\u00b7\u0300-\u036f\u203f-\u2040-"
_LABEL = rf"[{_LABEL_FIRST}](?:[{_LABEL_NEXT}.]*[{_LABEL_NEXT}])?"
_WHOLE_LABEL = re.compile(_LABEL)
_IRI_CHARACTERS = r"[^\x00-\x20<>\"{}|^`\\]*"
_IRI = rf"<({_IRI_CHARACTERS}(?:(?:{_CODE_POINT}){_IRI_CHARACTERS})*)>"
_STRING_CHARACTERS = r"[^\"\\\n\r]*"
_STRING = rf"\"({_STRING_CHARACTERS}(?:(?:\\[tbnrf\"'\\]|{_CODE_POINT}){_STRING_CHARACTERS})*)\""
_TERM = re.compile(
    rf"{_IRI}|_:({_LABEL})"
    rf"|{_STRING}(?:@([A-Za-z]+(?:-[A-Za-z0-9]+)*)|[ \t]*\^\^[ \t]*{_IRI})?"
)
_ESCAPE = re.compile(rf"{_CODE_POINT}|\\.")
_BETWEEN = re.compile(r"[ \t\r\n]*(?:#[^\r\n]*[ \t\r\n]*)*")
_CODE = re.compile(r"(TX|TC|TA|PA|PD|A|D|H)(?![A-Za-z])")
_KEY = re.compile(r"[A-Za-z][A-Za-z0-9_-]*")
_PREFIX_WORD = re.compile(r"([A-Za-z][A-Za-z0-9_-]*)?:|([A-Za-z][A-Za-z0-9_-]*)")
# A quad as it is printed: no escape is used that isn't needed, and no datatype is told that a literal has anyway.
_PRINTED_IRI = rf"<(?=[A-Za-z][A-Za-z0-9+.-]*:){_IRI_CHARACTERS}>"
_PRINTED_LITERAL = (
    rf'"[^"\\\n\r]*(?:\\["\\nr][^"\\\n\r]*)*"'
    rf"(?:@[a-z]+(?:-[a-z0-9]+)*|\^\^(?!<{re.escape(XSD_STRING)}>|<{re.escape(RDF_LANG_STRING)}>){_PRINTED_IRI})?"
)
_NODE = rf"(?:{_PRINTED_IRI}|_:{_LABEL})"
_PRINTED = re.compile(rf"{_NODE} {_PRINTED_IRI} (?:{_NODE}|{_PRINTED_LITERAL})(?: {_NODE})? \.")
# How many terms stand behind a code, at least and at most; a key or a prefix is the first part of its row.
_COUNTS = {"H": (2, 2), "TX": (0, 0), "TC": (0, 0), "TA": (0, 0), "PA": (2, 3), "PD": (1, 2), "A": (3, 4), "D": (3, 4)}


def is_iri(value: str) -> bool:
    return _SCHEME.match(value) is not None and _NO_IRI.search(value) is None


def is_label(value: str) -> bool:
    return _WHOLE_LABEL.fullmatch(value) is not None


def is_printed(line: str) -> bool:
    """Whether this is a quad's canonical line, but for its end."""
    return _PRINTED.fullmatch(line) is not None


class _Reader:
    """Reads rows of one text, from left to right."""

    def __init__(self, text: str) -> None:
        self.text = text
        self.at = 0
        self._counted, self._bytes, self._lines = 0, 0, 1

    def place_of(self, at: int) -> tuple[int, int]:
        """The byte and the line of a character behind those that were asked for before."""
        passed = self.text[self._counted:at]
        self._bytes += len(passed.encode())
        self._lines += passed.count("\n")
        self._counted = at
        return self._bytes, self._lines

    def refuse(self, at: int, what: str) -> NoReturn:
        line = 1 + self.text.count("\n", 0, at)
        raise errors.BadPatch(len(self.text[:at].encode()), line, what)

    def skip(self) -> None:
        """Passes over what may stand between two parts, most often one space."""
        if self.text.startswith(" ", self.at):
            self.at += 1
            if self.text.startswith(("<", '"', ".", "_"), self.at):
                return
        found = _BETWEEN.match(self.text, self.at)
        self.at = found.end() if found else self.at

    def unescape(self, at: int, text: str) -> str:
        def character(found: re.Match[str]) -> str:
            escape = found[0]
            if escape[1] not in "uU":
                return _UNESCAPED[escape[1]]
            code = int(escape[2:], 16)
            if 0xD800 <= code < 0xE000 or code > 0x10FFFF:
                self.refuse(at, "an escape of no character")
            return chr(code)

        return _ESCAPE.sub(character, text) if "\\" in text else text

    def iri(self, at: int, text: str) -> Iri:
        """The IRI of what stands in brackets, which the pattern of terms has found there."""
        if "\\" in text:
            return self.named(at, self.unescape(at, text))
        if not _SCHEME.match(text):
            self.refuse(at, "an IRI without a scheme")
        return Iri(text)

    def bracketed(self, at: int, text: str) -> Iri | Blank:
        """The IRI or the blank node of what stands in brackets."""
        if not text.startswith(("_", "\\")):
            return self.iri(at, text)
        value = self.unescape(at, text)
        if not value.startswith("_:"):
            return self.iri(at, text)
        if not is_label(value[2:]):
            self.refuse(at, "no label of a blank node")
        return Blank(value[2:])

    def named(self, at: int, value: str) -> Iri:
        if not is_iri(value):
            self.refuse(at, "an IRI with a character that none holds, or without a scheme")
        return Iri(value)

    def term(self) -> Term:
        found = _TERM.match(self.text, self.at)
        if found is None:
            self.refuse(self.at, "no term stands here")
        at, self.at = self.at, found.end()
        iri, label, value, language, datatype = found.groups()
        if iri is not None:
            return self.bracketed(at, iri)
        if value is None:
            return Blank(label)
        value = self.unescape(at, value)
        if language is not None:
            return Literal(value, language=language.lower())
        if datatype is None:
            return Literal(value)
        kind = self.iri(at, datatype).value
        if kind == RDF_LANG_STRING:
            self.refuse(at, "rdf:langString without a tag")
        return Literal(value, datatype=None if kind == XSD_STRING else kind)

    def first_part(self, code: str) -> Term:
        """The key of a header, a prefix in quotes or without, or a term."""
        found = {"H": _KEY, "PA": _PREFIX_WORD, "PD": _PREFIX_WORD}.get(code, _TERM).match(self.text, self.at)
        if code in ("A", "D") or (found is None and code != "H"):
            return self.term()
        if found is None:
            self.refuse(self.at, "no key stands here")
        self.at = found.end()
        return Literal(found[0].removesuffix(":"))

    def row(self) -> Row:
        found = _CODE.match(self.text, self.at)
        if found is None:
            self.refuse(self.at, "no row begins here")
        begin, code, parts = self.at, found[1], list[Term]()
        self.at = found.end()
        least, most = _COUNTS[code]
        for _ in range(most + 1):
            self.skip()
            if self.text.startswith(".", self.at):
                break
            if len(parts) == most:
                self.refuse(self.at, "a dot is missing, or a term too many")
            parts.append(self.term() if parts else self.first_part(code))
        if len(parts) < least:
            self.refuse(self.at, "a part is missing")
        self.at += 1
        self.check(begin, code, parts)
        return Row(code, tuple(parts), self.text[begin:self.at], *self.place_of(begin))

    def check(self, at: int, code: str, parts: list[Term]) -> None:
        """Whether each term may stand where it does."""
        if code in ("PA", "PD"):
            plain = isinstance(parts[0], Literal) and parts[0].language is None and parts[0].datatype is None
            if code == "PA" and isinstance(parts[1], Literal) and parts[1] == Literal(parts[1].value):
                parts[1] = self.named(at, parts[1].value)
            good = plain and (code == "PD" or isinstance(parts[1], Iri))
            graph = parts[2:] if code == "PA" else parts[1:]
        elif code in ("A", "D"):
            good = not isinstance(parts[0], Literal) and isinstance(parts[1], Iri)
            graph = parts[3:]
        else:
            return
        if not good or any(isinstance(term, Literal) for term in graph):
            self.refuse(at, "a term stands where it may not")


def read_rows(text: bytes) -> Iterator[Row]:
    """The rows of a text; the first fault comes when it is reached."""
    try:
        reader = _Reader(text.decode("utf-8"))
    except UnicodeDecodeError as error:
        line = 1 + text.count(b"\n", 0, error.start)
        raise errors.BadPatch(error.start, line, "not UTF-8") from None
    reader.skip()
    while reader.at < len(reader.text):
        yield reader.row()
        reader.skip()
