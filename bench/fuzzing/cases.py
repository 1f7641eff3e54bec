"""The texts of the crates' worked examples, as seeds beside those written by hand."""
import re
from pathlib import Path

from fuzzing import edges
from measure import TOP

WORD = re.compile(r"'((?:[^'\\]|\\.)*)'|(\S+)")
ESCAPE = re.compile(rb"\\(x[0-9A-Fa-f]{2}|.)", re.DOTALL)
SHORT = {b"n": b"\n", b"r": b"\r", b"t": b"\t", b"0": b"\0"}
# Commands whose words are one stream of requests, and the longest text that is a seed.
STREAMS = ("requests", "talk", "steps", "fronts", "breaks", "turns")
LONGEST = 20_000


def unescaped(text: bytes) -> bytes:
    def meant(found: re.Match) -> bytes:
        mark = found[1]
        return bytes([int(mark[1:], 16)]) if len(mark) == 3 else SHORT.get(mark, mark)

    return ESCAPE.sub(meant, text)


def words_of(line: str, texts: dict[str, bytes]) -> list[bytes]:
    """The words of a line, with what its names stand for."""
    words = []
    for quoted, plain in WORD.findall(line):
        name = plain[1:] if plain.startswith("$") else ""
        words.append(texts[name] if name in texts else unescaped((quoted or plain).encode()))
    return words


def seeds_of(path: Path) -> tuple[set[bytes], set[bytes]]:
    """The streams of requests and the other texts of a file of cases."""
    texts: dict[str, bytes] = {}
    streams, others = set(), set()
    for line in path.read_text(encoding="utf-8").splitlines():
        command, *_ = line.split(" ", 1)
        words = words_of(line.split(" => ")[0], texts)[1:]
        if command == "text":
            texts[line.split(" ")[1]] = b"".join(words[1:])[:LONGEST]
        if command in STREAMS:
            streams.add(b"".join(words))
        elif command in ("call", "request") and len(words) > 1:
            streams.add(request_of(words))
        elif command != "text":
            others.update(word for word in words if len(word) > 3)
    return streams, others | set(texts.values())


def request_of(words: list[bytes]) -> bytes:
    """The request of a case that names its method and path."""
    front, *bodies = [b" ".join(words[:2]), *words[2:]] if b" " not in words[0] + words[1][:4] else words[1:]
    body = bodies[0] if bodies else b""
    return front + b" HTTP/1.1\r\nHost: a\r\nContent-Length: %d\r\n\r\n" % len(body) + body


def seeds() -> list[list[bytes]]:
    """All streams of requests and all other texts, each once and in order. Those that rename are left out, since two
    connections might take one name."""
    streams, others = set(edges.streams()), set(edges.texts())
    for name in ("http_cases", "rpc_cases", "patch_cases", "program_cases"):
        found = seeds_of(TOP / "crates" / name / "stdin")
        streams |= found[0]
        others |= found[1]
    kinds = ({text for text in streams if b"new_name" not in text}, others)
    return [sorted(text for text in kind if 0 < len(text) <= LONGEST) for kind in kinds]
