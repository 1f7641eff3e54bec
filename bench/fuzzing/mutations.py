"""Bytes changed at random, and how bytes that show a difference are made fewer."""
import random
import re
import time
from collections.abc import Callable

MARKS = [
    b"\0", b"\r", b"\n", b"\r\n", b" ", b"\t", b":", b"/", b"%", b"?", b"#", b"{", b"}", b'"', b"\\", b"<", b">",
    b"_:", b".", b"@", b"^^", b"\x7f", b"\x80", b"\xc3", b"\xff", b"\xed\xa0\x80", b"\xf4\x90\x80\x80", b"\xc3\xa9",
    b"\xf0\x9f\x98\x80", b"\\u0041", b"\\uD800", b"\\U0010FFFF", b"\\U00110000", b",", b"[", b"null", b"run", b"%24",
    b"%2F", b"TX .", b"TC .", b"TA .",
]
NUMBERS = [
    b"0", b"1", b"-1", b"+5", b"00", b"007", b"1e0", b"1.0", b"255", b"256", b"257", b"65535", b"65536", b"4194303",
    b"4194304", b"4194305", b"4294967295", b"4294967296", b"18446744073709551615", b"18446744073709551616",
    b"999999999999999999", b"9999999999999999999", b"400000", b"400001", b"FFFFFFFFFFFFFFFF", b"10000000000000000",
]
NUMBER = re.compile(rb"[0-9]+")


def flip(data: bytes, draw: random.Random) -> bytes:
    at = draw.randrange(len(data))
    return data[:at] + bytes([data[at] ^ 1 << draw.randrange(8)]) + data[at + 1 :]


def put(data: bytes, draw: random.Random) -> bytes:
    at = draw.randrange(len(data) + 1)
    return data[:at] + draw.choice(MARKS) + data[at + draw.randrange(2) :]


def cut(data: bytes, draw: random.Random) -> bytes:
    at, length = draw.randrange(len(data)), draw.choice((1, 2, 4, 16, 64))
    return data[:at] + data[at + length :]


def end(data: bytes, draw: random.Random) -> bytes:
    return data[: draw.randrange(len(data))]


def double(data: bytes, draw: random.Random) -> bytes:
    at, length = draw.randrange(len(data)), draw.choice((1, 2, 8, 32, 128))
    return data[: at + length] + data[at : at + length] * draw.choice((1, 1, 2, 70)) + data[at + length :]


def swap(data: bytes, draw: random.Random) -> bytes:
    one, two, three = sorted(draw.randrange(len(data) + 1) for _ in range(3))
    return data[:one] + data[two:three] + data[one:two] + data[three:]


def number(data: bytes, draw: random.Random) -> bytes:
    found = list(NUMBER.finditer(data))
    if not found:
        return put(data, draw)
    place = draw.choice(found)
    return data[: place.start()] + draw.choice(NUMBERS) + data[place.end() :]


def mutated(data: bytes, draw: random.Random, others: list[bytes]) -> bytes:
    """The bytes with one to four changes."""
    ways: list[Callable[[bytes, random.Random], bytes]] = [flip, put, put, cut, double, swap, number, end]
    for _ in range(draw.choice((1, 1, 1, 2, 4))):
        if data and draw.random() < 0.9:
            data = draw.choice(ways)(data, draw)
        else:
            at = draw.randrange(len(data) + 1)
            data = data[:at] + draw.choice(others) + data[at:]
    return data


def shrunk(data: bytes, differs: Callable[[bytes], bool], seconds: float = 15) -> bytes:
    """Fewer bytes that still differ: parts are left out, of half the length each time."""
    length, until = len(data) // 2, time.monotonic() + seconds
    while length:
        at = 0
        while at < len(data) and time.monotonic() < until:
            fewer = data[:at] + data[at + length :]
            if differs(fewer):
                data = fewer
            else:
                at += length
        length //= 2
    return data
