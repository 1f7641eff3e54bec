"""Requests and texts at the edges of what is taken, written by hand, as seeds beside those of the cases."""
from collections.abc import Iterator

from reading.wire import LONGEST_BODY

ID = "00000000-0000-4000-8000-000000000001"
IDS = [
    ID, f"{{{ID}}}", f"urn:uuid:{ID}", f"URN:uuid:{ID}", ID.replace("-", ""), f"{{{ID.replace('-', '')}}}",
    f"urn:uuid:{{{ID}}}", f"{{urn:uuid:{ID}}}", f"{ID}}}", ID[1:] + "0", "0000000-00000-4000-8000-000000000001",
]
VALUES = [
    "<uuid:%s>", "<urn:uuid:%s>", '"%s"', '"%s"^^<http://www.w3.org/2001/XMLSchema#string>', '"%s"@en', "_:%s",
    "<UUID:%s>", '"%s"^^<a:b>', "<uuid:\\u0030%s>",
]
JSON = [
    "1e400", "1E-400", "-1e400", "9" * 308, "9" * 309, "01", "-", "1.", ".5", "+1", "1e", "nul", "NaN", '"\\ud800"',
    '"\\udc00"', '"\\ud83d\\ude00"', '"\\ud83dx"', '"\t"', '"\x7f"', '"\\x"', "{1:2}", "[1,]", "1e308", "1e309", "-0",
    "-1", "1.0", "1e0", "0e999", "1.7976931348623157e308", "1.7976931348623159e308", "1e99999999999999999999",
    "0e99999999999999999999", "4294967295", "4294967296",
    *("[" * deep + "]" * deep for deep in (125, 126, 127, 128, 1000)),
    *('{"a":' * deep + "1" + "}" * deep for deep in (125, 126, 127)),
]
BODIES = [
    "[1]", "1", "{}", "", "null", "\ufeff{}", '{"operation":"ping",}', '{"operation":"ping"} x',
    '{"operation":"ping"}\0', '{"operation":"pi\\u006eg"}', '{"\\u006fperation":"ping"}',
    '{"operation":"ping","operation":"list"}', '{"operation":"pong","operation":"ping"}',
    '{"operation":"ping"}\r\n\t ', '\v{"operation":"ping"}', "[" * 128 + "]" * 128,
]
TARGETS = [
    b"/ABC%", b"/ABC%4", b"/ABC%zz", b"http://a/ABC", b"http://a", b"http://a?/ABC", b"http:///ABC", b"HTTP://a/ABC",
    b"/ABC#x", b"https://a/ABC", b"/ABC?%FF", b"/ABC/1?", b"/ABC/run?x", b"?", b"/?ABC", b"\xc3\xa9", b"/\xc3",
    b"/%C3%A9", b"/ABC\x7f", b"*", b"/A\x01BC", b"/%00", b"/%2541BC", b"/./ABC", b"/ABC/%2e", b"http://a%2FABC",
    b"http://a/b/c/d", b'/"', b"/<>",
]
CHUNK_LINES = [
    b"5", b"5 ", b"5\t;", b"5;a", b" 5", b"5 x", b"0x5", b"5g", b"", b";", b"0" * 15 + b"5", b"0" * 16 + b"5",
    b"5;\0\x7f\xff", b"5\r", b"5;a\r", *(b"5;" + b"x" * length for length in (250, 251, 252, 253)),
]
TRAILERS = [
    b"a:b\r\n", b"a:b\n", b" a:b\r\n", b"a :b\r\n", b"a\r\n", b":b\r\n", b"a:\0\r\n", b"a:b\r\n c\r\n", b"\r", b"a:\r",
    b"a:b\rc\r\n", *(b"a:" + b"x" * length + b"\r\n" for length in (16_377, 16_378, 16_379)),
]
START_LINES = [
    b"GET  / HTTP/1.1\r\n", b"GET / HTTP/1.2\r\n", b"GET / HTTP/2.0\r\n", b"GET /  HTTP/1.1\r\n",
    b"GET / HTTP/1.1 \r\n", b"GET \r", b" GET / HTTP/1.1\r\n", b"G\x7fT / HTTP/1.1\r\n", b"GET\t/ HTTP/1.1\r\n",
    b"GET /\r\n", b"\r\r\nGET / HTTP/1.1\r\n", b"\xff", b"\n\nGET / HTTP/1.1\n", b"GET / HTTP/1.1\r\r\n",
    b"{} / HTTP/1.1\r\n", b"GET / http/1.1\r\n", b"GET /\xff HTTP/1.1\r\n", b"GET /\xff", b"GET /\0", b"GET /\0\r",
]
FIELDS = [
    b"Content-Length: 5,5", b"Content-Length: ", b"Content-Length: +5", b"Content-Length: 5 5",
    b"Transfer-Encoding: chunked, chunked", b"Transfer-Encoding: ", b"Transfer-Encoding: chunked;a",
    b"Content-Length: 5\r\nContent-Length: 4194305", b"Content-Length: 4194305",
    b"Content-Length: 4194305\r\nTransfer-Encoding: gzip", b"Content-Length: 999999999999999999",
    b"Content-Length: 1000000000000000000", b"Connection: \tclose\t,\r\nContent-Length: 5", b"Connection: x;close",
    b"Connection: a\r\nConnection: b,close", b"Expect: 100-continue\r\nContent-Length: 0",
    b"Expect: 100-continue\r\nContent-Length: 5", b"Expect: 100-continue, x",
    b"Expect: x\r\nExpect: 100-continue\r\nContent-Length: 5", b"Expect: 100-continue\r\nContent-Length: 4194305",
    b"Expect: 100-continue\r\nTransfer-Encoding: chunked", b"Content-Type: application/rdf-patch+thrift",
    b"Content-Type: APPLICATION/rdf-patch+thrift\t;a", b"Content-Type: application/rdf-patch+thrift,a",
    b"Content-Encoding: IDENTITY", b"Content-Type: x\r\nContent-Type: application/rdf-patch+thrift",
    b"Content-Encoding: identity, identity", b"Content-Encoding:",
]
ENDINGS = [
    b"T\xff", b"TX\xff", b"H id\xff", b"PA ex\xff", b"A _:a\xff", b"A _:a.\xff", b'A "x"\xff', b'A "x" \xff',
    b'A "x"@en\xff', b"T", b'H id "x"@\xff', b'A "\\u12\xff"', b'PA "x"^\xff', b"A <a:b> _:a.\xff",
    b'A <a:b> <a:b> "x"\n^^\n<a:b> .', b'A <a:b> "x"@en-', b'A <a:b> <a:b> "x" ^^ <a:b> .',
    b"A <_:\\u0061> <a:b> <a:b> .", b'A <a:b> <a:b> "x"^^<_:a> .', b"A <_:a.> <a:b> <a:b> .",
]
PING = b"GET /$/ping HTTP/1.1\r\nHost: a\r\n\r\n"


def posted(path: str, body: bytes) -> bytes:
    return f"POST {path} HTTP/1.1\r\nHost: a\r\nContent-Length: {len(body)}\r\n\r\n".encode() + body


def streams() -> Iterator[bytes]:
    """Streams of requests. ABC stands for the name of a source."""
    for value in JSON:
        yield posted("/$/rpc", f'{{"operation":"ping","a":{value}}}'.encode())
        yield posted("/$/rpc", f'{{"operation":"fetch_version","name":"ABC","version":{value}}}'.encode())
    for body in BODIES:
        yield posted("/$/rpc", body.encode())
    for id in IDS:
        yield f"GET /ABC/{id} HTTP/1.1\r\nHost: a\r\n\r\n".encode()
        yield posted("/$/rpc", f'{{"operation":"fetch_id","name":"ABC","id":"{id}"}}'.encode())
    for text in texts():
        yield posted("/ABC", text)
    for target in TARGETS:
        yield b"GET " + target + b" HTTP/1.1\r\nHost: a\r\n\r\n"
    for line in START_LINES:
        yield line + b"Host: a\r\n\r\n"
    for field in FIELDS:
        yield b"POST /ABC HTTP/1.1\r\nHost: a\r\n" + field + b"\r\n\r\nhello"
        yield b"POST /ABC HTTP/1.0\r\n" + field + b"\r\n\r\nhello"
    chunked = b"POST /ABC HTTP/1.1\r\nHost: a\r\nTransfer-Encoding: chunked\r\n\r\n"
    longest = f"H id <uuid:{ID[:-1]}2> . H prev <uuid:{ID}> .".encode().ljust(LONGEST_BODY)
    yield posted("/ABC", longest)
    yield chunked + b"400000\r\n" + longest + b"\r\n0\r\n\r\n"
    yield chunked + b"400001\r\n"
    yield chunked + b"1\r\nH\r\n400000\r\n"
    for line in CHUNK_LINES:
        yield chunked + line + b"\r\nhello\r\n0\r\n\r\n" + PING
        yield chunked + line
    for trailers in TRAILERS:
        yield chunked + b"0\r\n" + trailers + b"\r\n" + PING
        yield b"GET /ABC HTTP/1.1\r\nHost: a\r\n" + trailers + b"\r\n" + PING


def texts() -> list[bytes]:
    """Texts of rows."""
    return ENDINGS + [f"H id {value % id} .".encode() for value in VALUES for id in IDS]
