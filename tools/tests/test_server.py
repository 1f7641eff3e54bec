"""The client against the real server, and against what is none."""
from __future__ import annotations

import socket
import threading
from collections.abc import Iterator
from contextlib import contextmanager

import pytest

from conftest import SOURCE_ID, Running, Start, free_port, id_of, patch
from rdfdelta import (
    Appended, BadAddress, Conflict, Full, Known, LinkFailed, LogState, NoPatch, NoSource, NotUnderstood, Refused,
    Server, Source,
)


def test_sources(running: Running) -> None:
    server = running.client
    made = server.create("ABC", "http://e/abc", SOURCE_ID)
    assert made == Source(SOURCE_ID, "ABC", 1, "http://e/abc")
    assert server.sources() == [made] and server.source("ABC") == made
    assert server.rename("ABC", "DEF").name == "DEF"
    assert server.remove("DEF").id == SOURCE_ID and server.sources() == []
    assert server.ping() < 5


def test_a_log(running: Running) -> None:
    running.fill("ABC", 3)
    log = running.client.log("ABC")
    assert log.state() == LogState(id_of(3), 3)
    assert log.fetch(2) == log.fetch(id_of(2)) == patch(2)
    assert list(log.patches()) == [(number, patch(number)) for number in (1, 2, 3)]
    assert list(log.patches(1, 2)) == [(2, patch(2))] and list(log.patches(3)) == []
    assert running.client.log("ABC").source().slot == 1


def test_the_table_of_answers(running: Running) -> None:
    running.fill("ABC", 2)
    log = running.client.log("ABC")
    assert log.append(patch(2)) == Appended(2, known=True)
    assert log.append(patch(3)) == Appended(3)
    with pytest.raises(Known) as known:
        log.append(patch(2) + b"#")
    assert (known.value.version, known.value.same) == (2, False)
    with pytest.raises(Conflict) as conflict:
        log.append(patch(5, behind=1))
    assert (conflict.value.head, conflict.value.version, conflict.value.prev_version) == (id_of(3), 3, 1)
    with pytest.raises(Conflict) as conflict:
        log.append(patch(5, behind=8))
    assert conflict.value.prev_version is None
    with pytest.raises(NoPatch) as missing:
        log.fetch(4)
    assert missing.value.version == 3
    with pytest.raises(NoSource):
        running.client.log("XYZ").state()
    with pytest.raises(Refused, match="bad_patch") as refused:
        log.append(b"TX .")
    assert refused.value.error == "bad_patch"
    with pytest.raises(Refused, match="bad_name"):
        running.client.create("A/B", "http://e/")


def test_no_slots(serve: Start) -> None:
    server = serve(slots=1).client
    server.create("A", "http://e/")
    with pytest.raises(Full) as full:
        server.create("B", "http://e/")
    assert (full.value.what, full.value.have, full.value.limit) == ("slots", 1, 1)


def test_a_server_that_was_killed_is_asked_again(serve: Start) -> None:
    first = serve(workers=1)
    first.fill("ABC", 1)
    first.stop()
    with pytest.raises(LinkFailed, match="connection refused"):
        first.client.sources()
    with pytest.raises(LinkFailed):
        first.client.log("ABC").append(patch(2), tries=2)


@pytest.mark.parametrize("address", ["localhost", "127.0.0.1:", "127.0.0.1:0", "127.0.0.1:65536", "a b:1", "ftp://a:1",
                                     "http://", "http://a:1/?q", "a" * 255 + ":1"])
def test_no_address(address: str) -> None:
    with pytest.raises(BadAddress):
        Server(address)


def test_urls_are_addresses(running: Running) -> None:
    server = Server(f"http://{running.address}/")
    assert server.ping() < 5 and server.direct_address() == running.address
    with pytest.raises(BadAddress, match="needs HOST:PORT"):
        Server("https://localhost:1").direct_address()


@contextmanager
def answering(reply: bytes) -> Iterator[str]:
    """A server that answers each request with these bytes."""
    with socket.socket() as gate:
        gate.bind(("127.0.0.1", 0))
        gate.listen()

        def answer() -> None:
            while True:
                try:
                    link, _ = gate.accept()
                except OSError:
                    return
                with link:
                    link.recv(65_536)
                    link.sendall(reply)

        thread = threading.Thread(target=answer, daemon=True)
        thread.start()
        try:
            yield f"127.0.0.1:{gate.getsockname()[1]}"
        finally:
            gate.shutdown(socket.SHUT_RDWR)
            thread.join()


def said(status: str, body: str, kind: str = "application/json") -> bytes:
    return f"HTTP/1.1 {status}\r\nContent-Type: {kind}\r\nContent-Length: {len(body)}\r\n\r\n{body}".encode()


@pytest.mark.parametrize("body", ["", "[]", "<html>", '{"version":"2","head":null}', '{"version":2,"head":null}',
                                  '{"version":0,"head":"x"}', '{"version":true,"head":null}', '{"head":null}'])
def test_answers_that_are_none(body: str) -> None:
    with answering(said("200 OK", body)) as address, pytest.raises(NotUnderstood):
        Server(address).log("ABC").state()


def test_answers_of_others() -> None:
    with answering(said("502 Bad Gateway", "<html>", "text/html")) as address:
        with pytest.raises(Refused, match="not of an rdfdelta server") as refused:
            Server(address).sources()
        assert refused.value.status == 502
    with answering(said("200 OK", "{}")) as address, pytest.raises(NotUnderstood):
        Server(address).log("ABC").fetch(1)
    with answering(said("409 Conflict", '{"error":"known"}')) as address, pytest.raises(NotUnderstood):
        Server(address).log("ABC").append(patch(1))
    with answering(b"HTTP/1.1 200 OK\r\nContent-Length: 100\r\n\r\n{") as address, pytest.raises(LinkFailed):
        Server(address).sources()


def test_no_answer_in_time() -> None:
    with socket.socket() as gate:
        gate.bind(("127.0.0.1", 0))
        gate.listen()
        with pytest.raises(LinkFailed, match="no answer in time"):
            Server(f"127.0.0.1:{gate.getsockname()[1]}", seconds=0.2).ping()
    with pytest.raises(LinkFailed, match="refused"):
        Server(f"127.0.0.1:{free_port()}").ping()


def test_503_is_sent_again() -> None:
    with answering(said("503 Service Unavailable", '{"error":"out_of_memory"}')) as address:
        with pytest.raises(Refused) as refused:
            Server(address).log("ABC").append(patch(1), tries=2)
        assert refused.value.status == 503


def test_a_log_that_was_replaced_is_seen(running: Running) -> None:
    running.fill("ABC", 2)
    log = running.client.log("ABC")
    found = log.patches()
    assert next(found)[0] == 1
    running.client.rename("ABC", "old")
    running.client.create("ABC", "http://e/")
    log.append(patch(7, behind=0))
    log.append(patch(8))
    with pytest.raises(NotUnderstood, match="patch 2 of ABC follows"):
        next(found)
