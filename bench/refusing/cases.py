"""What is asked while memory is refused."""
import json
from collections.abc import Iterator
from pathlib import Path

from measure import knows
from refusing import folders
from refusing.commands import Command, Told, Words
from refusing.folders import FIVE, ID, LINES, LONGEST, SOURCE
from refusing.requests import GO_ON, Requests, Start, reply, request
from refusing.tries import Case

P1, P2, P3 = FIVE[:3]
RUN = b"".join(FIVE[2:5])
LINE, DATASET = LINES[-1], "".join(LINES)
HEAD_OF_TWO = {"head": ID(2), "version": 2}
KNOWN = {"error": "known", "same": True, "version": 1}
NO_SOURCE = {"error": "no_source"}


def compact(value: object) -> bytes:
    return json.dumps(value, sort_keys=True, separators=(",", ":")).encode()


def printed(value: object) -> Told:
    return 0, compact(value).decode() + "\n", ""


def fault(status: int, line: str) -> Told:
    return status, "", f"rdfdelta: {line}\n"


def refused(status: int, value: object) -> Told:
    return fault(1, f"refused: {status} {compact(value).decode()}")


def checked(patches: int, events: int = 2) -> Words:
    head = ID(patches) if patches else "none"
    lines = f"file 0 records {events}\nfile 1 patches {patches} head {head}\nfile 2 patches 0 head none\n"
    return Words("check DIR", (0, lines, ""))


UPGRADED_NONE, UPGRADE_FINISHED = (0, "upgraded 0 files\n", ""), (0, "upgrade finished\n", "")
DUMPED, PREFIXES = Words("dump DIR", (0, DATASET, "")), (0, 'PA "ex" <http://e/> .\n', "")


def texts(built: Path) -> Iterator[Command]:
    """Commands that read a text or none, and print one."""
    for title, words, given, says in [
        ("replay of one patch", "replay", P1, (0, LINE, "")),
        ("replay of five patches", "replay", b"".join(FIVE), (0, DATASET, "")),
        ("replay of a text that is cut", "replay", P1[:-5], fault(3, "input: line 4 byte 99: OpenBlock")),
        ("replay of no chain", "replay", P1 + P3, fault(10, f"diverged at version 1: have {ID(1)}, found {ID(2)}")),
        ("nquads", "nquads", (DATASET + LINE).encode(), (0, DATASET, "")),
        ("nquads of a relative IRI", "nquads", b"<a> <http://e/p> <http://e/o> .\n",
         fault(3, "input: line 1 byte 0: RelativeIri")),
        ("gen", "gen 10", b"", (0, f"patches 10 quads 7 head {ID(10)}\n", "")),
        ("emit", "emit 1", b"", (0, f'H id <uuid:{ID(1)}> .\nTX .\nA <http://g/s1> <http://g/p1> "1" .\nTC .\n', "")),
        ("a number out of form", "gen 01", b"", fault(2, "usage: gen N")),
        ("the version", "--version", b"", (0, "rdfdelta 0.3.0\n", "")),
    ]:
        yield Command(built, title, folders.empty, Words(words, says, given))


def net(built: Path) -> Iterator[Command]:
    """Commands that make one patch of several, where the program has them."""
    if not knows(built, "squash"):
        return
    head, two = f"H id <uuid:{ID(9)}> .\nH prev <uuid:{ID(2)}> .\n", P1 + P2
    one = f"H id <uuid:{ID(2)}> .\nTX .\nA {LINES[0]}A {LINES[-1]}TC .\n"
    for title, words, says in [
        ("squash", "squash 1 2", (0, one, "")),
        ("squash of a patch that isn't there", "squash 1 3", fault(3, "input: no patch 3")),
        ("invert", f"invert {ID(9)}", (0, f"{head}TX .\nD {LINES[0]}TC .\n", "")),
    ]:
        yield Command(built, title, folders.empty, Words(words, says, two))


def directories(built: Path) -> Iterator[Command]:
    """Commands over the files of a registry and of logs."""
    yield Command(built, "init", folders.empty, Words("init DIR 2", (0, "", "")),
                  [fault(1, "refused: file 1 not empty: 9")], [checked(0, 1)], [fault(9, "file 0: byte 0: damaged")])
    yield Command(built, "init over files", folders.two,
                  Words("init DIR 2", fault(1, "refused: file 1 not empty: 289")), looks=[checked(2)])
    yield Command(built, "check", folders.two, checked(2))
    yield Command(built, "check of no chain", folders.broken,
                  Words("check DIR", fault(9, "file 1: broken chain at version 2")))
    yield Command(built, "upgrade", folders.old, Words("upgrade DIR", (0, "upgraded 3 files\n", "")),
                  [UPGRADED_NONE, UPGRADE_FINISHED], [checked(2)])
    yield Command(built, "upgrade that goes on", folders.pending, Words("upgrade DIR", UPGRADE_FINISHED),
                  [UPGRADED_NONE], [checked(2)])
    yield Command(built, "upgrade of new files", folders.two, Words("upgrade DIR", UPGRADED_NONE), looks=[checked(2)])


def zones(built: Path) -> Iterator[Command]:
    """Commands over the file of a zone."""
    yield Command(built, "zone", folders.empty, Words("zone DIR", (0, "", "")),
                  [fault(1, "refused: file 1000 not empty: 9")], [Words("dump DIR", (0, "", ""))])
    yield Command(built, "dump", folders.zone, DUMPED)
    yield Command(built, "prefixes", folders.zone, Words("prefixes DIR", PREFIXES))
    for title, pattern, lines in [
        ("match of all quads", "* * * *", DATASET),
        ("match of an object", "default * <http://e/p> <http://e/o3>", LINES[1]),
        ("match of none", "_:g * * *", ""),
    ]:
        yield Command(built, title, folders.zone, Words(f"match DIR {pattern}", (0, lines, "")))
    upgrade = Words("upgrade_zone DIR", (0, "upgraded 2 files\n", ""))
    yield Command(built, "upgrade of a zone", folders.old_zone, upgrade, [UPGRADED_NONE, UPGRADE_FINISHED], [DUMPED])


CAUGHT_UP = Words("sync DIR ADDR ABC", (0, "caught up at version 5\n", ""))


def pairs(built: Path) -> Iterator[Command]:
    """Commands over zones on two files, where the program makes checkpoints."""
    if not knows(built, "checkpoint"):
        return
    made, rows = Words("checkpoint DIR", (0, "checkpoint at version 6\n", "")), Words("prefixes DIR", PREFIXES)
    yield Command(built, "a checkpoint", folders.zone, made, looks=[DUMPED, rows])
    yield Command(built, "a checkpoint behind another", folders.pair, made, looks=[DUMPED, rows])
    most = 2**64 - 1
    yield Command(built, "a checkpoint behind the last one", folders.last_pair,
                  Words("checkpoint DIR", fault(1, f"refused: checkpoint too large: have {most}, limit {most}")),
                  looks=[DUMPED])
    yield Command(built, "dump behind a checkpoint", folders.pair, DUMPED)
    yield Command(built, "prefixes behind a checkpoint", folders.pair, rows)
    yield Command(built, "match behind a checkpoint", folders.pair,
                  Words("match DIR default * <http://e/p> <http://e/o3>", (0, LINES[1], "")))
    yield Command(built, "a sync behind a checkpoint", folders.five_kept, CAUGHT_UP, looks=[DUMPED])


def clients(built: Path) -> Iterator[Command]:
    """Commands of a client, beside a server that has its memory."""
    made = {"id": "DRAWN", "name": "ABC", "slot": 1, "uri": "http://e/abc"}
    other = {**SOURCE, "name": "DEF"}
    told = Words("version ADDR ABC", printed({"version": 2}))
    yield Command(built, "a client's ping", folders.two, Words("ping ADDR", printed({"ping": "ok"})))
    yield Command(built, "a client's list", folders.two, Words("list ADDR", printed({"sources": [SOURCE]})))
    yield Command(built, "a client's create", folders.slots, Words("create ADDR ABC http://e/abc", printed(made)),
                  [refused(409, {"error": "name_taken", "id": "DRAWN"})],
                  [Words("list ADDR", printed({"sources": [made]}))])
    yield Command(built, "a client's rename", folders.two, Words("rename ADDR ABC DEF", printed(other)),
                  [refused(404, NO_SOURCE)], [Words("list ADDR", printed({"sources": [other]}))])
    yield Command(built, "a client's remove", folders.two, Words("remove ADDR ABC", printed(SOURCE)),
                  [refused(404, NO_SOURCE)], [Words("list ADDR", printed({"sources": []}))])
    described = printed(SOURCE)[1] + printed(HEAD_OF_TWO)[1]
    yield Command(built, "a client's describe", folders.two, Words("describe ADDR ABC", (0, described, "")))
    yield Command(built, "a client's version", folders.two, told)
    yield Command(built, "a client's append", folders.source, Words("append ADDR ABC", printed({"version": 1}), P1),
                  [refused(409, KNOWN)], [Words("version ADDR ABC", printed({"version": 1}))])
    yield Command(built, "a client's run", folders.two,
                  Words("append_run ADDR ABC", printed({"first": 3, "version": 5}), RUN),
                  [refused(409, {**KNOWN, "version": 3})], [Words("version ADDR ABC", printed({"version": 5}))])
    yield Command(built, "a client's run that is none", folders.two,
                  Words("append_run ADDR ABC", fault(3, "input: line 1 byte 0: BadRun"), P1 + P3), looks=[told])
    yield Command(built, "a client's fetch", folders.five, Words("fetch ADDR ABC 2", (0, P2.decode(), "")))
    by_id = Words(f"fetch ADDR ABC {ID(4)}", (0, FIVE[3].decode(), ""))
    yield Command(built, "a client's fetch by id", folders.five, by_id)
    yield Command(built, "a sync", folders.five, CAUGHT_UP, looks=[DUMPED])
    wants = [refused(503, {"error": "out_of_memory"}), fault(7, "answer cut short"), fault(6, "link failed")]
    yield Command(built, "a sync with a server that is refused memory", folders.five, CAUGHT_UP, looks=[DUMPED],
                  server_wants=wants)


def operation(word: str, **members: object) -> bytes:
    return request("POST", "/$/rpc", compact({"operation": word, **members}))


def answer(status: int, value: object, *fields: str) -> bytes:
    return reply(status, compact(value), *fields)


def text(patch: bytes) -> bytes:
    return reply(200, patch, type="application/rdf-patch")


LOG = request("GET", "/ABC")


def reading(built: Path) -> Iterator[Requests]:
    """Requests that change nothing."""
    for title, sent, wanted in [
        ("ping", request("GET", "/$/ping"), answer(200, {"ping": "ok"})),
        ("a log", LOG, answer(200, HEAD_OF_TWO)),
        ("a fetch", request("GET", "/ABC/1"), text(P1)),
        ("a fetch by id", request("GET", f"/ABC/{ID(2)}"), text(P2)),
        ("a fetch of none", request("GET", "/ABC/3"), answer(404, {"error": "no_patch", "version": 2})),
        ("a list", operation("list"), answer(200, {"sources": [SOURCE]})),
        ("a source by its URI", operation("source_by_uri", uri="http://e/abc"), answer(200, SOURCE)),
        ("a source by its id", operation("source_by_id", id=ID(9)), answer(200, SOURCE)),
        ("a source that isn't there", operation("source", name="X"), answer(404, NO_SOURCE)),
        ("a patch that is known", request("POST", "/ABC", P1), answer(409, KNOWN)),
        ("a patch behind another head", request("POST", "/ABC", FIVE[4]),
         answer(409, {"error": "conflict", "head": ID(2), "prev_version": None, "version": 2})),
        ("a patch that is none", request("POST", "/ABC", P1[:-5]),
         answer(400, {"at": 99, "error": "bad_patch", "kind": "OpenBlock"})),
        ("a run that is none", request("POST", "/ABC/run", P1 + P3), answer(400, {"at": 2, "error": "bad_run"})),
        ("a name that is taken", operation("create", name="ABC", uri="http://e/b"),
         answer(409, {"error": "name_taken", "id": ID(9)})),
        ("a body that is no JSON", request("POST", "/$/rpc", b"{"), answer(400, {"error": "bad_json"})),
        ("another method", request("DELETE", "/ABC"), answer(405, {"error": "bad_method"}, "Allow: GET, POST")),
        ("no route", request("GET", "/"), answer(404, {"error": "no_route"})),
        ("no request", b"GET / HTTP/1.1\r\n\r\n",
         answer(400, {"error": "bad_request", "kind": "BadHost"}, "Connection: close")),
        ("a body that is too long", request("POST", "/ABC", None, "Content-Length: 4194305"),
         answer(413, {"error": "bad_request", "kind": "BodyTooLong"}, "Connection: close")),
    ]:
        yield Requests(built, title, folders.two, [sent], [wanted], looks=[(LOG, answer(200, HEAD_OF_TWO))])


def appending(built: Path) -> Iterator[Requests]:
    """Requests that append."""
    first = request("POST", "/ABC", P1)
    chunked = b"".join(b"%x\r\n%s\r\n" % (len(part), part) for part in (P1[:40], P1[40:80], P1[80:])) + b"0\r\n\r\n"
    at_one, accepted = [(request("GET", "/ABC/1"), text(P1))], answer(200, {"version": 1})
    for title, sent, usual, done in [
        ("an append", first, accepted, answer(409, KNOWN)),
        ("an append in chunks", request("POST", "/ABC", None, "Transfer-Encoding: chunked") + chunked, accepted,
         answer(409, KNOWN)),
        ("an append that asks first", request("POST", "/ABC", P1, "Expect: 100-continue"), GO_ON + accepted,
         GO_ON + answer(409, KNOWN)),
        ("an append as an operation", operation("append", name="ABC", patch=P1.decode()), accepted, answer(409, KNOWN)),
    ]:
        yield Requests(built, title, folders.source, [sent], [usual], [done], at_one)
    yield Requests(built, "an append of the most bytes", folders.source, [request("POST", "/ABC", LONGEST)], [accepted],
                   [answer(409, KNOWN)], [(request("GET", "/ABC/1"), text(LONGEST))])
    yield Requests(built, "a fetch of the most bytes", folders.longest, [request("GET", "/ABC/1")], [text(LONGEST)])
    yield Requests(built, "an append and a ping", folders.source, [first, request("GET", "/$/ping")],
                   [accepted, answer(200, {"ping": "ok"})], [answer(409, KNOWN), answer(200, {"ping": "ok"})], at_one)
    run = [(request("GET", f"/ABC/{version}"), text(FIVE[version - 1])) for version in (3, 4, 5)]
    for title, sent in [("a run", request("POST", "/ABC/run", RUN)),
                        ("a run as an operation", operation("append_run", name="ABC", patches=RUN.decode()))]:
        yield Requests(built, title, folders.two, [sent], [answer(200, {"first": 3, "version": 5})],
                       [answer(409, {**KNOWN, "version": 3})], run)


def naming(built: Path) -> Iterator[Requests]:
    """Requests that make, rename and remove a source."""
    other = {**SOURCE, "name": "DEF"}
    for title, begin, sent, told, done, stands in [
        ("a creation", folders.slots, operation("create", name="ABC", uri="http://e/abc", id=ID(9)), SOURCE,
         answer(409, {"error": "name_taken", "id": ID(9)}), [SOURCE]),
        ("a renaming", folders.two, operation("rename", name="ABC", new_name="DEF"), other, answer(404, NO_SOURCE),
         [other]),
        ("a removal", folders.two, operation("remove", name="ABC"), SOURCE, answer(404, NO_SOURCE), []),
    ]:
        look = operation("list"), answer(200, {"sources": stands})
        yield Requests(built, title, begin, [sent], [answer(200, told)], [done], [look])


def starting(built: Path) -> Iterator[Start]:
    yield Start(built, "a server's start", folders.five, LOG, answer(200, {"head": ID(5), "version": 5}))


def cases(built: Path) -> list[Case]:
    kinds = texts, net, directories, zones, pairs, clients, reading, appending, naming, starting
    return [case for kind in kinds for case in kind(built)]
