"""Journal files and texts changed at random, and what the commands print that read them."""
import http.client
import json
import random
import re
import signal
import socket
import subprocess
import tempfile
import time
import uuid
from collections.abc import Callable
from dataclasses import dataclass, field
from pathlib import Path

from fuzzing.grammar import BAD_TERMS, BLANKS, IRIS, LITERALS, PatchTexts
from fuzzing.lanes import shown
from fuzzing.mutations import mutated, shrunk
from fuzzing.pairs import Making, pair_of
from fuzzing.upgrades import Upgrade, aged
from journals import framed
from reading.files import MARKER, Outcome, canonical, checked, file_name, hall_of, outcome, replayed
from reading.hall import MOST_REGISTRY, Hall
from reading.nets import inverted, squashed
from reading.zones import SECOND, ZONE, ZONE_MARKER, dataset_of, matched
from serving import WORKERS, free_port

LONGEST_WAIT = 20
HYPHENATED = re.compile(rb"[0-9A-Fa-f]{8}(?:-[0-9A-Fa-f]{4}){3}-[0-9A-Fa-f]{12}")
Files = dict[int, bytes]


@dataclass
class Payloads:
    """The payloads of a file."""

    number: int
    payloads: list[bytes]

    def written(self) -> bytes:
        return framed(self.number, self.payloads)

    def changed(self, draw: random.Random, others: list[bytes]) -> bytes:
        """The file with a change."""
        if draw.random() < 0.1:
            return self.written()
        ways = [self.bytes_changed, self.payload_changed, self.order_changed, self.front_changed, self.frame_changed, self.longer]
        return draw.choice(ways)(draw, others)

    def bytes_changed(self, draw: random.Random, others: list[bytes]) -> bytes:
        return mutated(self.written(), draw, others)

    def payload_changed(self, draw: random.Random, others: list[bytes]) -> bytes:
        payloads = list(self.payloads) or [b""]
        place = draw.randrange(len(payloads))
        payloads[place] = mutated(payloads[place], draw, others)
        return framed(self.number, payloads)

    def order_changed(self, draw: random.Random, others: list[bytes]) -> bytes:
        """A payload left out, written twice, in the place of another one or at the end of one."""
        payloads = list(self.payloads)
        if payloads:
            way = draw.randrange(4)
            one, two = draw.randrange(len(payloads)), draw.randrange(len(payloads))
            if way == 0:
                del payloads[one]
            elif way == 1:
                payloads.insert(one, payloads[two])
            elif way == 2:
                payloads[one], payloads[two] = payloads[two], payloads[one]
            elif one < two:
                payloads[one] += payloads.pop(two)
        return framed(self.number, payloads)

    def front_changed(self, draw: random.Random, others: list[bytes]) -> bytes:
        data = self.written()
        if draw.random() < 0.5:
            return draw.choice((b"RDJ1", b"RDJ2", b"RDJ3", b"rdj2", b"\0\0\0\0")) + data[4:]
        return data[:4] + draw.choice((0, 1, 2, 3, 16, 17, 1000, 1 << 24, (1 << 32) - 1)).to_bytes(4, "big") + data[8:]

    def frame_changed(self, draw: random.Random, others: list[bytes]) -> bytes:
        """Another gate, running number or length."""
        data, places, at = self.written(), [], 8
        for payload in self.payloads:
            places.append(at)
            at += 9 + len(payload)
        place = draw.choice([*places, at])
        way = draw.randrange(3) if places and place != at else 0
        if way == 0:
            return data[:place] + draw.choice((b"\0", b"\1", b"\2", b"\xff", b"", b"\1\0\0\0")) + data[place + 1 :]
        here = place + (1 if way == 1 else 5)
        number = int.from_bytes(data[here : here + 4], "big")
        left = len(data) - here - 4
        number = draw.choice((number + 1, number - 1, 0, 1, number << 8, (1 << 32) - 1, left - 1, left))
        return data[:here] + (number % (1 << 32)).to_bytes(4, "big") + data[here + 4 :]

    def longer(self, draw: random.Random, others: list[bytes]) -> bytes:
        data = self.written()
        more = draw.choice((b"\0", b"\1", b"\0" * 4096, b"\1\0\0\0\1", data[8:], draw.choice(others)))
        return data + more if draw.random() < 0.5 else data[:-1] + more


def journal_of(texts: PatchTexts, number: int, are_runs: bool) -> Payloads:
    """A log of patches made at random, or a zone."""
    draw, head, payloads = texts.draw, None, []
    for _ in range(draw.choice((0, 1, 2, 5, 9))):
        payload, head = texts.run(head, draw.choice((1, 1, 2, 3)) if are_runs else 1)
        payloads.append(payload)
    return Payloads(number, payloads)


def registry_of(draw: random.Random, slots: int) -> Payloads:
    """A registry in which sources were made, renamed and removed."""
    hall = Hall(slots)
    for _ in range(draw.randrange(12)):
        names = [*hall.sources, "A", "B", "a.b-c_1"]
        way = draw.choice((hall.create, hall.create, hall.rename, hall.remove))
        if way == hall.create:
            uri = draw.choice(("http://e/a", "a:", "a:\u00e9", "urn:" + "x" * 1020))
            hall.create(draw.choice(names) + draw.choice(("", "x")), uri, str(uuid.UUID(int=draw.getrandbits(128))))
        elif way == hall.rename:
            hall.rename(draw.choice(names), draw.choice(names) + "y")
        elif draw.random() < 0.5:
            hall.remove(draw.choice(names))
    if draw.random() < 0.02 and hall.sources:
        fill(hall, draw.choice((-1, 0, 1, 78)))
    return Payloads(0, hall.events)


def fill(hall: Hall, over: int) -> None:
    """Renames a source until the registry has about as many bytes as it may have, or some more."""
    slot = next(iter(hall.sources.values())).slot
    while hall.size < MOST_REGISTRY + over - 160:
        hall.note(f"R {slot} ".encode() + b"n" * 63 + b"%d" % (len(hall.events) % 2))
    front = f"R {slot} ".encode()
    hall.note(front + b"x" * (MOST_REGISTRY + over - hall.size - 9 - len(front)))


@dataclass
class Trial:
    """Files of a folder, or a text, and a command that reads them."""

    title: str
    files: Files
    target: int
    runs: Callable[[Path], Outcome]
    wants: Callable[[Path], Outcome]

    def difference(self, data: bytes) -> str:
        """What the command does otherwise than the documents say, where this is what it reads; empty where nothing."""
        with tempfile.TemporaryDirectory() as name:
            folder, files = Path(name), self.files | {self.target: data}
            for number, kept in files.items():
                (folder / file_name(number)).write_bytes(kept)
            wanted, found = self.wants(folder), self.runs(folder)
            if wanted != found:
                return f"{self.title} gives {brief(found)}, and is to give {brief(wanted)}"
            changed = [number for number, kept in files.items() if (folder / file_name(number)).read_bytes() != kept]
        return f"{self.title} changes files {changed}" if changed else ""


def brief(found: Outcome) -> str:
    return f"status {found[0]}, {shown(found[1], 300)}, {found[2]!r}"


def run(words: list, source: bytes = b"") -> Outcome:
    try:
        done = subprocess.run(words, input=source, capture_output=True, timeout=LONGEST_WAIT)
    except subprocess.TimeoutExpired:
        return -1, b"", "it doesn't end"
    return done.returncode, done.stdout, done.stderr.decode(errors="replace")


@dataclass
class Folders:
    """Trials of the commands that read files or texts."""

    program: Path
    draw: random.Random
    others: list[bytes]
    found: Callable[[str], None]
    # Those of the commands that not every program has.
    commands: frozenset[str]
    kept: Files = field(default_factory=dict)
    count: int = 0

    def __post_init__(self) -> None:
        self.texts = PatchTexts(self.draw, self.others)

    def keep(self, folder: Path, zone: Files) -> None:
        """Keeps the files that a server and a follower wrote, to be changed as well."""
        files = {number: folder / file_name(number) for number in range(WORKERS + 1)}
        self.kept = {number: path.read_bytes() for number, path in files.items() if path.exists()} | zone

    def marked(self, marker: int) -> Files:
        """Seldom the marker of an upgrade, which may not be whole."""
        if self.draw.random() < 0.9:
            return {}
        marked = framed(marker, [b"U"])
        return {marker: self.draw.choice((marked, mutated(marked, self.draw, self.others)))}

    def once(self) -> None:
        """One trial, of which a difference is told with as few bytes as can be found."""
        kinds = {self.hall: 3, self.zone: 3, self.text: 2, self.written: 1, self.upgrade: 2}
        trial, data = self.draw.choices(list(kinds), list(kinds.values()))[0]()
        self.count += 1
        difference = trial.difference(data)
        if difference:
            fewer = shrunk(data, lambda less: bool(trial.difference(less)))
            where = trial.difference(fewer)
            self.found(f"{difference}\n  file {trial.target} is {shown(fewer, 4000)}\n  where {where}")

    def hall(self) -> tuple[Trial, bytes]:
        slots = self.draw.choice((1, 2, 3))
        journals = [registry_of(self.draw, slots), *(journal_of(self.texts, slot, True) for slot in range(1, slots + 1))]
        files = {journal.number: journal.written() for journal in journals} | self.marked(MARKER)
        target = self.draw.choice(journals)
        data = target.changed(self.draw, self.others)
        if self.draw.random() < 0.3:
            return Trial("serve", files, target.number, self.serve, served), data
        return Trial("check", files, target.number, self.running("check"), wanted_check), data

    def written(self) -> tuple[Trial, bytes]:
        """Files that a server wrote."""
        small = [number for number, data in self.kept.items() if len(data) < 100_000]
        if not small:
            return self.hall()
        target = self.draw.choice(small)
        data = mutated(self.kept[target], self.draw, self.others)
        if target in (ZONE, SECOND):
            return self.reading_zone({number: self.kept[number] for number in (ZONE, SECOND) if number in self.kept}, target), data
        return Trial("check", self.kept, target, self.running("check"), wanted_check), data

    def zone(self) -> tuple[Trial | Making, bytes]:
        """A zone of a file, or of two where the program makes checkpoints."""
        journals = [journal_of(self.texts, ZONE, False)]
        if "checkpoint" in self.commands and self.draw.random() < 0.7:
            journals = [Payloads(*pair) for pair in pair_of(journals[0].payloads, self.draw).items()]
        target = self.draw.choice(journals)
        files = {journal.number: journal.written() for journal in journals} | self.marked(ZONE_MARKER)
        return self.reading_zone(files, target.number), target.changed(self.draw, self.others)

    def reading_zone(self, files: Files, target: int) -> Trial | Making:
        """One of the commands over the files of a zone."""
        word = self.draw.choice(("dump", "prefixes", "match", *({"checkpoint"} & self.commands)))
        if word == "checkpoint":
            return Making(files, target, self.running(word))
        if word == "match":
            pattern = [self.pattern_word(place) for place in range(4)]
            title = f"match {' '.join(map(repr, pattern))}"
            return Trial(title, files, target, lambda folder: run([self.program, "match", folder, *pattern]),
                         lambda folder: matched(folder, pattern))
        return Trial(word, files, target, self.running(word), wanted_dump if word == "dump" else wanted_prefixes)

    def upgrade(self) -> tuple[Upgrade, bytes]:
        """Files of either form, of which an upgrade may have been stopped."""
        if self.draw.random() < 0.3:
            word, marker = "upgrade_zone", ZONE_MARKER
            journals = [journal_of(self.texts, number, False) for number in self.draw.choice(((ZONE,), (ZONE, SECOND)))]
        else:
            word, marker, slots = "upgrade", MARKER, self.draw.choice((1, 2, 3))
            journals = [registry_of(self.draw, slots), *(journal_of(self.texts, slot, True) for slot in range(1, slots + 1))]
        payloads = {journal.number: journal.payloads for journal in journals}
        files = aged(payloads, marker, self.draw, self.others)
        target = self.draw.choice([number for number, data in files.items() if data])
        data = files[target]
        is_kept = self.draw.random() < 0.3
        return Upgrade(word, files, target, marker, self.running(word)), data if is_kept else mutated(data, self.draw, self.others)

    def pattern_word(self, place: int) -> bytes:
        chance = self.draw.random()
        if chance < 0.6:
            return b"*"
        if place == 0 and chance < 0.75:
            return b"default"
        kinds = (IRIS, BLANKS, LITERALS) if place == 3 or chance > 0.97 else (IRIS, BLANKS) if place < 2 else (IRIS,)
        word = self.draw.choice(self.draw.choice((*kinds, BAD_TERMS) if chance > 0.95 else kinds)).encode()
        if chance > 0.98:
            word = mutated(word, self.draw, self.others)
        # No word of a command has a zero byte, is empty, or begins with a hyphen.
        return word if word and b"\0" not in word and not word.startswith(b"-") and is_text(word) else b"*"

    def text(self) -> tuple[Trial, bytes]:
        """A document for `nquads`, or a stream for `replay`, `squash` or `invert`, in the place of a file."""
        share = 0.7
        if self.draw.random() < 0.4:
            rows = "".join(self.texts.row(*self.statement()) for _ in range(self.draw.randrange(6))).encode()
            trial = self.reading(canonical, "nquads")
        else:
            count = self.draw.randrange(6)
            rows = self.texts.run(None, count)[0]
            trial = self.streaming(rows, count)
            share = 0.7 if trial.title == "replay" else 0.2
        if self.draw.random() < share / 7:
            rows += self.draw.choice(self.others)
        return trial, mutated(rows, self.draw, self.others) if self.draw.random() < share else rows

    def statement(self) -> list[str]:
        terms = [self.texts.term(IRIS, BLANKS), self.texts.term(IRIS), self.texts.term(IRIS, BLANKS, LITERALS)]
        return terms + ([self.texts.term(IRIS, BLANKS)] if self.draw.random() < 0.3 else [])

    def running(self, word: str) -> Callable[[Path], Outcome]:
        return lambda folder: run([self.program, word, folder])

    def streaming(self, rows: bytes, count: int) -> Trial:
        """One of the commands that read a stream, here of so many patches."""
        chance = self.draw.random() if "squash" in self.commands else 0
        if chance < 0.3:
            return self.reading(replayed, "replay")
        if chance < 0.7:
            first, last = sorted(self.draw.randrange(1, max(2, count + 1)) for _ in range(2))
            last += self.draw.random() < 0.1
            return self.reading(lambda text: squashed(text, first, last), "squash", str(first), str(last))
        id = str(uuid.UUID(int=self.draw.getrandbits(128)))
        known = HYPHENATED.findall(rows)
        if known and self.draw.random() < 0.1:
            id = self.draw.choice(known).decode().lower()
        form = self.draw.choice(("{}", "{{{}}}", "urn:uuid:{}")).format(self.draw.choice((id, id.upper())))
        return self.reading(lambda text: inverted(text, id), "invert", form)

    def reading(self, wants: Callable[[bytes], Outcome], *words: str) -> Trial:
        """A command that reads a text."""
        return Trial(" ".join(words), {}, 1, lambda folder: run([self.program, *words], stream_in(folder)),
                     lambda folder: wants(stream_in(folder)))

    def serve(self, folder: Path) -> Outcome:
        """What `serve` tells where it ends by itself, and else the list of its sources and the heads of their logs."""
        port = free_port()
        words = [self.program, "serve", folder, f"127.0.0.1:{port}", "2"]
        process = subprocess.Popen(words, stdout=subprocess.PIPE, stderr=subprocess.PIPE)
        try:
            until = time.monotonic() + LONGEST_WAIT
            while process.poll() is None and time.monotonic() < until:
                try:
                    return 0, heads(port), ""
                except OSError:
                    time.sleep(0.002)
                except (ValueError, KeyError, http.client.HTTPException) as fault:
                    return -1, b"", f"no reply can be read: {fault!r}"
            if process.poll() is None:
                return -1, b"", "it neither ends nor answers"
            out, err = process.communicate()
            return process.returncode, out, err.decode(errors="replace")
        finally:
            process.send_signal(signal.SIGKILL)
            process.communicate()


def is_text(word: bytes) -> bool:
    try:
        return bool(word.decode())
    except UnicodeDecodeError:
        return False


def stream_in(folder: Path) -> bytes:
    return (folder / file_name(1)).read_bytes()


def heads(port: int) -> bytes:
    """The list of a server's sources, and what each log is, over one connection."""
    socket.create_connection(("127.0.0.1", port), timeout=LONGEST_WAIT).close()
    link = http.client.HTTPConnection("127.0.0.1", port, timeout=LONGEST_WAIT)
    link.request("POST", "/$/rpc", '{"operation":"list"}')
    told = [link.getresponse().read()]
    for source in json.loads(told[0])["sources"]:
        link.request("GET", f"/{source['name']}")
        told.append(link.getresponse().read())
    link.close()
    return b"\n".join(told)


def served(folder: Path) -> Outcome:
    """What a server over a folder is to tell."""

    def told() -> bytes:
        hall = hall_of(folder)
        return b"\n".join([hall.list().body, *(hall.log(name).body for name in sorted(hall.sources))])

    return outcome(told)


def wanted_check(folder: Path) -> Outcome:
    return outcome(lambda: checked(hall_of(folder)))


def wanted_dump(folder: Path) -> Outcome:
    return outcome(lambda: dataset_of(folder).lines())


def wanted_prefixes(folder: Path) -> Outcome:
    return outcome(lambda: dataset_of(folder).prefix_rows())
