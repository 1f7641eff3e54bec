"""A real server on loopback with logs of sample patches, for scripts that follow them."""
import contextlib
import http.client
import random
import socket
import subprocess
import sys
import time
import uuid
from collections.abc import Iterator
from pathlib import Path

TOP = Path(__file__).resolve().parents[2]
XSD = "http://www.w3.org/2001/XMLSchema#"
# Forms that each reader of patches is to take: labels, tags and datatypes, escapes, prefixes, and a block that TA ends.
SAMPLES = [
    f"""PA ex <http://e/> .
PA "b" "http://b/" .
PA : <http://empty/> .
PA g: <http://g/> <http://e/g> .
TX .
A <http://e/s> <http://e/p> <http://e/o> .
A _:a.b <http://e/p> "chat"@FR _:g .
A <_:z9> <http://e/p> "1"^^<{XSD}integer> <http://e/g> .
A <http://e/\\u00e9> <http://e/p> "a\\n\\"\\\\\\t\\u0041\\U0001F600 é" .
A <http://e/s> <http://e/p> "x"^^<{XSD}string> .
A <http://e/s> <http://e/p> "2020-01-01T00:00:00Z"^^<{XSD}dateTime> .
A <http://e/s>
  <http://e/p> "1.50"^^<{XSD}decimal> . # a row may span lines
A <http://e/s> <http://e/p> "no number"^^<{XSD}int> .
A <http://e/s> <http://e/p> "z"^^<http://e/datatype> .
TC .
TX .
A _:no <http://e/p> "no" .
PA no <http://no/> .
TA .
""",
    """H note "the headers that it doesn't know are passed over" .
PD b .
D <http://e/s> <http://e/p> <http://e/o> .
D <http://e/s> <http://e/p> "is not there" .
D _:a.b <http://e/p> "chat"@fr _:g .
A _:a.b <http://e/p> "chat"@en-GB _:g .
""",
    "TX .\nTC .\n",
]


class Chain:
    """Patches of which each names the one before it."""

    def __init__(self) -> None:
        self.texts: list[str] = []
        self.head: str | None = None

    def add(self, rows: str) -> None:
        name = str(uuid.uuid4())
        before = f"H prev <uuid:{self.head}> .\n" if self.head else ""
        self.texts.append(f"H id <uuid:{name}> .\n{before}{rows}")
        self.head = name


def random_rows(source: random.Random) -> str:
    """Rows over so few terms that many delete what is there."""
    subjects = [*(f"<http://e/s{number}>" for number in range(9)), "_:b0", "_:b1", "<_:b2>"]
    objects = [*subjects, '"a"', '"a"@en', '"a"@EN', f'"7"^^<{XSD}integer>', '"\\u00e9\\n"']
    graphs = ["", "", " <http://e/g>", " _:g"]
    rows = []
    for _ in range(source.randrange(1, 6)):
        triple = f"{source.choice(subjects)} <http://e/p> {source.choice(objects)}"
        rows.append(f"{source.choice('AAD')} {triple}{source.choice(graphs)} .")
    return "\n".join(["TX .", *rows, "TA ." if source.random() < 0.1 else "TC ."]) + "\n"


class Server:
    """The server on a free port, over a folder of its own."""

    def __init__(self, folder: Path) -> None:
        self.program = subprocess.run([TOP / "bin/program"], capture_output=True, text=True, check=True).stdout.strip()
        with socket.socket() as probe:
            probe.bind(("127.0.0.1", 0))
            self.address = f"127.0.0.1:{probe.getsockname()[1]}"
        files = folder / "data"
        files.mkdir()
        self.run("init", files, 8)
        self.process = subprocess.Popen([self.program, "serve", files, self.address, "8"])
        while subprocess.run([self.program, "ping", self.address], capture_output=True).returncode != 0:
            if self.process.poll() is not None:
                sys.exit("the server ended")
            time.sleep(0.05)

    def run(self, *words: object, text: str = "") -> str:
        """What a command of the program prints."""
        command = [self.program, *map(str, words)]
        return subprocess.run(command, input=text, capture_output=True, text=True, check=True).stdout

    def append(self, name: str, patches: list[str]) -> None:
        link = http.client.HTTPConnection(self.address, timeout=60)
        with contextlib.closing(link):
            for patch in patches:
                link.request("POST", f"/{name}", patch.encode())
                reply = link.getresponse()
                body = reply.read()
                if reply.status != 200:
                    sys.exit(f"an append: {reply.status} {body.decode()}")


@contextlib.contextmanager
def serving(folder: Path) -> Iterator[Server]:
    server = Server(folder)
    try:
        yield server
    finally:
        server.process.kill()
        server.process.wait()
