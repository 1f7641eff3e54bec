"""Commands that are refused memory, over files and beside a server that isn't."""
import re
import subprocess
from collections.abc import Callable, Iterator
from contextlib import contextmanager, nullcontext
from dataclasses import dataclass, field
from pathlib import Path

from refusing.orders import Orders
from refusing.served import Served
from refusing.tries import DONE, OTHER, STATUS_8, TOLD, USUAL

# A status, and what stands on out and on err.
Told = tuple[int, str, str]
NO_MEMORY: Told = (8, "", "rdfdelta: out of memory\n")
# The ids of the cases have another form than those that are drawn by chance, which are told apart from them alone.
DRAWN = re.compile(r"(?!00000000)[0-9a-f]{8}-[0-9a-f]{4}-4[0-9a-f]{3}-[89ab][0-9a-f]{3}-[0-9a-f]{12}")


@dataclass(frozen=True)
class Words:
    """Words of a command, what it reads, and what it says."""

    words: str
    says: Told
    given: bytes = b""


@dataclass
class Command:
    """A command whose words may name the folder, `DIR`, and the address of a server over it, `ADDR`."""

    program: Path
    title: str
    begin: Callable[[Path], None]
    usual: Words
    # What it may say once it has been done, and what else is asked in the end.
    done: list[Told] = field(default_factory=list)
    looks: list[Words] = field(default_factory=list)
    # What a look may say too where memory was wanting half way.
    half: list[Told] = field(default_factory=list)
    # What the command may say where it is the server that is refused memory.
    server_wants: list[Told] = field(default_factory=list)

    @contextmanager
    def begun(self, folder: Path, orders: Orders) -> Iterator["Ran"]:
        self.begin(folder)
        environment = orders.environment if self.server_wants else None
        is_served = "ADDR" in self.usual.words
        with Served(self.program, folder, environment) if is_served else nullcontext() as served:
            yield Ran(self, orders, {"DIR": str(folder), "ADDR": served.address if served else ""})


@dataclass
class Ran:
    """A command over one folder."""

    command: Command
    orders: Orders
    names: dict[str, str]

    def said(self, asked: Words, environment: dict[str, str] | None = None) -> Told:
        words = [self.names.get(word, word) for word in asked.words.split()]
        done = subprocess.run([self.command.program, *words], input=asked.given, capture_output=True, env=environment)
        out, err = (DRAWN.sub("DRAWN", text.decode()) for text in (done.stdout, done.stderr))
        return done.returncode, out, err

    def ask(self, first: int, last: int) -> tuple[str, Told, int]:
        usual, server_wants = self.command.usual, self.command.server_wants
        self.orders.refuse(first, last)
        found = self.said(usual, None if server_wants else self.orders.environment)
        refused = self.orders.allow()
        ends = {NO_MEMORY: STATUS_8, **dict.fromkeys(server_wants, TOLD), usual.says: USUAL}
        return ends.get(found, OTHER), found, refused

    def ask_again(self) -> tuple[str, Told]:
        usual, found = self.command.usual, self.said(self.command.usual)
        if found in (self.command.done or [usual.says]):
            return DONE, found
        return USUAL if found == usual.says else OTHER, found

    def left(self, end: str) -> object:
        half = [] if end == USUAL else self.command.half
        found = [(look, self.said(look)) for look in self.command.looks]
        return [(look.words, said) for look, said in found if said not in (look.says, *half)]
