"""Commands that stop at any call on a disk, or of which calls fail."""
import re
from collections.abc import Callable, Iterator
from contextlib import contextmanager
from dataclasses import dataclass, field
from pathlib import Path

from journals import framed, framed_before
from reading.files import Broken, payloads_of
from measure import knows
from reading.zones import zone_of
from refusing import folders
from refusing.folders import FIVE, LINES, kept
from refusing.orders import END
from refusing.served import Served
from stopping.disks import Disk, Image, cuts, image_of
from stopping.judging import NO_LIMIT, Differs, Found, State, Told, checked, holds, laid_out, require_state, told
from stopping.recorder import Recorder
from stopping.servers import EMPTY

OLD = Path(__file__).resolve().parent.parent.parent / "contrib/old-format"
DISK_FAILED: Told = (5, "", "rdfdelta: disk failed\n")
# What a command may refuse where another one was broken off.
DAMAGED, NOT_EMPTY = r"file \d+: byte 0: damaged", r"refused: file \d+ not empty: \d"
NO_EVENT, PENDING, OLD_FORMAT = r"file 0: broken event at 0", r"file \d+: upgrade pending", r"file \d+: old format"


@dataclass
class Run:
    """A command over an image, by the program and beside the server that its words may name."""

    program: Path
    folder: Path
    address: str

    def told(self, words: str) -> Told:
        names = {"DIR": str(self.folder), "ADDR": self.address}
        return told(self.program, *(names.get(word, word) for word in words.split()))

    def require(self, words: str, *says: Told) -> Told:
        """One of these is what a command says."""
        found = self.told(words)
        if found not in says:
            raise Differs(f"{words}: {found} over {image_of(self.folder)}")
        return found

    def is_refused(self, words: str, says: Told, *lines: str) -> bool:
        """Whether a command is refused by one of these lines, where it doesn't say what it says else."""
        found = self.told(words)
        if found == says:
            return False
        if found[:2] in ((1, ""), (9, "")) and any(re.fullmatch(f"rdfdelta: {line}\n", found[2]) for line in lines):
            return True
        raise Differs(f"{words}: {found} over {image_of(self.folder)}")


# Brings what was left to its end, and looks at it; and whether the command was done by then.
Settle = Callable[[Run, bool], None]


@dataclass
class Command:
    """A command over files, beside a server over others."""

    program: Path
    title: str
    before: Image
    words: str
    says: Told
    settle: Settle
    peer: Image = field(default_factory=lambda: {number: framed(number, texts) for number, texts in EMPTY.items()})

    @contextmanager
    def peering(self, within: Path) -> Iterator[str]:
        with laid_out(self.peer, within) as folder, Served(self.program, folder) as served:
            yield served.address

    def run(self, recorder: Recorder, within: Path, address: str, first: int, last: int) -> Told:
        """Runs it with these calls failing, and records the others."""
        with laid_out(self.before, within) as folder:
            environment = recorder.environment(folder)
            recorder.fail(first, last)
            names = {"DIR": str(folder), "ADDR": address}
            return told(self.program, *(names.get(word, word) for word in self.words.split()), environment=environment)

    def settled(self, image: Image, within: Path, address: str, is_done: bool, what: str) -> None:
        with laid_out(image, within) as folder:
            try:
                self.settle(Run(self.program, folder, address), is_done)
            except Differs as fault:
                raise Differs(f"{self.title}: {what}: {fault}; the image was {image}") from fault

    def stop(self, recorder: Recorder, within: Path, step: int) -> Found:
        """Looks at each image that a stop may leave, and goes on from it."""
        with self.peering(within) as address:
            found = self.run(recorder, within, address, END, END)
            if found != self.says:
                raise Differs(f"{self.title}: {found}")
            calls, images = recorder.calls(), 0
            for made, image in cuts(self.before, calls, step):
                images += 1
                self.settled(image, within, address, len(made) == len(calls), f"stopped behind {len(made)} calls")
        return len(calls), images

    def fail(self, recorder: Recorder, within: Path, step: int) -> Found:
        """Has each opening, read, write and sync fail by itself, and then each with all behind it."""
        number, failed, images = 1, 0, 0
        with self.peering(within) as address:
            while left := [
                image for last in (number, END) for image in self.left_by(recorder, within, address, number, last)
            ]:
                for image in left:
                    self.settled(image, within, address, False, f"call {number} failed")
                number, failed, images = number + step, failed + 1, images + len(left)
        return failed, images

    def left_by(self, recorder: Recorder, within: Path, address: str, first: int, last: int) -> list[Image]:
        found = self.run(recorder, within, address, first, last)
        if recorder.failed() == 0:
            return []
        # Where it can't read ahead, it reads what it needs.
        if found != DISK_FAILED and not (recorder.is_one_read() and found == self.says):
            raise Differs(f"{self.title}: call {first} failed, and it says {found}")
        disk = Disk(self.before)
        for call in recorder.calls():
            disk.make(call)
        return disk.images()


def remove_all(folder: Path) -> None:
    for path in folder.glob("rdj-*"):
        path.unlink()


def settle_init(run: Run, is_done: bool) -> None:
    look = "check DIR", checked(EMPTY), DAMAGED, NO_EVENT
    if run.is_refused(*look) and is_done:
        raise Differs("it was done")
    # What was made in part is refused, and is removed by hand.
    if run.is_refused("init DIR 2", (0, "", ""), NOT_EMPTY) and run.is_refused(*look):
        remove_all(run.folder)
        run.require("init DIR 2", (0, "", ""))
    require_state(run.program, run.folder, [EMPTY], "init")


def settle_zone(run: Run, is_done: bool) -> None:
    look = "dump DIR", (0, "", ""), DAMAGED
    if run.is_refused(*look) and is_done:
        raise Differs("it was done")
    if run.is_refused("zone DIR", (0, "", ""), NOT_EMPTY) and run.is_refused(*look):
        remove_all(run.folder)
        run.require("zone DIR", (0, "", ""))
    run.require("dump DIR", (0, "", ""))


def dataset(count: int) -> str:
    """The lines of the first patches."""
    return "".join(sorted(line for line in LINES if int(line.split("/o")[1].split(">")[0] or 1) <= count))


def settle_sync(run: Run, is_done: bool) -> None:
    version = len(payloads_of(image_of(run.folder)[1000], 1000, NO_LIMIT))
    if not (5 if is_done else 2) <= version <= 5 or not holds(image_of(run.folder), {1000: FIVE[:version]}):
        raise Differs(f"it has version {version}")
    run.require("dump DIR", (0, dataset(version), ""))
    run.require("sync DIR ADDR ABC", (0, "caught up at version 5\n", ""))
    run.require("dump DIR", (0, dataset(5), ""))


def keeping(version: int, generation: int) -> Settle:
    """A zone of a version, of which a checkpoint is made in a generation, has that version; it goes on with either."""

    def settle(run: Run, is_done: bool) -> None:
        try:
            zone = zone_of(run.folder)
        except Broken as fault:
            raise Differs(str(fault)) from fault
        if len(zone.brief.ids) != version or zone.generation not in (generation - 1, generation)[is_done:]:
            raise Differs(f"it has version {len(zone.brief.ids)} in generation {zone.generation}")
        run.require("dump DIR", (0, dataset(version), ""))
        run.require("checkpoint DIR", (0, f"checkpoint at version {version}\n", ""))
        run.require("sync DIR ADDR ABC", (0, "caught up at version 5\n", ""))
        run.require("dump DIR", (0, dataset(5), ""))

    return settle


def settle_sync_behind(run: Run, is_done: bool) -> None:
    """A zone that had two patches in a checkpoint has a front of its log, and goes on."""
    try:
        version = len(zone_of(run.folder).brief.ids)
    except Broken as fault:
        raise Differs(str(fault)) from fault
    if not (5 if is_done else 2) <= version <= 5:
        raise Differs(f"it has version {version}")
    run.require("dump DIR", (0, dataset(version), ""))
    run.require("sync DIR ADDR ABC", (0, "caught up at version 5\n", ""))
    run.require("dump DIR", (0, dataset(5), ""))


def pairs(program: Path, source: Image) -> list[Command]:
    """Commands over zones on two files, beside a server whose log goes on, where the program makes checkpoints."""
    if not knows(program, "checkpoint", "stopping one is"):
        return []
    first, behind = {1000: framed(1000, FIVE[:3])}, [kept(1, FIVE[:3]), FIVE[3]]
    # What was in doubt behind a shut gate is longer than what comes there, and a gate within it is open.
    doubted = framed(1001, [])[:8] + b"\0" + framed(1001, [b"x" * 300, kept(7, FIVE), *FIVE])[9:]
    in_doubt = {1000: first[1000] + framed(1000, [*FIVE, *FIVE])[9:], 1001: doubted}
    done: dict[int, Told] = {version: (0, f"checkpoint at version {version}\n", "") for version in (3, 4)}
    word, synced = "checkpoint DIR", "sync DIR ADDR ABC"
    two = {1000: framed(1000, FIVE[:2]), 1001: framed(1001, [kept(1, FIVE[:2])])}
    return [
        Command(program, "checkpoint", first, word, done[3], keeping(3, 1), source),
        Command(program, "checkpoint over what was in doubt", in_doubt, word, done[3], keeping(3, 1), source),
        Command(program, "checkpoint behind another", {**first, 1001: framed(1001, behind)}, word, done[4],
                keeping(4, 2), source),
        Command(program, "sync behind a checkpoint", two, synced, (0, "caught up at version 5\n", ""),
                settle_sync_behind, source),
        *(Command(program, f"{words} behind a checkpoint", two, words, says, looking(words, says))
          for words, says in (("dump DIR", (0, dataset(2), "")), ("prefixes DIR", (0, "", "")))),
    ]


def upgrading(before: Image, word: str, look: str, looked: Told) -> Settle:
    """Has the files upgraded, and looks at them by another command, which tells nothing else meanwhile."""
    state: State = {number: payloads_of(file, number, NO_LIMIT, NO_LIMIT) for number, file in before.items()}
    ends = f"upgraded {len(before)} files", "upgrade finished", "upgraded 0 files"

    def settle(run: Run, is_done: bool) -> None:
        if run.is_refused(look, looked, OLD_FORMAT, PENDING) and is_done:
            raise Differs("it was done")
        run.require(f"{word} DIR", *((0, f"{end}\n", "") for end in (ends[2:] if is_done else ends)))
        run.require(look, looked)
        if not holds(image_of(run.folder), state):
            raise Differs("the files have other payloads")
        run.require(f"{word} DIR", (0, f"{ends[2]}\n", ""))

    return settle


def commands(program: Path) -> list[Command]:
    server, zone = image_of(OLD / "server"), image_of(OLD / "zone")
    logs: State = {number: payloads_of(file, number, NO_LIMIT, NO_LIMIT) for number, file in server.items()}
    source = {0: framed(0, folders.EVENTS), 1: framed(1, [FIVE[0], b"".join(FIVE[1:4]), FIVE[4]]), 2: framed(2, [])}
    two = {1000: framed_before(1000, FIVE), 1001: framed_before(1001, [b"abc"])}
    dumped = told_of_zone(program, zone)
    return [
        Command(program, "init", {}, "init DIR 2", (0, "", ""), settle_init),
        Command(program, "zone", {}, "zone DIR", (0, "", ""), settle_zone),
        Command(program, "sync", {1000: framed(1000, FIVE[:2])}, "sync DIR ADDR ABC",
                (0, "caught up at version 5\n", ""), settle_sync, source),
        Command(program, "upgrade", server, "upgrade DIR", (0, f"upgraded {len(server)} files\n", ""),
                upgrading(server, "upgrade", "check DIR", checked(logs))),
        Command(program, "upgrade of a zone", zone, "upgrade_zone DIR", (0, f"upgraded {len(zone)} files\n", ""),
                upgrading(zone, "upgrade_zone", "dump DIR", dumped)),
        Command(program, "upgrade of two files of a zone", two, "upgrade_zone DIR", (0, "upgraded 2 files\n", ""),
                upgrading(two, "upgrade_zone", "dump DIR", (0, dataset(5), ""))),
        *pairs(program, source),
        *looks(program),
    ]


def looking(words: str, says: Told) -> Settle:
    """Looks again, over files that stay as they were."""

    def settle(run: Run, _: bool) -> None:
        run.require(words, says)

    return settle


def looks(program: Path) -> list[Command]:
    """Commands that change no file."""
    zone = {1000: framed(1000, FIVE)}
    logs: State = {0: folders.EVENTS, 1: [FIVE[0], b"".join(FIVE[1:4]), FIVE[4]], 2: []}
    lines = "".join(LINES)
    return [
        Command(program, words, image, words, says, looking(words, says))
        for words, image, says in [
            ("check DIR", {number: framed(number, payloads) for number, payloads in logs.items()}, checked(logs)),
            ("dump DIR", zone, (0, lines, "")),
            ("prefixes DIR", zone, (0, "", "")),
            ("match DIR * * * *", zone, (0, lines, "")),
        ]
    ]


def told_of_zone(program: Path, zone: Image) -> Told:
    """The dataset of a zone's patches, by their replay."""
    texts = b"".join(payloads_of(zone[1000], 1000, NO_LIMIT, NO_LIMIT))
    return told(program, "replay", given=texts)
