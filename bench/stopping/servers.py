"""Servers that stop at any call on a disk, or of which calls fail."""
from collections.abc import Iterator
from contextlib import contextmanager
from dataclasses import dataclass, field
from pathlib import Path

from journals import framed
from refusing.orders import END
from refusing.served import Served
from stopping.disks import Disk, Image, cuts
from stopping.judging import Differs, Found, State, laid_out, require_state
from stopping.recorder import SENT, Recorder
from stopping.requests import Effect, chained, mixed, states, ten_appends, ten_calls

EMPTY: State = {0: [b"S 2"], 1: [], 2: []}
ACCEPTED, DISK_FAULT = b"HTTP/1.1 200", b"HTTP/1.1 500"
# What a request is answered that has been accepted before.
DONE = b"HTTP/1.1 409", b"HTTP/1.1 404"


def status_of(served: Served, effect: Effect) -> bytes:
    return served.say(effect.sent)[:12]


@dataclass
class Server:
    """Requests to a server, each of which is accepted where nothing fails."""

    program: Path
    title: str
    effects: list[Effect]
    # What stands behind the shut gates of files.
    stale: dict[int, bytes] = field(default_factory=dict)

    def __post_init__(self) -> None:
        self.states = states(self.effects, EMPTY)
        self.before: Image = {
            number: framed(number, payloads) + self.stale.get(number, b"") for number, payloads in EMPTY.items()
        }

    @contextmanager
    def served(self, recorder: Recorder, within: Path) -> Iterator[Served]:
        """A server over the files, whose calls are recorded."""
        with laid_out(self.before, within) as folder:
            with Served(self.program, folder, recorder.environment(folder)) as served:
                yield served

    def stop(self, recorder: Recorder, within: Path, step: int) -> Found:
        """Looks at each image that a stop may leave, and goes on from it."""
        with self.served(recorder, within) as served:
            # What is called up to then makes no change.
            begun = len(recorder.calls())
            answered = [status_of(served, effect) for effect in self.effects]
            calls = recorder.calls()[begun:]
        if set(answered) != {ACCEPTED}:
            raise Differs(f"{self.title}: {answered}")
        images = 0
        for made, image in cuts(self.before, calls, step):
            images += 1
            count = sum(call.what == SENT for call in made)
            self.go_on(image, within, count, count + 1, f"{self.title}: stopped behind {len(made)} calls")
        return len(calls), images

    def go_on(self, image: Image, within: Path, answered: int, end: int, what: str) -> None:
        """So many requests stand in an image, or one more; the next ones are accepted up to an end."""
        with laid_out(image, within) as folder:
            state = require_state(self.program, folder, self.states[answered:answered + 2], what)
            left = self.effects[answered:end]
            if not left:
                return
            with Served(self.program, folder) as served:
                found = [status_of(served, effect) for effect in left]
            wanted = (ACCEPTED,) if state == self.states[answered] else DONE
            if found[0] not in wanted or set(found[1:]) - {ACCEPTED}:
                raise Differs(f"{what}: asked again it answers {found} over {image}")
            require_state(self.program, folder, self.states[answered + len(left):][:1], f"{what}, asked again")

    def fail(self, recorder: Recorder, within: Path, step: int) -> Found:
        """Has each write and sync fail by itself, and then each with all behind it."""
        number, failed, images = 1, 0, 0
        while left := [pair for last in (number, END) for pair in self.left_by(recorder, within, number, last)]:
            for answered, image in left:
                self.go_on(image, within, answered, len(self.effects), f"{self.title}: call {number} failed")
            number, failed, images = number + step, failed + 1, images + len(left)
        return failed, images

    def left_by(self, recorder: Recorder, within: Path, first: int, last: int) -> Iterator[tuple[int, Image]]:
        """Sends each request again where the disk fails, until one is refused twice; how many were accepted, and the
        images that a stop may leave then. There are none where no call failed."""
        with self.served(recorder, within) as served:
            begun = len(recorder.calls())
            recorder.fail(first, last)
            answered = self.answered_by(served)
            calls, failed = recorder.calls()[begun:], recorder.failed()
        if failed == 0:
            return
        disk = Disk(self.before)
        for call in calls:
            disk.make(call)
        for image in disk.images():
            yield answered, image

    def answered_by(self, served: Served) -> int:
        for place, effect in enumerate(self.effects):
            found = [status_of(served, effect)]
            if found[-1] == DISK_FAULT:
                found.append(status_of(served, effect))
            if found[-1] == DISK_FAULT:
                return place
            if found[-1] != ACCEPTED:
                raise Differs(f"{self.title}: {effect.sent!r} is answered {found}")
        return len(self.effects)


def servers(program: Path) -> list[Server]:
    """What was in doubt behind a shut gate is longer than what comes there, and a gate within it is open."""
    stale = {0: framed(0, [b"S 2", b"C 1 x", b"R 1 x"])[21:], 1: framed(1, chained(21, 29))[9:]}
    return [
        Server(program, "ten appends", ten_appends()),
        Server(program, "ten calls of the registry", ten_calls()),
        Server(program, "runs and patches of two logs", mixed()),
        Server(program, "the same over what was in doubt", mixed(), stale),
    ]
