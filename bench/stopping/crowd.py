"""A server that stops while sixteen clients append."""
import http.client
import random
import re
import time
from collections import Counter
from dataclasses import dataclass
from pathlib import Path

from chains import Log, operation
from journals import framed
from reading.files import payloads_of
from refusing.served import Served
from refusing.side_by_side import LOGS, WORKERS, Appending
from stopping.disks import Disk, Image, image_of, written
from stopping.judging import NO_LIMIT, Differs, Found, State, checked, ids_of, laid_out, told
from stopping.recorder import SENT, Call, Recorder

# For how many seconds they append, and at how many places images are made.
SECONDS, PLACES = 1, 400
NAME, VERSION = re.compile(rb'"name":"L(\d)"'), re.compile(rb'"first":\d+,"version":(\d+)')


class Naming(Appending):
    """Clients whose first request on a connection names their log, so that the record tells whose replies are whose."""

    def connected(self, log: Log) -> http.client.HTTPConnection:
        connection = super().connected(log)
        operation(connection, operation="source", name=log.name)
        return connection


class Answered:
    """The highest version that was acknowledged of each log, by the bytes that were sent over each connection."""

    def __init__(self) -> None:
        self.logs, self.versions = dict[int, int](), Counter[int]()

    def take(self, call: Call) -> None:
        if name := NAME.search(call.content):
            self.logs[call.file] = int(name[1])
        if version := VERSION.search(call.content):
            log = self.logs[call.file]
            self.versions[log] = max(self.versions[log], int(version[1]))


@dataclass
class Crowd:
    """Sixteen clients that append runs to four logs."""

    program: Path
    title: str = "sixteen clients"

    def record(self, recorder: Recorder, within: Path, before: Image) -> tuple[list[Call], State]:
        """The calls, and the payloads of all files in the end."""
        logs = [Log(f"L{number}") for number in range(1, LOGS + 1)]
        with laid_out(before, within) as folder:
            with Served(self.program, folder, recorder.environment(folder), WORKERS) as served:
                clients = Naming(served, logs, time.monotonic() + SECONDS)
                clients.run()
            if clients.others:
                raise Differs(f"{self.title}: {clients.others[:3]}")
            return recorder.calls(), {
                number: payloads_of(file, number, NO_LIMIT)
                for number, file in image_of(folder).items() if number <= LOGS
            }

    def stop(self, recorder: Recorder, within: Path, step: int) -> Found:
        """Looks at images that a stop may leave at places drawn by chance: none of what isn't synced, all, and some."""
        made = [f"C {number} {number:08}-0000-4000-8000-000000000000 L{number} http://e/{number}" for number in range(1, 5)]
        events = [f"S {LOGS}", *made]
        before: Image = {0: framed(0, [event.encode() for event in events])}
        before.update({number: framed(number, []) for number in range(1, LOGS + 1)})
        calls, end = self.record(recorder, within, before)
        places = set(random.sample(range(len(calls)), min(PLACES // step, len(calls))))
        disk, answered, images = Disk(before), Answered(), 0
        for place, call in enumerate(calls):
            disk.make(call)
            if call.what == SENT:
                answered.take(call)
            if place in places:
                for share in 0, 1, 0.5:
                    images += 1
                    self.require(drawn(disk, share), within, answered, end, f"{self.title}: behind {place + 1} calls")
        return len(calls), images

    def require(self, image: Image, within: Path, answered: Answered, end: State, what: str) -> None:
        """Each log is a front of what it was in the end, with all that was acknowledged, and `check` tells it."""
        state = {number: payloads_of(file, number, NO_LIMIT) for number, file in image.items() if number <= LOGS}
        with laid_out(image, within) as folder:
            found = told(self.program, "check", folder)
        for number, payloads in state.items():
            version = sum(len(ids_of(payload)) for payload in payloads)
            if payloads != end[number][:len(payloads)] or number and version < answered.versions[number]:
                raise Differs(f"{what}: log {number} has version {version}, and {answered.versions} was answered")
        if found != checked(state):
            raise Differs(f"{what}: check tells {found}")


def drawn(disk: Disk, share: float) -> Image:
    """An image with about such a share of the writes that aren't synced."""
    return {
        number: written(file.synced, [write for write in file.writes if random.random() < share])
        for number, file in disk.files.items()
    }
