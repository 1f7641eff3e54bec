"""The calls that a program made on the files of a folder, in their order."""
import mmap
import os
import struct
import subprocess
from collections.abc import Iterator
from dataclasses import dataclass
from pathlib import Path

from measure import want

SOURCE = Path(__file__).with_name("recording.c")
CALL, NUMBERS = struct.Struct("<BIQQ"), struct.Struct("10Q")
MADE, WRITTEN, SYNCED, FOLDER_SYNCED, SENT = range(5)


@dataclass(frozen=True)
class Call:
    """A call that was made: what it did, of which file, where, and with which bytes."""

    what: int
    file: int
    at: int
    content: bytes


class Recorder:
    """The library that records, built into a folder, with the record and the orders there."""

    def __init__(self, scratch: Path) -> None:
        want("cc", "the compiler of C, for the library that records calls")
        self.library, self.record, self.orders = scratch / "recording.so", scratch / "record", scratch / "orders"
        subprocess.run(["cc", "-O2", "-shared", "-fPIC", "-o", self.library, SOURCE], check=True)
        self.orders.write_bytes(bytes(NUMBERS.size))
        with self.orders.open("r+b") as file:
            self.shared = mmap.mmap(file.fileno(), NUMBERS.size)

    def environment(self, folder: Path) -> dict[str, str]:
        """What a program is started with whose calls on the files of a folder are recorded anew."""
        self.record.unlink(missing_ok=True)
        self.shared[:] = bytes(NUMBERS.size)
        names = {"LD_PRELOAD": self.library, "RECORD": self.record, "ORDERS": self.orders, "FOLDER": folder}
        return {**os.environ, **{name: str(value) for name, value in names.items()}}

    def fail(self, first: int, last: int) -> None:
        """From now on has the calls on files of these numbers fail, counted anew from 1."""
        self.shared[:] = NUMBERS.pack(first, last, *[0] * 8)

    def fail_links(self, first: int, last: int) -> None:
        """The same of reads and writes of connections."""
        self.shared[:] = NUMBERS.pack(*[0] * 5, first, last, *[0] * 3)

    def failed(self) -> int:
        """How many failed since."""
        numbers = NUMBERS.unpack(self.shared[:])
        return int(numbers[3] + numbers[8])

    def is_one_read(self) -> bool:
        """Whether one call failed, and that a read of a file."""
        numbers = NUMBERS.unpack(self.shared[:])
        return bool(numbers[3] == numbers[4] == 1)

    def calls(self) -> list[Call]:
        return list(read_calls(self.record.read_bytes()))


def read_calls(record: bytes) -> Iterator[Call]:
    place = 0
    while place < len(record):
        what, file, at, length = CALL.unpack_from(record, place)
        place += CALL.size
        yield Call(what, file, at, record[place:place + length])
        place += length
