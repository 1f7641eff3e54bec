"""Which allocations of a program are refused, and how many were."""
import mmap
import os
import struct
import subprocess
from pathlib import Path

from measure import want

SOURCE = Path(__file__).with_name("refusing.c")
NUMBERS = struct.Struct("5Q")
# Behind the last allocation of any run.
END = 2**63


class Orders:
    """The library that refuses, built into a folder, and the orders that it reads there."""

    def __init__(self, folder: Path) -> None:
        want("cc", "the compiler of C, for the library that refuses allocations")
        library, path = folder / "refusing.so", folder / "orders"
        subprocess.run(["cc", "-O2", "-shared", "-fPIC", "-o", library, SOURCE], check=True)
        path.write_bytes(bytes(NUMBERS.size))
        with path.open("r+b") as file:
            self.shared = mmap.mmap(file.fileno(), NUMBERS.size)
        self.environment = {**os.environ, "LD_PRELOAD": str(library), "REFUSING": str(path)}

    def refuse(self, first: int, last: int, each: int = 0) -> None:
        """From now on refuses the allocations of these numbers, counted anew from 1, and each of the last number."""
        self.shared[:] = NUMBERS.pack(first, last, each, 0, 0)

    def stop(self) -> None:
        """Refuses nothing any more, and goes on counting."""
        self.shared[:24] = bytes(24)

    def allow(self) -> int:
        """Refuses nothing any more; how many allocations were refused since the last order."""
        refused: int = NUMBERS.unpack(self.shared[:])[4]
        self.shared[:] = bytes(NUMBERS.size)
        return refused
