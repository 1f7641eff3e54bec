"""What a power cut may leave of files."""
from collections.abc import Iterator
from dataclasses import dataclass, field
from pathlib import Path

from stopping.recorder import FOLDER_SYNCED, MADE, SYNCED, WRITTEN, Call

# The files of a folder by their numbers.
Image = dict[int, bytes]
Write = tuple[int, bytes]


def written(content: bytes, writes: list[Write]) -> bytes:
    """These bytes with writes over them; what lies between is zero."""
    found = bytearray(content)
    for at, new in writes:
        found.extend(bytes(max(0, at - len(found))))
        found[at:at + len(new)] = new
    return bytes(found)


def subsets(writes: list[Write]) -> list[list[Write]]:
    """Which of the writes that aren't synced may be on the disk: none, all, each alone, all but each, and the halves of
    the last one behind the others."""
    kept = [[], writes, *([write] for write in writes)]
    kept += [writes[:place] + writes[place + 1:] for place in range(len(writes))]
    if writes and len(writes[-1][1]) > 1:
        at, content = writes[-1]
        half = len(content) // 2
        kept += [[*writes[:-1], (at, content[:half])], [*writes[:-1], (at + half, content[half:])]]
    return kept


@dataclass
class File:
    """What is on the disk of a file, what may be, and whether the folder surely names it."""

    synced: bytes = b""
    writes: list[Write] = field(default_factory=list)
    is_named: bool = False


class Disk:
    """The files of a folder while a program makes calls on them."""

    def __init__(self, image: Image) -> None:
        self.files = {number: File(content, is_named=True) for number, content in image.items()}

    def make(self, call: Call) -> None:
        if call.what == MADE:
            self.files[call.file] = File()
        elif call.what == WRITTEN:
            self.files[call.file].writes.append((call.at, call.content))
        elif call.what == SYNCED:
            file = self.files[call.file]
            file.synced, file.writes = written(file.synced, file.writes), []
        elif call.what == FOLDER_SYNCED:
            for file in self.files.values():
                file.is_named = True

    def images(self) -> list[Image]:
        """The images that a power cut may leave: all of what isn't synced, nothing of it, and of one file at a time
        some. A file that isn't surely named may be gone."""
        found = [{number: file.synced for number, file in self.files.items() if file.is_named}]
        others = {number: written(file.synced, file.writes) for number, file in self.files.items()}
        for number, file in self.files.items():
            for writes in subsets(file.writes):
                image = {**others, number: written(file.synced, writes)}
                if image not in found:
                    found.append(image)
        return found


def image_of(folder: Path) -> Image:
    return {int(path.name[4:]): path.read_bytes() for path in folder.glob("rdj-*")}


def cuts(before: Image, calls: list[Call], step: int) -> Iterator[tuple[list[Call], Image]]:
    """Each image that a power cut may leave behind a front of the calls, with that front: behind each step-th one and
    all of them."""
    disk = Disk(before)
    for count in range(len(calls) + 1):
        if count:
            disk.make(calls[count - 1])
        if count % step == 0 or count == len(calls):
            for image in disk.images():
                yield calls[:count], image
