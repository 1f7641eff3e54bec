"""Files of journals, written by hand, for scripts that begin with a log of many patches."""
import re
import subprocess
import uuid
from pathlib import Path

from reading.checkpoints import LONGEST_FIRST_LINE, first_line

BEGINS = re.compile(rb"^H id ", re.MULTILINE)


def framed(number, payloads):
    """A journal file of these payloads."""
    body = b"".join(
        b"\1" + count.to_bytes(4, "big") + len(payload).to_bytes(4, "big") + payload
        for count, payload in enumerate(payloads, 1)
    )
    return b"RDJ2" + number.to_bytes(4, "big") + body + b"\0"


def framed_before(number, payloads):
    """The same in the form before this one, which versions up to 0.2.0 write."""
    body = b"".join(b"\1" + len(payload).to_bytes(4, "big") + payload for payload in payloads)
    return b"RDJ1" + number.to_bytes(4, "big") + body + b"\0"


def payloads_of(file):
    """How many payloads stand before the gate that is shut."""
    bytes, place, count = file.read_bytes(), 8, 0
    while bytes[place] == 1:
        place += 9 + int.from_bytes(bytes[place + 5 : place + 9], "big")
        count += 1
    return count


def version_of(zone):
    """The generation of a zone, and how many patches it has taken, by the file that is current; what stands first in the
    other one says only that it isn't."""
    found = [(0, 0)]
    for file in sorted(zone.glob("rdj-100[01]")):
        if file.stat().st_size <= 9:
            continue
        count, line = payloads_of(file), first_line(file.read_bytes()[17 : 17 + LONGEST_FIRST_LINE])
        if count and line:
            found.append((line[0], line[1] + count - 1))
        elif file.name == "rdj-1000":
            found.append((0, count))
    return max(found)


def fill(folder, logs):
    """The files of sources named L1 and so on, whose logs hold these patches."""
    sources = [f"C {slot} {uuid.uuid4()} L{slot} http://e/{slot}".encode() for slot in range(1, len(logs) + 1)]
    Path(folder, "rdj-0000").write_bytes(framed(0, [f"S {len(logs)}".encode(), *sources]))
    for slot, patches in enumerate(logs, 1):
        Path(folder, f"rdj-{slot:04}").write_bytes(framed(slot, patches))


def generated(program, patches):
    """The generator's stream of so many patches, and the patches one by one."""
    stream = subprocess.run([program, "emit", str(patches)], stdout=subprocess.PIPE, check=True).stdout
    places = [found.start() for found in BEGINS.finditer(stream)] + [len(stream)]
    return stream, [stream[here:there] for here, there in zip(places, places[1:])]
