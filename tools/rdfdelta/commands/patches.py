"""rdfd patches: what stands in the file of a log or a zone."""
from __future__ import annotations

from collections.abc import Iterator
from itertools import chain
from pathlib import Path

import click

from rdfdelta import errors
from rdfdelta.answers import Appended
from rdfdelta.commands.options import DEFAULT_ADDRESS, file_type, log_names, say, write
from rdfdelta.journal import Journal
from rdfdelta.runs import append_all
from rdfdelta.server import Log, Server


@click.command()
@click.argument("file", type=file_type)
@click.argument("start", type=click.IntRange(min=1), default=1, metavar="[FROM]")
@click.option("--append", "log", metavar="LOG", shell_complete=log_names,
              help="Append them to a log as they are, instead of printing them.")
@click.option("-s", "--server", "address", metavar="ADDR", envvar="RDFD_SERVER", default=DEFAULT_ADDRESS,
              show_default=True, help="The server of that log.")
def patches(file: Path, start: int, log: str | None, address: str) -> None:
    """The patches in the file of a log or zone.

    FILE is a journal or a zone's folder; its patches are printed as a stream, from version FROM on. The file is
    read whole and checked first; one that is damaged or no chain is refused with its byte or version, and nothing
    is printed. One that a program holds is refused too: of a log that is served, ask the server.
    """
    found = list(Journal.read(file).patches(start))
    if log is None:
        write(b"".join(patch for _, patch in found))
        return
    target = Server(address).log(log)
    for (version, _), stands in zip(found, give(target, found)):
        if stands.version != version:
            raise errors.Parted(f"patch {version} of the file stands at version {stands.version} of {log}")
        say(f"{log}: version {version}{', which it had' if stands.known else ''}")


def give(log: Log, patches: list[tuple[int, bytes]]) -> Iterator[Appended]:
    """Appends patches with their versions. Those that the log has already are sent one by one: a run of which it has a
    part alone would be refused."""
    has = log.state().version
    known = [patch for version, patch in patches if version <= has]
    return chain(map(log.append, known), append_all(log, [patch for version, patch in patches if version > has]))
