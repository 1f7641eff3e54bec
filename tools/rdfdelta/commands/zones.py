"""rdfd follow, checkpoint, dump, prefixes and match: a zone that keeps up with a log, and is read meanwhile."""
from __future__ import annotations

import os
import subprocess
import time
from pathlib import Path

import click

from rdfdelta import errors, locks
from rdfdelta import why as causes
from rdfdelta.commands.options import bar, folder_type, line_of, log_argument, program_option, say, server_option, tell
from rdfdelta.program import Program
from rdfdelta.server import Log, Server
from rdfdelta.zones import DISK_FAILED, TRIED_AGAIN, Zone, hint

MOST_WAIT = 60.0
PASSING = frozenset({429, 502, 503, 504})


def catch_up(zone: Zone, log: Log, is_first: bool) -> int:
    """Has a zone catch up with its log; its version then. Where both are the same already, the zone isn't opened."""
    state = log.state()
    if is_first or state != zone.state():
        with bar() as look:
            zone.sync(log, lambda version: look(log.name, version, max(state.version, version)))
    log.server.rest()
    return zone.state().version


class Checkpoints:
    """Makes a checkpoint of a zone whenever so many patches stand behind the last one; never, where none are named."""

    def __init__(self, zone: Zone, each: int | None) -> None:
        self.zone = zone
        self.each = each
        # The version at which none could be made, since it would be too large.
        self._refused = 0

    def look(self, version: int) -> bool:
        """Whether one is made at a version."""
        if self.each is None or version - max(self.zone.kept(), self._refused) < self.each:
            return False
        try:
            self.zone.make_checkpoint()
        except errors.ProgramFailed as error:
            if "checkpoint too large" not in error.line:
                raise
            tell(f"{line_of(error)}; trying again in {self.each:,} patches")
            self._refused = version
            return False
        return True


def passes(zone: Zone, error: errors.RdfDeltaError) -> bool:
    """Whether an error is one that another try may not meet."""
    match error:
        case errors.ProgramFailed(status=status):
            is_held = status == DISK_FAILED and any(map(locks.is_held, zone.files))
            return status in TRIED_AGAIN or is_held or "refused: 503" in error.line
        case errors.Refused(status=status):
            return status in PASSING
    return isinstance(error, errors.LinkFailed | errors.Held)


def explain(zone: Zone, error: errors.RdfDeltaError) -> None:
    """What an error that doesn't pass comes from, and what to do."""
    if isinstance(error, errors.NoSource):
        error = errors.ProgramFailed(1, str(error))
    if not isinstance(error, errors.ProgramFailed):
        return
    found = hint(zone.folder, error)
    for line in found.splitlines() if found else ():
        tell(line)
    if error.status == DISK_FAILED:
        for finding in causes.why(str(zone.folder.absolute())):
            tell(finding.text)


def run_command(command: str, log: str, zone: Path, version: int) -> None:
    """Runs the command that waits for the zone to grow; where it fails that is told, and the following goes on."""
    environment = {**os.environ, "RDFD_LOG": log, "RDFD_ZONE": str(zone), "RDFD_VERSION": str(version)}
    status = subprocess.run(["sh", "-c", command], env=environment).returncode
    if status != 0:
        tell(f"status {status} of: {command}")


@click.command()
@click.argument("zone", type=folder_type)
@log_argument
@server_option
@program_option
@click.option("--every", type=click.FloatRange(min=0.1), default=5.0, show_default=True, metavar="SECONDS",
              help="How often to ask for the log's version.")
@click.option("--once", is_flag=True, help="End when the zone has caught up.")
@click.option("--checkpoint", type=click.IntRange(min=1), metavar="N", envvar="RDFD_CHECKPOINT",
              help="Make a checkpoint behind each N patches; or RDFD_CHECKPOINT. Else none is made.")
@click.option("--run", metavar="COMMAND", envvar="RDFD_RUN",
              help="A command of sh, at the start and whenever the zone grew; or RDFD_RUN. "
                   "It has RDFD_LOG, RDFD_ZONE and RDFD_VERSION.")
def follow(
    zone: Path, log: str, server: Server, program: Program, every: float, once: bool, checkpoint: int | None,
    run: str | None,
) -> None:
    """Keep a zone in step with a log.

    The zone is made in its folder where there is none. The program's `sync` is called whenever the log and the zone
    differ, under a lock that `rdfd dump`, `rdfd prefixes` and `rdfd match` wait for. Where the server can't be
    reached it is tried again, ever more rarely. It may be stopped at any moment.
    """
    copy = Zone(zone, program, tell)
    copy.make()
    checkpoints = Checkpoints(copy, checkpoint)
    told: int | None = None
    wait = every
    while True:
        try:
            version = catch_up(copy, server.log(log), told is None)
            is_kept = checkpoints.look(version)
        except errors.RdfDeltaError as error:
            if once or not passes(copy, error):
                explain(copy, error)
                raise
            tell(f"{line_of(error)}; trying again in {wait:.0f} s")
            wait = min(wait * 2, max(every, MOST_WAIT))
        else:
            wait = every
            if is_kept:
                say(f"{log}: checkpoint at version {copy.kept()}")
            if version != told:
                say(f"{log}: version {version}")
                if run:
                    run_command(run, log, zone, version)
                told = version
            if once:
                return
        time.sleep(wait)


@click.command()
@click.argument("zone", type=folder_type)
@program_option
@click.pass_context
def checkpoint(context: click.Context, zone: Path, program: Program) -> None:
    """Make a checkpoint of a zone.

    As `rdfdelta checkpoint`; but it waits while the zone is written.
    """
    context.exit(Zone(zone, program, tell).show("checkpoint"))


@click.command()
@click.argument("zone", type=folder_type)
@program_option
@click.pass_context
def dump(context: click.Context, zone: Path, program: Program) -> None:
    """The dataset of a zone.

    As `rdfdelta dump`; but it waits while the zone is written.
    """
    context.exit(Zone(zone, program, tell).show("dump"))


@click.command()
@click.argument("zone", type=folder_type)
@program_option
@click.pass_context
def prefixes(context: click.Context, zone: Path, program: Program) -> None:
    """The prefixes of a zone.

    As `rdfdelta prefixes`; but it waits while the zone is written.
    """
    context.exit(Zone(zone, program, tell).show("prefixes"))


@click.command()
@click.argument("zone", type=folder_type)
@click.argument("graph")
@click.argument("subject")
@click.argument("predicate")
@click.argument("object", metavar="OBJECT")
@program_option
@click.pass_context
def match(
    context: click.Context, zone: Path, graph: str, subject: str, predicate: str, object: str, program: Program
) -> None:
    """The quads of a zone that match.

    As `rdfdelta match`; but it waits while the zone is written. Each part is a term as in N-Quads or '*'; the graph
    may be 'default'.
    """
    context.exit(Zone(zone, program, tell).show("match", graph, subject, predicate, object))
