"""rdfd move-log: a full log goes on in a new one."""
from __future__ import annotations

import click

from rdfdelta import moves
from rdfdelta.commands.options import bar, log_argument, program_option, say, server_option
from rdfdelta.program import Program
from rdfdelta.server import Server


@click.command("move-log")
@log_argument
@server_option
@program_option
@click.option("--anyway", is_flag=True, help="Move a log too that isn't half full.")
def move_log(log: str, server: Server, program: Program, anyway: bool) -> None:
    """Move a full log into a new one.

    Its dataset and prefixes go into a new log of the same name. That one is filled as LOG.next; then the old source
    becomes LOG-1, and the new one LOG. It has another id and slot, and begins at version 1. Stopped at any moment,
    it goes on when it is run again. Readers find no LOG for the moment between the two renamings.
    """
    with bar() as look:
        moved = moves.move_log(server, program, log, anyway, look)
    say(f"{moved.old.name}: slot {moved.old.slot}, version {moved.old_version}, id {moved.old.id}")
    say(f"{moved.new.name}: slot {moved.new.slot}, version {moved.new_version}, id {moved.new.id}")
