"""rdfd backup and restore: copies of logs over HTTP."""
from __future__ import annotations

from pathlib import Path

import click

from rdfdelta import copies
from rdfdelta.commands.options import bar, folder_type, say, server_option, tell
from rdfdelta.server import Server


@click.command()
@click.argument("folder", type=folder_type, metavar="DIR")
@server_option
@click.pass_context
def backup(context: click.Context, folder: Path, server: Server) -> None:
    """Copy what is new in the logs of a server.

    The server runs meanwhile. Beside the patches stand the list of sources and the lines of `check`. It may be
    stopped at any moment, and goes on where it was. A log that isn't the one that was copied is left alone and
    told, with status 10.
    """
    with bar() as look:
        outcomes = copies.back_up(server, folder, lambda source, done, total: look(source.name, done, total))
    for outcome in outcomes:
        if outcome.trouble:
            tell(f"{outcome.source.name}: {outcome.trouble}")
        else:
            say(f"{outcome.source.name}: version {outcome.version}, {outcome.moved} new")
    context.exit(10 if any(outcome.trouble for outcome in outcomes) else 0)


@click.command()
@click.argument("folder", type=folder_type, metavar="DIR")
@server_option
def restore(folder: Path, server: Server) -> None:
    """Give a copy back to an empty server.

    The copy is one of `rdfd backup`. The sources get their names, URIs and ids, and the logs their patches, as they
    were sent. Stopped at any moment, it goes on when it is run again. A server whose logs lack the newest patches
    of the copy gets those. Any other server that isn't empty is left as it is, with status 10.
    """
    with bar() as look:
        outcomes = copies.restore(server, folder, lambda source, done, total: look(source.name, done, total))
    for outcome in outcomes:
        say(f"{outcome.source.name}: version {outcome.version}, {outcome.moved} given back")
        if outcome.trouble:
            tell(f"{outcome.source.name}: {outcome.trouble}")
