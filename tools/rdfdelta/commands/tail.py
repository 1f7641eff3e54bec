"""rdfd tail: the newest patches of a log, and those that come."""
from __future__ import annotations

import re
import time

import click
from rich.text import Text

from rdfdelta import errors
from rdfdelta.commands.options import log_argument, out, server_option, tell, visible, write
from rdfdelta.server import Log, Server

LEAST_WAIT, MOST_WAIT = 0.5, 10.0
_CODE = re.compile(r"\s*(TX|TC|TA|PA|PD|A|D|H)\b")
_STYLES = {"A": "green", "D": "red", "PA": "cyan", "PD": "magenta"}


def show(version: int, patch: bytes) -> None:
    """A patch in colours on a terminal, and else its bytes as they are."""
    if not out.is_terminal:
        write(patch)
        return
    out.print(f"version {version}", style="bold", markup=False)
    for line in patch.decode("utf-8", "replace").rstrip("\n").split("\n"):
        found = _CODE.match(line)
        out.print(Text(visible(line), style=_STYLES.get(found[1], "dim") if found else ""))


def show_new(log: Log, version: int) -> int:
    """Shows what the log has behind a version; the version then."""
    state = log.state()
    if state.version < version:
        raise errors.Parted(f"{log.name} was at version {version} and is at {state.version}: it went back in time")
    for at, patch in log.patches(version, state.version):
        show(at, patch)
    return state.version


@click.command()
@log_argument
@server_option
@click.option("-n", "--number", type=click.IntRange(min=0), default=10, show_default=True, help="How many patches.")
@click.option("-f", "--follow", is_flag=True, help="Go on with those that come, until Ctrl-C.")
def tail(log: str, server: Server, number: int, follow: bool) -> None:
    """The newest patches of a log, and those that come.

    On a terminal in colours, and else byte for byte, as `rdfdelta replay` reads them. While nothing comes the log is
    asked less often, at most each ten seconds, and no connection is kept meanwhile.
    """
    target = server.log(log)
    version = show_new(target, max(0, target.state().version - number))
    wait, unreached = LEAST_WAIT, False
    while follow:
        server.rest()
        time.sleep(wait)
        before = version
        try:
            version = show_new(target, version)
            unreached = False
        except errors.LinkFailed as error:
            if not unreached:
                tell(f"{error}; trying again")
            unreached = True
        wait = LEAST_WAIT if version > before else min(wait * 2, MOST_WAIT)
