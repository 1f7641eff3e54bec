"""rdfd logs: the logs of a server, and how full they are."""
from __future__ import annotations

import time
from dataclasses import dataclass
from pathlib import Path

import click
from rich.live import Live
from rich.table import Table
from rich.text import Text

from rdfdelta import errors
from rdfdelta.answers import LogState, Source
from rdfdelta.commands.options import folder_type, out, server_option
from rdfdelta.journal import file_of
from rdfdelta.server import LOG_LIMIT, PATCHES_LIMIT, Server

WARN, ALARM = 0.80, 0.95


@dataclass(frozen=True, slots=True)
class Line:
    """A log, its state, and the length of its file where that can be looked at."""

    source: Source
    state: LogState
    size: int | None

    def shares(self) -> list[float]:
        """The shares of the limits of patches and of bytes."""
        shares = [self.state.version / PATCHES_LIMIT]
        return shares if self.size is None else [*shares, self.size / LOG_LIMIT]


def read_lines(server: Server, files: Path | None) -> list[Line]:
    found = []
    for source in server.sources():
        size = file_of(files, source.slot).stat().st_size if files else None
        try:
            found.append(Line(source, server.log(source.name).state(), size))
        except errors.NoSource:
            # It was renamed or removed meanwhile.
            continue
    server.rest()
    return found


def style_of(share: float) -> str:
    return "bold red" if share >= ALARM else "yellow" if share >= WARN else ""


def table_of(lines: list[Line]) -> Table:
    with_bytes = any(line.size is not None for line in lines)
    table = Table(box=None, pad_edge=False)
    table.add_column("name", no_wrap=True)
    for title in ("slot", "version", "patches", *(["bytes"] if with_bytes else [])):
        table.add_column(title, justify="right")
    table.add_column("head", no_wrap=True)
    for line in lines:
        shares = [Text(f"{share:.1%}", style=style_of(share)) for share in line.shares()]
        cells: list[str | Text] = [line.source.name, str(line.source.slot), f"{line.state.version:,}", *shares]
        table.add_row(*cells, line.state.head or "none", style=style_of(max(line.shares())))
    return table


@click.command()
@server_option
@click.option("--files", type=folder_type, metavar="DIR", help="The server's folder, for the bytes of its files.")
@click.option("--watch", is_flag=False, flag_value=2.0, type=click.FloatRange(min=0.1), metavar="SECONDS",
              help="Look again and again, each 2 seconds where no number is given.")
@click.pass_context
def logs(context: click.Context, server: Server, files: Path | None, watch: float | None) -> None:
    """The logs, and how full they are.

    Each with its version, its head, and its shares of the limits of patches and, with --files, of bytes. A log is
    yellow from 80 % of a limit on and red from 95 %, and the status is 1 then.
    """
    lines = read_lines(server, files)
    if watch is None:
        out.print(table_of(lines))
    else:
        lines = watch_lines(server, files, watch, lines)
    context.exit(1 if any(share >= WARN for line in lines for share in line.shares()) else 0)


def watch_lines(server: Server, files: Path | None, seconds: float, lines: list[Line]) -> list[Line]:
    """Shows the lines anew until Ctrl-C, and meanwhile that the server can't be reached; those of the last look."""
    with Live(table_of(lines), console=out, auto_refresh=False) as live:
        try:
            while True:
                time.sleep(seconds)
                trouble = None
                try:
                    lines = read_lines(server, files)
                except errors.LinkFailed as error:
                    trouble = f"{error}; trying again"
                table = table_of(lines)
                table.caption = trouble
                live.update(table, refresh=True)
        except KeyboardInterrupt:
            return lines
