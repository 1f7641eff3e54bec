"""What the words of rdfd have in common: their options, what they print, and their statuses."""
from __future__ import annotations

import os
import sys
from collections.abc import Callable, Iterator
from contextlib import contextmanager
from pathlib import Path
from typing import TypeVar

import click
from rich.console import Console
from rich.progress import BarColumn, MofNCompleteColumn, Progress, TextColumn, TimeRemainingColumn

from rdfdelta import errors
from rdfdelta.program import VARIABLE, Program
from rdfdelta.server import Server

DEFAULT_ADDRESS, SERVER_VARIABLE = "127.0.0.1:10660", "RDFD_SERVER"
COMPLETION_SECONDS = 1.0
PLAIN_WIDTH = 120
# The statuses of the program, where an error is one of its own.
STATUSES: tuple[tuple[type[errors.RdfDeltaError], int], ...] = (
    (errors.BadAddress, 2),
    (errors.BadPatch, 3),
    (errors.Held, 5),
    (errors.LinkFailed, 6),
    (errors.NotUnderstood, 7),
    (errors.BadFile, 9),
    (errors.Parted, 10),
)
Command = TypeVar("Command", bound=Callable[..., object])

# Each control character but tab and line feed: those of ASCII have pictures of their own.
_PICTURES = {code: 0x2400 + code for code in range(32) if code not in (9, 10)} | {127: 0x2421}
_PICTURES |= {code: 0xFFFD for code in range(0x80, 0xA0)}

out = Console(width=None if sys.stdout.isatty() else PLAIN_WIDTH, highlight=False, soft_wrap=True)
err = Console(stderr=True, width=None if sys.stderr.isatty() else PLAIN_WIDTH, highlight=False, soft_wrap=True)
folder_type = click.Path(file_okay=False, path_type=Path)
file_type = click.Path(path_type=Path)


def server_option(command: Command) -> Command:
    """--server, as a Server."""
    return click.option(
        "-s",
        "--server",
        metavar="ADDR",
        envvar=SERVER_VARIABLE,
        default=DEFAULT_ADDRESS,
        show_default=True,
        callback=lambda context, option, address: Server(address),
        help="The server: HOST:PORT or an URL; or RDFD_SERVER.",
    )(command)


def program_option(command: Command) -> Command:
    """--program, as a Program."""
    return click.option(
        "--program",
        metavar="PATH",
        envvar=VARIABLE,
        callback=lambda context, option, path: Program(path),
        help=f"The program rdfdelta, or {VARIABLE}; else the one on the PATH.",
    )(command)


def log_names(context: click.Context, parameter: click.Parameter, begin: str) -> list[str]:
    """The names of logs that begin so, for the completion; none where no server tells them soon."""
    server, address = context.params.get("server"), context.params.get("address")
    address = server.address if isinstance(server, Server) else address
    address = address or os.environ.get(SERVER_VARIABLE) or DEFAULT_ADDRESS
    try:
        with Server(address, seconds=COMPLETION_SECONDS) as asked:
            return [source.name for source in asked.sources() if source.name.startswith(begin)]
    except errors.RdfDeltaError:
        return []


def log_argument(command: Command) -> Command:
    """The name of a log."""
    return click.argument("log", shell_complete=log_names)(command)


def visible(text: str) -> str:
    """A text whose control characters are seen and have no effect on a terminal: patches and answers may hold any."""
    return text.translate(_PICTURES)


def tell(text: str) -> None:
    """A line on err."""
    err.print(visible(f"rdfd: {text}"), markup=False)


def say(text: str, style: str = "") -> None:
    """A line on out."""
    out.print(visible(text), style=style, markup=False)


def write(content: bytes) -> None:
    """Bytes on out, as they are."""
    sys.stdout.buffer.write(content)
    sys.stdout.buffer.flush()


def status_of(error: errors.RdfDeltaError) -> int:
    if isinstance(error, errors.ProgramFailed):
        return error.status if error.status > 0 else 1
    return next((status for kind, status in STATUSES if isinstance(error, kind)), 1)


def line_of(error: errors.RdfDeltaError) -> str:
    """The error's line; that of the program begins with its name already."""
    return str(error).removeprefix("rdfdelta: ")


@contextmanager
def bar() -> Iterator[Callable[[str, int, int], None]]:
    """A progress bar on err where that is a terminal: a title, how much is done, and of how much."""
    if not err.is_terminal:
        yield lambda title, done, total: None
        return
    columns = (TextColumn("{task.description}"), BarColumn(), MofNCompleteColumn(), TimeRemainingColumn())
    with Progress(*columns, console=err, transient=True) as progress:
        task = progress.add_task("", total=None)
        yield lambda title, done, total: progress.update(task, description=title, completed=done, total=total)
