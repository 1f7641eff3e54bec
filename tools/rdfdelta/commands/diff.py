"""rdfd diff: the rows between two datasets."""
from __future__ import annotations

import re
import sys
from pathlib import Path

import click

from rdfdelta import datasets
from rdfdelta.commands.options import bar, program_option, server_option, write
from rdfdelta.program import Program
from rdfdelta.server import Server

_OF_LOG = re.compile(r"([A-Za-z0-9_.-]{1,64})@([0-9]{1,6}|head)")


def read_dataset(server: Server, program: Program, name: str) -> list[str]:
    """The lines of a file, of standard input, or of a log at a version."""
    if name == "-":
        return datasets.of_document(program, sys.stdin.buffer.read())
    of_log = _OF_LOG.fullmatch(name)
    if of_log is None or Path(name).exists():
        return datasets.of_document(program, Path(name).read_bytes())
    log = server.log(of_log[1])
    version = log.state().version if of_log[2] == "head" else int(of_log[2])
    with bar() as look:
        return datasets.of_log(program, log, version, lambda done, total: look(name, done, total))


@click.command()
@click.argument("old")
@click.argument("new")
@server_option
@program_option
def diff(old: str, new: str, server: Server, program: Program) -> None:
    """The rows that make NEW of OLD.

    They are as `rdfd put` takes them. Each of the two is an N-Quads file, - for standard input, or a log at a
    version as in ABC@12 or ABC@head. Blank nodes are the same where their labels are.
    """
    rows = datasets.difference(read_dataset(server, program, old), read_dataset(server, program, new))
    write("".join(row + "\n" for row in rows).encode())
