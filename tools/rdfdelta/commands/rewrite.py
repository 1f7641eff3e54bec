"""rdfd rewrite: files of the old form, written anew."""
from __future__ import annotations

from pathlib import Path

import click

from rdfdelta import rewriting
from rdfdelta.commands.options import bar, folder_type, say


@click.command()
@click.argument("old", type=folder_type)
@click.argument("new", type=folder_type)
def rewrite(old: Path, new: Path) -> None:
    """Write the files of a folder anew.

    OLD is the folder of a server that is stopped, or a zone's, in the form that the program reads or in the one that
    versions up to 0.2.0 write. NEW gets the same patches in the form that the program reads; it is made, or is empty.
    OLD is only read. All its files are checked first: where one is damaged, nothing is written. Once all are on the
    disk a line for each is printed, as `rdfdelta check` does.
    """
    with bar() as look:
        lines = rewriting.rewrite(old, new, look)
    for line in lines:
        say(line)
