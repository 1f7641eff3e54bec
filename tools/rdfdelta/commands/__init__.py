"""The command rdfd."""
from __future__ import annotations

import os
import sys

import click

from rdfdelta import __version__, errors
from rdfdelta.commands import copies, diff, logs, metrics, moves, patches, put, rewrite, tail, why, zones
from rdfdelta.commands.options import line_of, status_of, tell


class Words(click.Group):
    """Each error is one line on err, and has the status that the program gives it."""

    def invoke(self, context: click.Context) -> object:
        try:
            return super().invoke(context)
        except errors.RdfDeltaError as error:
            tell(line_of(error))
            context.exit(status_of(error))
        except BrokenPipeError:
            # Whoever read the output has gone. Python would complain once more when it closes it.
            os.dup2(os.open(os.devnull, os.O_WRONLY), sys.stdout.fileno())
            context.exit(4)
        except OSError as error:
            tell(f"{error.filename or 'input or output'}: {error.strerror}")
            context.exit(1)

    def list_commands(self, context: click.Context) -> list[str]:
        return list(self.commands)


@click.group(cls=Words, context_settings={"help_option_names": ["-h", "--help"], "max_content_width": 110})
@click.version_option(__version__, prog_name="rdfd")
def main() -> None:
    """Around rdfdelta: look at logs, write to them, follow and copy them, and find what is wrong."""


for command in (
    logs.logs,
    put.put,
    diff.diff,
    tail.tail,
    zones.follow,
    zones.checkpoint,
    zones.dump,
    zones.prefixes,
    zones.match,
    copies.backup,
    copies.restore,
    moves.move_log,
    patches.patches,
    rewrite.rewrite,
    why.why,
    metrics.metrics,
):
    main.add_command(command)
