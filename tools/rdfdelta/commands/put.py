"""rdfd put: rows or quads become patches of a log."""
from __future__ import annotations

import sys
import uuid

import click

from rdfdelta import datasets, errors, puts
from rdfdelta.commands.options import log_argument, program_option, say, server_option, tell
from rdfdelta.patches import PATCH_LIMIT
from rdfdelta.program import Program
from rdfdelta.server import Log, Server

INPUT_LIMIT = 268_435_456


@click.command()
@log_argument
@server_option
@program_option
@click.option("--nquads", is_flag=True, help="The input is an N-Quads document; each quad is added.")
@click.option("--behind", metavar="ID", help="The head for which the rows were made, or none; else it is asked now.")
@click.option("--retry", type=click.IntRange(min=0), default=0, metavar="N",
              help="On a conflict, go behind the new head, at most N times.")
@click.option("--limit", type=click.IntRange(200, PATCH_LIMIT), default=PATCH_LIMIT, show_default=True, metavar="BYTES",
              help="A patch has at most so many bytes; longer inputs are cut.")
def put(
    log: str, server: Server, program: Program, nquads: bool, behind: str | None, retry: int, limit: int
) -> None:
    """Append rows or quads from stdin to a log.

    The input is rows of A, D, PA and PD. The ids, TX and TC are made here. An input that is longer than a patch may
    be becomes several. Those that one request has room for are taken all or none; of others, who reads between them
    sees a part. Stopped in between, it may be run again: the dataset comes out the same.
    """
    if behind is not None and retry:
        raise click.UsageError("--behind and --retry exclude each other")
    rows = read_input(program, nquads)
    target = server.log(log)
    head = head_of(target, behind)
    if not rows:
        tell("no rows, no patch")
    try:
        for one in puts.put(target, rows, head, retry, limit):
            if one.count > 1 and one.number == 1:
                how = "all or none of them" if one.together == one.count else "who reads meanwhile sees a part"
                tell(f"{len(rows):,} rows are too long for one patch, and become {one.count}: {how}")
            rows_said = "1 row" if one.rows == 1 else f"{one.rows:,} rows"
            say(f"{log}: version {one.version}: {rows_said}, id {one.id}")
    except errors.Conflict as conflict:
        tell(f"{conflict}")
        tell(f"another patch is the head, {conflict.head} at version {conflict.version}: look at what it changed "
             f"(rdfd tail {log}), make the rows anew for that, or put them behind it as they are by --retry 3")
        raise SystemExit(1) from None


def head_of(log: Log, behind: str | None) -> str | None:
    """The head that --behind names, and else the log's own."""
    if behind is None:
        return log.state().head
    if behind == "none":
        return None
    try:
        return str(uuid.UUID(behind))
    except ValueError:
        raise click.BadParameter(f"no id: {behind}", param_hint="--behind") from None


def read_input(program: Program, nquads: bool) -> list[str]:
    text = sys.stdin.buffer.read(INPUT_LIMIT + 1)
    if len(text) > INPUT_LIMIT:
        raise errors.RdfDeltaError(f"input: too long: limit {INPUT_LIMIT}")
    return [f"A {line}" for line in datasets.of_document(program, text)] if nquads else puts.rows_of(text)
