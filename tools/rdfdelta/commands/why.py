"""rdfd why: what is behind `disk failed` and `link failed`."""
from __future__ import annotations

import click

from rdfdelta import why as causes
from rdfdelta.commands.options import say


@click.command()
@click.argument("place", metavar="ADDR|DIR")
@click.pass_context
def why(context: click.Context, place: str) -> None:
    """What is behind `disk failed` or `link failed`.

    What keeps the program from a folder or an address; with status 1 where something does. Run it as the user whose
    command failed. It writes nothing.
    """
    findings = causes.why(place)
    for finding in findings:
        say(finding.text, "red" if finding.is_cause else "")
        if finding.remedy:
            say(f"  {finding.remedy}")
    context.exit(1 if any(finding.is_cause for finding in findings) else 0)
