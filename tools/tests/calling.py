"""Calls of rdfd: in this process where that will do, and in one of its own where it is stopped or runs beside."""
from __future__ import annotations

import os
import subprocess
import sys
from dataclasses import dataclass

from click.testing import CliRunner

from conftest import PROGRAM, TOP
from rdfdelta.commands import main


def environment(address: str | None = None) -> dict[str, str]:
    paths = os.pathsep.join([str(TOP / "tools"), os.environ.get("PYTHONPATH", "")])
    found = {**os.environ, "PYTHONPATH": paths, "RDFDELTA_PROGRAM": PROGRAM}
    return {**found, "RDFD_SERVER": address} if address else found


def words_of(*words: object) -> list[str]:
    return [sys.executable, "-m", "rdfdelta", *(str(word) for word in words)]


@dataclass(frozen=True)
class Done:
    """The status, out and err of a run."""

    status: int
    out: str
    err: str


# Of these the program itself prints, so they need a process of their own; all others are called in this one.
PRINTED_BY_PROGRAM = ("dump", "prefixes", "match")


def rdfd(*words: object, address: str | None = None, text: bytes = b"") -> Done:
    """Calls rdfd with these words and an input."""
    if words[0] in PRINTED_BY_PROGRAM:
        run = subprocess.run(words_of(*words), input=text, capture_output=True, env=environment(address), timeout=60)
        return Done(run.returncode, run.stdout.decode(), run.stderr.decode())
    runner = CliRunner(mix_stderr=False)
    done = runner.invoke(main, [str(word) for word in words], input=text, env=environment(address))
    if done.exception is not None and not isinstance(done.exception, SystemExit):
        raise done.exception
    return Done(done.exit_code, done.stdout, done.stderr)
