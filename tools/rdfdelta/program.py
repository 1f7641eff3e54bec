"""The program rdfdelta, called for what it alone does: reading N-Quads, replaying, and zones."""
from __future__ import annotations

import os
import shutil
import subprocess
from collections.abc import Callable, Sequence
from pathlib import Path

from rdfdelta import errors

VARIABLE = "RDFDELTA_PROGRAM"
LOOK_SECONDS = 0.2


class Program:
    """The program at a path, that of RDFDELTA_PROGRAM, or the one on the PATH. It is looked for when it is called."""

    def __init__(self, path: str | None = None) -> None:
        self._path = path

    def _words(self, words: tuple[str | Path, ...]) -> list[str]:
        path = self._path or os.environ.get(VARIABLE) or "rdfdelta"
        found = shutil.which(path)
        if found is None:
            raise errors.RdfDeltaError(f"no program {path}; {VARIABLE} or --program may name it")
        return [found, *(str(word) for word in words)]

    def run(self, *words: str | Path, source: bytes = b"", given: Sequence[int] = ()) -> bytes:
        """What a command prints, given an input; of the descriptors that are open it has the given ones."""
        done = subprocess.run(self._words(words), input=source, capture_output=True, pass_fds=given)
        if done.returncode != 0:
            raise errors.ProgramFailed(done.returncode, _last_line(done.stderr))
        return done.stdout

    def show(self, *words: str | Path, given: Sequence[int] = ()) -> int:
        """Runs a command that prints for itself; its status."""
        return subprocess.run(self._words(words), pass_fds=given).returncode

    def watch(self, *words: str | Path, look: Callable[[], None], given: Sequence[int] = ()) -> None:
        """Runs a command to its end, and looks now and then while it runs."""
        quiet, pipe = subprocess.DEVNULL, subprocess.PIPE
        running = subprocess.Popen(self._words(words), stdout=quiet, stderr=pipe, pass_fds=given)
        try:
            while True:
                try:
                    _, said = running.communicate(timeout=LOOK_SECONDS)
                    break
                except subprocess.TimeoutExpired:
                    look()
        except BaseException:
            running.terminate()
            running.wait()
            raise
        look()
        if running.returncode != 0:
            raise errors.ProgramFailed(running.returncode, _last_line(said))


def _last_line(said: bytes) -> str:
    lines = said.decode("utf-8", "replace").strip().splitlines()
    return lines[-1] if lines else ""
