"""Redis and PostgreSQL as servers on loopback, for scripts that ask them beside rdfdelta. Each acknowledges what is on the
disk, as a log does."""
import contextlib
import os
import shutil
import socket
import subprocess
import sys
import time
from pathlib import Path

sys.path.insert(0, str(Path(__file__).resolve().parent))
from serving import free_port

# PostgreSQL doesn't run as root, but as this user.
USER = "postgres"


class NotStarted(Exception):
    """A peer that is there and couldn't be started."""


def run(words, **options):
    done = subprocess.run(words, stdout=subprocess.DEVNULL, stderr=subprocess.PIPE, text=True, **options)
    if done.returncode != 0:
        raise NotStarted((done.stderr.strip().splitlines() or [f"status {done.returncode}"])[-1])


@contextlib.contextmanager
def redis(folder):
    """Redis, which syncs each command before its reply."""
    port = free_port()
    words = ["redis-server", "--bind", "127.0.0.1", "--port", str(port), "--dir", folder, "--save", ""]
    words += ["--appendonly", "yes", "--appendfsync", "always"]
    process = subprocess.Popen(words, stdout=subprocess.DEVNULL, stderr=subprocess.DEVNULL)
    try:
        for _ in range(500):
            with contextlib.suppress(OSError), socket.create_connection(("127.0.0.1", port), timeout=1):
                break
            if process.poll() is not None:
                raise NotStarted(f"status {process.returncode}")
            time.sleep(0.02)
        yield f"redis:127.0.0.1:{port}"
    finally:
        process.kill()
        process.wait()


@contextlib.contextmanager
def postgres(folder):
    """PostgreSQL, which syncs each transaction before its reply, as it does where nothing else is said."""
    port, files, options = free_port(), Path(folder, "files"), {}
    if os.geteuid() == 0:
        shutil.chown(folder, USER)
        options = {"user": USER, "group": USER, "cwd": "/"}
    run(["initdb", "-A", "trust", "-U", USER, "-D", files], **options)
    words = f"-h 127.0.0.1 -p {port} -k ''"
    run(["pg_ctl", "-D", files, "-w", "-l", Path(folder, "log"), "-o", words, "start"], **options)
    try:
        yield f"postgres:127.0.0.1:{port}"
    finally:
        run(["pg_ctl", "-D", files, "-m", "immediate", "stop"], **options)


# The peers, each with the programs that it wants.
PEERS = {"redis": (redis, ["redis-server"]), "postgres": (postgres, ["initdb", "pg_ctl"])}


def lacking(name):
    """The programs that a peer wants and that aren't there."""
    return [program for program in PEERS[name][1] if shutil.which(program) is None]
