"""nginx with rdfdelta.conf before a server, both on loopback, for scripts that show things on it.

Certificate, passwords and files are of its own, in a temporary folder, which goes when the script ends.
"""
import contextlib
import os
import re
import shutil
import socket
import subprocess
import sys
import tempfile
import time
from collections.abc import Callable, Iterator
from dataclasses import dataclass
from pathlib import Path

HERE = Path(__file__).resolve().parent
TOP = HERE.parent.parent
WORKERS = 16
READER, WRITER = ("reader", "read-only"), ("writer", "read-and-write")
# The log whose location stands in rdfdelta.conf as a comment, by the name that it has here, and who may read it and
# write to it.
CLOSED, CLOSED_READER, CLOSED_WRITER = "closed", ("member", "read-closed"), ("keeper", "write-closed")
OWN_LOCATION = re.compile(r"    # location ~ \^/ABC.*?\n    # \}\n", re.DOTALL)
MAIN = """
{user}
daemon off;
worker_processes {processes};
worker_rlimit_nofile 8192;
pid {folder}/nginx.pid;
error_log {folder}/error.log;
events {{ worker_connections 4096; }}
http {{
    # A machine that others use too may take its time for a thousand handshakes.
    client_header_timeout 300s;
    keepalive_timeout 300s;
    access_log off;
    client_body_temp_path {folder}/bodies;
    proxy_temp_path {folder}/replies;
    fastcgi_temp_path {folder}/fastcgi;
    uwsgi_temp_path {folder}/uwsgi;
    scgi_temp_path {folder}/scgi;
    include {folder}/rdfdelta.conf;
}}
"""


@dataclass
class Stand:
    """What stands: nginx at the port `front`, its files in `folder`, and behind it the server at the port `back`."""

    folder: Path
    front: int
    back: int
    server: subprocess.Popen | None = None

    def errors(self) -> list[str]:
        """What nginx wrote of errors."""
        return [line for line in (self.folder / "error.log").read_text().splitlines() if "[warn]" not in line]


def find_nginx() -> str | None:
    return shutil.which("nginx", path=os.environ["PATH"] + ":/usr/sbin")


def free_ports(count: int) -> list[int]:
    """Ports of loopback that nobody has now."""
    probes = [socket.socket() for _ in range(count)]
    for probe in probes:
        probe.bind(("127.0.0.1", 0))
    ports = [probe.getsockname()[1] for probe in probes]
    for probe in probes:
        probe.close()
    return ports


def run(*words: object, text: str | None = None) -> str:
    command = [str(word) for word in words]
    return subprocess.run(command, input=text, capture_output=True, text=True, check=True).stdout


def replaced(text: str, places: dict[str, str]) -> str:
    """A configuration with places replaced, each of which is to be there."""
    for place, new in places.items():
        if place not in text:
            sys.exit(f"rdfdelta.conf lacks {place}")
        text = text.replace(place, new)
    return text


def write(folder: Path, text: str, processes: int) -> None:
    """The configuration, and the one that includes it."""
    (folder / "rdfdelta.conf").write_text(text)
    user = "user root;" if os.geteuid() == 0 else ""
    (folder / "nginx.conf").write_text(MAIN.format(folder=folder, user=user, processes=processes))


def configure(stand: Stand, processes: int) -> None:
    """The configuration with its places replaced, and the location of a log in force."""
    text = replaced((HERE / "rdfdelta.conf").read_text(), {
        "listen 443": f"listen 127.0.0.1:{stand.front}",
        "127.0.0.1:10660;": f"127.0.0.1:{stand.back};",
        "/etc/nginx/": f"{stand.folder}/",
        "/var/log/nginx/": f"{stand.folder}/",
        "/usr/local/share/rdfdelta/page": f"{TOP}/contrib/page/web",
    })
    text, count = OWN_LOCATION.subn(lambda found: found[0].replace("# ", "").replace("ABC", CLOSED), text)
    if count != 1:
        sys.exit("rdfdelta.conf lacks the location of a log")
    write(stand.folder, text, processes)


def make_secrets(folder: Path) -> None:
    subject = ["-subj", "/CN=localhost", "-addext", "subjectAltName=IP:127.0.0.1"]
    files = ["-keyout", folder / "rdfdelta.key", "-out", folder / "rdfdelta.crt"]
    run("openssl", "req", "-x509", "-newkey", "rsa:2048", "-nodes", "-days", "1", *subject, *files)
    lines = {who: f"{who[0]}:{run('openssl', 'passwd', '-apr1', '-stdin', text=who[1])}"
             for who in (READER, WRITER, CLOSED_READER, CLOSED_WRITER)}
    (folder / "rdfdelta.writers").write_text(lines[WRITER])
    (folder / "rdfdelta.readers").write_text(lines[WRITER] + lines[READER])
    (folder / f"{CLOSED}.writers").write_text(lines[CLOSED_WRITER])
    (folder / f"{CLOSED}.readers").write_text(lines[CLOSED_WRITER] + lines[CLOSED_READER])


def await_port(port: int, process: subprocess.Popen) -> None:
    for _ in range(500):
        try:
            return socket.create_connection(("127.0.0.1", port), timeout=1).close()
        except OSError:
            if process.poll() is not None:
                break
            time.sleep(0.01)
    sys.exit(f"not started: {process.args[0]}")


def stop(process: subprocess.Popen) -> None:
    process.terminate()
    try:
        process.wait(10)
    except subprocess.TimeoutExpired:
        process.kill()
        process.wait()


@contextlib.contextmanager
def standing(
    nginx: str, processes: int, slots: int, prepare: Callable[[Path], None] = lambda data: None
) -> Iterator[Stand]:
    """The server and nginx with so many worker processes, until the block ends.

    The files of the server may be prepared, between their making and the server's start.
    """
    with tempfile.TemporaryDirectory() as name, contextlib.ExitStack() as started:
        stand = Stand(Path(name), *free_ports(2))
        make_secrets(stand.folder)
        configure(stand, processes)
        data = stand.folder / "data"
        data.mkdir()
        program = run(TOP / "bin/program").strip()
        run(program, "init", data, slots)
        prepare(data)
        stand.server = start([program, "serve", data, f"127.0.0.1:{stand.back}", WORKERS], stand.back, started)
        start(words_of(nginx, stand.folder), stand.front, started)
        yield stand


def words_of(nginx: str, folder: Path) -> list[object]:
    return [nginx, "-p", folder, "-c", folder / "nginx.conf", "-e", folder / "error.log"]


def start(words: list[object], port: int, started: contextlib.ExitStack) -> subprocess.Popen:
    """A process that takes connections at a port, and is stopped with the others."""
    process = subprocess.Popen([str(word) for word in words])
    started.callback(stop, process)
    await_port(port, process)
    return process
