"""The program as a server on loopback, for scripts that start and kill it."""
import http.client
import signal
import socket
import subprocess
import sys
import time

WORKERS = 16


def free_port():
    """A port of loopback that nobody has now."""
    with socket.socket() as probe:
        probe.bind(("127.0.0.1", 0))
        return probe.getsockname()[1]


class Server:
    """The program over one directory, at a port that stays."""

    def __init__(self, program, files):
        self.program, self.files, self.port, self.process = program, files, free_port(), None

    def start(self):
        words = [self.program, "serve", self.files, f"127.0.0.1:{self.port}", str(WORKERS)]
        self.process = subprocess.Popen(words, stderr=subprocess.PIPE)
        for _ in range(400):
            try:
                return self.connect(0.5).close()
            except OSError:
                if self.process.poll() is not None:
                    sys.exit(f"not started: status {self.process.returncode} {self.process.stderr.read()}")
                time.sleep(0.01)
        sys.exit("not started in time")

    def connect(self, seconds=5):
        connection = http.client.HTTPConnection("127.0.0.1", self.port, timeout=seconds)
        connection.connect()
        return connection

    def kill(self):
        self.process.send_signal(signal.SIGKILL)
        self.process.wait()

    def check(self):
        """The versions of the logs, by `check`."""
        done = subprocess.run([self.program, "check", self.files], capture_output=True, text=True)
        if done.returncode != 0:
            sys.exit(f"check: status {done.returncode} {done.stderr}")
        lines = done.stdout.splitlines()[1:]
        return [int(line.split()[3]) for line in lines]
