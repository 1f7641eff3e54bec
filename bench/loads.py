"""Servers that are asked by the plain program, and what it costs them."""
import contextlib
import subprocess
import sys
import time
import urllib.request
from pathlib import Path

sys.path.insert(0, str(Path(__file__).resolve().parent))
from serving import WORKERS, free_port


def load(client, address, connections, kind, count):
    """How many were asked, the rate a second, and the median and 99th percentile of the latency in microseconds."""
    words = [client, "load", address, str(connections), kind, str(count)]
    done = subprocess.run(words, capture_output=True, text=True, timeout=60)
    if done.returncode != 0:
        sys.exit(f"{kind}: {done.stderr}")
    _, requests, _, seconds, _, median, _, last = done.stdout.split()
    return int(requests), int(requests) / float(seconds), float(median), float(last)


class Peer:
    """A server of another kind."""

    def __init__(self, address, client):
        self.address, self.client = address, client

    def ask(self, connections, kind, count):
        """The rate a second, and the median and 99th percentile of the latency in microseconds."""
        return load(self.client, self.address, connections, kind, count)[1:]


class Server:
    """A server over one directory, as a process of its own."""

    def __init__(self, words, folder, last, client, asked):
        """Of the path that is asked first there is an answer once it has opened its files."""
        self.address, self.client, self.asked = f"127.0.0.1:{free_port()}", client, asked
        self.process = subprocess.Popen([*words, folder, self.address, str(WORKERS), *last])

    def wait(self):
        """Waits until it answers. It may be bound before it has opened its files."""
        for _ in range(1000):
            with contextlib.suppress(OSError):
                with urllib.request.urlopen(f"http://{self.address}/{self.asked}", timeout=30) as reply:
                    return reply.read()
            if self.process.poll() is not None:
                break
            time.sleep(0.01)
        sys.exit("a server didn't start")

    def stop(self):
        self.process.kill()
        self.process.wait()

    def processor(self):
        """The processor seconds of its threads up to now."""
        tasks = Path(f"/proc/{self.process.pid}/task").glob("*/schedstat")
        return sum(int(task.read_text().split()[0]) for task in tasks) / 1e9

    def memory(self):
        """What it has in memory and had at most, in MiB."""
        lines = Path(f"/proc/{self.process.pid}/status").read_text().splitlines()
        fields = dict(line.split(":", 1) for line in lines)
        return [int(fields[name].split()[0]) / 1024 for name in ("VmRSS", "VmHWM")]

    def ask(self, connections, kind, count):
        """The rate a second, the median and 99th percentile of the latency and the processor time of a request, in microseconds."""
        before = self.processor()
        requests, rate, median, last = load(self.client, self.address, connections, kind, count)
        return rate, median, last, (self.processor() - before) / requests * 1e6
