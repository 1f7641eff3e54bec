"""Clients that append side by side while a server is refused one allocation of many, again and again."""
import http.client
import json
import random
import subprocess
import threading
import time
from collections import Counter
from dataclasses import dataclass, field
from pathlib import Path

from chains import Log, ask, operation, run
from refusing.orders import END, Orders
from refusing.served import Served
from refusing.tries import ENDED, STATUS_503, USUAL, Differs

LOGS, CLIENTS, WORKERS, MOST = 4, 16, 16, 3
# One of so many allocations is refused.
RATES = 31, 101, 401


@dataclass
class Appending:
    """Clients of one server, until a time."""

    served: Served
    logs: list[Log]
    until: float
    answers: Counter[str] = field(default_factory=Counter)
    others: list[object] = field(default_factory=list)

    def connected(self, log: Log) -> http.client.HTTPConnection:
        """A connection of a client of this log."""
        return self.served.connect()

    def work(self, log: Log) -> None:
        """Appends runs behind the head that was told last; a connection that ends is made anew."""
        head, connection = None, None
        while time.monotonic() < self.until:
            texts, last = run(head, random.randint(1, MOST))
            log.unanswered.append(texts)
            try:
                connection = connection or self.connected(log)
                status, body = ask(connection, "POST", f"/{log.name}/run", b"".join(texts))
            except (OSError, http.client.HTTPException):
                self.answers[ENDED] += 1
                connection = None
                continue
            answer = json.loads(body)
            if status == 200:
                log.acknowledged.extend(enumerate(texts, answer["first"]))
                head = last
            elif status == 409 and answer["error"] == "conflict":
                head = answer["head"]
            elif (status, answer) != (503, {"error": "out_of_memory"}):
                self.others.append((status, answer))
            self.answers[STATUS_503 if status == 503 else USUAL] += 1

    def run(self) -> None:
        threads = [threading.Thread(target=self.work, args=(self.logs[n % LOGS],)) for n in range(CLIENTS)]
        for thread in threads:
            thread.start()
        for thread in threads:
            thread.join()


def verified(program: Path, folder: Path, served: Served, logs: list[Log]) -> None:
    """Each patch that was acknowledged stands at its version, each run whole or not at all; so `check` says too."""
    connection = served.connect()
    versions = [operation(connection, operation="log", name=log.name)[1]["version"] for log in logs]
    connection.close()
    for log, version in zip(logs, versions):
        log.verify(served, version)
    served.end()
    done = subprocess.run([program, "check", folder], capture_output=True, text=True)
    found = [int(line.split()[3]) for line in done.stdout.splitlines()[1:]]
    if done.returncode != 0 or found != versions:
        raise Differs(f"check: {done.returncode} {done.stdout} {done.stderr}, and not {versions}")


def append_side_by_side(program: Path, orders: Orders, folder: Path, seconds: float, each: int) -> str:
    """Refuses one of so many allocations, and looks at the logs then; what was found."""
    logs = [Log(f"L{number}") for number in range(1, LOGS + 1)]
    subprocess.run([program, "init", folder, str(LOGS)], check=True)
    with Served(program, folder, orders.environment, WORKERS) as served:
        connection = served.connect()
        for log in logs:
            log.create(connection)
        connection.close()
        clients = Appending(served, logs, time.monotonic() + seconds)
        orders.refuse(END, END, each)
        clients.run()
        refused = orders.allow()
        if clients.others or served.process.poll() is not None:
            raise Differs(f"one of {each} refused: {served.process.poll()} {clients.others[:3]}")
        verified(program, folder, served, logs)
    kept = sum(len(log.acknowledged) for log in logs)
    answers = ", ".join(f"{count:,} {end}" for end, count in sorted(clients.answers.items()))
    return f"one of {each} allocations refused to a server of {CLIENTS} clients: {refused:,}, answers {answers}; " \
           f"{kept:,} patches acknowledged, each at its version"
