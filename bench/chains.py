"""Clients that append to logs until they are stopped, and the test that what was acknowledged stands."""
import http.client
import json
import random
import re
import sys
import threading
import time
import uuid

PREV = re.compile(rb"H prev <uuid:([0-9a-f-]{36})> \.")


def patch(id, prev):
    """A patch of one quad with this id behind another one, or at the front."""
    link = f"H prev <uuid:{prev}> .\n" if prev else ""
    return f'H id <uuid:{id}> .\n{link}TX .\nA <http://e/{id}> <http://e/p> "{id}" .\nTC .\n'.encode()


def run(head, length):
    """So many patches, the first one behind a head, and the id of the last one."""
    texts = []
    for _ in range(length):
        id = str(uuid.uuid4())
        texts.append(patch(id, head))
        head = id
    return texts, head


def ask(connection, method, path, body=None):
    """The status and body of one request."""
    connection.request(method, path, body)
    reply = connection.getresponse()
    return reply.status, reply.read()


def operation(connection, **members):
    status, body = ask(connection, "POST", "/$/rpc", json.dumps(members))
    return status, json.loads(body)


class Log:
    """What is known of one log: the texts that were served, the versions that were acknowledged, each with its text, and the runs
    of texts that were sent and not answered."""

    def __init__(self, name):
        self.name, self.texts, self.acknowledged, self.unanswered = name, [], [], []

    def create(self, connection):
        status, body = operation(connection, operation="create", name=self.name, uri=f"http://e/{self.name}")
        if status != 200:
            sys.exit(f"{self.name}: {status} {body}")

    def verify(self, server, version):
        """Fetches what is new of the log, whose version `check` told, and tests the chain and all that was acknowledged."""
        connection = server.connect()
        _, info = operation(connection, operation="log", name=self.name)
        if info["version"] < version:
            sys.exit(f"{self.name}: check told {version} patches, the server {info['version']}")
        served = len(self.texts)
        if served and ask(connection, "GET", f"/{self.name}/{served}") != (200, self.texts[-1]):
            sys.exit(f"{self.name}: version {served} was served and isn't there")
        for place in range(served, info["version"]):
            status, text = ask(connection, "GET", f"/{self.name}/{place + 1}")
            if status != 200:
                sys.exit(f"{self.name}: version {place + 1}: {status}")
            names = PREV.search(text)
            before = self.texts[-1][len("H id <uuid:"):][:36] if self.texts else None
            if (names.group(1) if names else None) != before:
                sys.exit(f"{self.name}: version {place + 1} doesn't follow the one before it")
            self.texts.append(text)
        for place, text in self.acknowledged:
            if len(self.texts) < place or self.texts[place - 1] != text:
                sys.exit(f"{self.name}: version {place} was acknowledged and isn't there")
        standing = set(self.texts)
        for texts in self.unanswered:
            if len({text in standing for text in texts}) > 1:
                sys.exit(f"{self.name}: a run that wasn't answered stands in part")
        self.unanswered.clear()
        connection.close()


class Clients:
    """Clients that append side by side, each to one of the logs, until they are stopped or the server is gone. What they append are
    patches, or runs of so many of them at most."""

    def __init__(self, server, logs, count, most=1):
        self.most = most
        # The replies that neither acknowledge nor name another head, and the longest time of a reply that acknowledges.
        self.others, self.longest, self.stopped = [], 0, threading.Event()
        self.threads = [threading.Thread(target=self.append, args=(server, logs[n % len(logs)])) for n in range(count)]
        for thread in self.threads:
            thread.start()

    def append(self, server, log):
        """Appends, each patch behind the head that was last told, and notes what was acknowledged."""
        try:
            connection = server.connect(60)
            _, info = operation(connection, operation="log", name=log.name)
            head = info["head"]
            route = f"/{log.name}" if self.most == 1 else f"/{log.name}/run"
            while not self.stopped.is_set():
                texts, last = run(head, random.randint(1, self.most))
                log.unanswered.append(texts)
                begun = time.monotonic()
                status, body = ask(connection, "POST", route, b"".join(texts))
                answer = json.loads(body)
                log.unanswered.remove(texts)
                if status == 200:
                    self.longest = max(self.longest, time.monotonic() - begun)
                    first = answer["version"] + 1 - len(texts)
                    log.acknowledged.extend(enumerate(texts, first))
                    head = last
                elif answer["error"] == "conflict":
                    head = answer["head"]
                else:
                    self.others.append((status, answer["error"]))
                    time.sleep(0.02)
        except (OSError, http.client.HTTPException, ValueError):
            # The server was killed meanwhile.
            return

    def stop(self):
        """Waits until all have stopped."""
        self.stopped.set()
        for thread in self.threads:
            thread.join()
