#!/usr/bin/env python3
"""A client of an rdfdelta server, over requests alone: prints the patches of a log, or appends one.

usage: examples/day/client.py ADDRESS NAME            prints the patches, as a stream
       examples/day/client.py ADDRESS NAME ROW ..     appends rows as one patch, each as 'A <urn:s> <urn:p> "o" .'
"""
import sys
import time
import uuid

import requests


def ask(method: str, url: str, body: bytes | None = None) -> requests.Response:
    """A reply. Where none comes, or the server has no memory, it is asked again: a log takes a patch once."""
    for wait in 0.2, 1, 5:
        try:
            reply = requests.request(method, url, data=body, timeout=(5, 30))
            if reply.status_code != 503:
                return reply
        except (requests.ConnectionError, requests.Timeout):
            pass
        time.sleep(wait)
    return requests.request(method, url, data=body, timeout=(5, 30))


def read(url: str) -> requests.Response:
    reply = ask("GET", url)
    return reply if reply.status_code == 200 else sys.exit(f"refused: {reply.status_code} {reply.text}")


def fetch(log: str) -> None:
    for version in range(1, read(log).json()["version"] + 1):
        sys.stdout.buffer.write(read(f"{log}/{version}").content)


def append(log: str, rows: list[str]) -> None:
    while True:
        head = read(log).json()["head"]
        headers = [f"H id <uuid:{uuid.uuid4()}> .", *([f"H prev <uuid:{head}> ."] if head else [])]
        reply = ask("POST", log, "\n".join([*headers, "TX .", *rows, "TC .", ""]).encode())
        answer = reply.json()
        if reply.status_code == 200 or answer.get("same"):
            return print("version", answer["version"])
        # Another writer came first. These rows may follow any others; where yours may not, look at the log before.
        if answer["error"] != "conflict":
            sys.exit(f"refused: {reply.status_code} {reply.text}")


if len(sys.argv) < 3:
    sys.exit(__doc__)
url = f"http://{sys.argv[1]}/{sys.argv[2]}"
append(url, sys.argv[3:]) if sys.argv[3:] else fetch(url)
