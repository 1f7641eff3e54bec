"""A server in memory that answers as docs/HTTP.md says of sources, logs and runs: one that takes runs, whatever program
is there, or one of version 0.2.0, which takes none; and one that loses answers."""
from __future__ import annotations

import json
import threading
from collections.abc import Iterator
from contextlib import contextmanager
from http.server import BaseHTTPRequestHandler, ThreadingHTTPServer

from rdfdelta import errors
from rdfdelta.patches import PATCH_LIMIT, Patch, split
from rdfdelta.server import PATCH_TYPE

Answer = tuple[int, object]


class Logs:
    """The logs by the names of their sources, and what was asked of them."""

    def __init__(self, takes_runs: bool, patches_limit: int) -> None:
        self.takes_runs = takes_runs
        self.patches_limit = patches_limit
        self.sources: list[dict[str, object]] = []
        self.logs: dict[str, list[Patch]] = {}
        self.asked: list[str] = []
        # How many answers to appends are lost from now on, once these have taken effect.
        self.lost = 0

    def get(self, path: list[str]) -> Answer:
        if path == ["$", "ping"]:
            return 200, {"ping": "ok"}
        log = self.logs.get(path[0])
        if log is None:
            return 404, {"error": "no_source"}
        if len(path) == 1:
            return 200, {"head": log[-1].link.id if log else None, "version": len(log)}
        if not 0 < int(path[1]) <= len(log):
            return 404, {"error": "no_patch", "version": len(log)}
        return 200, log[int(path[1]) - 1].text

    def post(self, path: list[str], body: bytes) -> Answer:
        if path == ["$", "rpc"]:
            return self.call(json.loads(body))
        is_run = path[1:] == ["run"] and self.takes_runs
        if len(path) > 1 and not is_run:
            return 404, {"error": "no_route"}
        if path[0] not in self.logs:
            return 404, {"error": "no_source"}
        if len(body) > PATCH_LIMIT:
            return 413, {"error": "bad_request", "kind": "BodyTooLong"}
        try:
            run = split(body)
        except errors.BadPatch as error:
            return 400, {"at": error.at, "error": "bad_patch", "kind": "NoId"}
        bad = self.bad_place(run)
        if not is_run and bad is not None:
            return 400, {"at": 0, "error": "bad_patch", "kind": "NoId"}
        if bad is not None:
            return 400, {"at": bad, "error": "bad_run"}
        return self.append(self.logs[path[0]], run, is_run)

    def call(self, members: dict[str, object]) -> Answer:
        if members["operation"] == "list":
            return 200, {"sources": self.sources}
        name = members["name"]
        if members["operation"] == "create":
            slot = len(self.sources) + 1
            self.sources.append({"id": members["id"], "name": name, "slot": slot, "uri": members["uri"]})
            self.logs[str(name)] = []
        return 200, next(source for source in self.sources if source["name"] == name)

    @staticmethod
    def bad_place(run: list[Patch]) -> int | None:
        """Where patches are no run; none where they are one."""
        if not run:
            return 0
        ids = [patch.link.id for patch in run]
        for place in range(1, len(run)):
            if run[place].link.prev != ids[place - 1] or ids[place] in ids[:place]:
                return place + 1
        return None

    def append(self, log: list[Patch], run: list[Patch], is_run: bool) -> Answer:
        ids = [patch.link.id for patch in log]
        known = next((ids.index(patch.link.id) for patch in run if patch.link.id in ids), None)
        if known is not None:
            same = [patch.text for patch in log[known:known + len(run)]] == [patch.text for patch in run]
            return 409, {"error": "known", "same": same, "version": known + 1}
        head, prev = ids[-1] if ids else None, run[0].link.prev
        if prev != head:
            before = 0 if prev is None else ids.index(prev) + 1 if prev in ids else None
            return 409, {"error": "conflict", "head": head, "prev_version": before, "version": len(log)}
        if len(log) + len(run) > self.patches_limit:
            return 507, {"error": "full", "have": len(log), "limit": self.patches_limit, "what": "patches"}
        log.extend(run)
        told = {"version": len(log)}
        return 200, {"first": len(log) + 1 - len(run), **told} if is_run else told


def _handler(logs: Logs) -> type[BaseHTTPRequestHandler]:
    class Handler(BaseHTTPRequestHandler):
        protocol_version = "HTTP/1.1"

        def do_GET(self) -> None:
            self.reply(*logs.get(self.path[1:].split("/")))

        def do_POST(self) -> None:
            body = self.rfile.read(int(self.headers["Content-Length"]))
            logs.asked.append(f"POST {self.path}")
            answer = logs.post(self.path[1:].split("/"), body)
            if logs.lost > 0 and not self.path.startswith("/$/"):
                logs.lost -= 1
                self.close_connection = True
                return
            self.reply(*answer)

        def reply(self, status: int, found: object) -> None:
            is_patch = isinstance(found, bytes)
            text = found if isinstance(found, bytes) else json.dumps(found, separators=(",", ":")).encode()
            self.send_response(status)
            self.send_header("Content-Type", PATCH_TYPE if is_patch else "application/json")
            self.send_header("Content-Length", str(len(text)))
            self.end_headers()
            self.wfile.write(text)

        def log_message(self, format: str, *words: object) -> None:
            pass

    return Handler


@contextmanager
def standing_in(takes_runs: bool = True, patches_limit: int = 262_144) -> Iterator[tuple[str, Logs]]:
    """The address of such a server, and what it has."""
    logs = Logs(takes_runs, patches_limit)
    server = ThreadingHTTPServer(("127.0.0.1", 0), _handler(logs))
    thread = threading.Thread(target=server.serve_forever, args=(0.01,), daemon=True)
    thread.start()
    try:
        yield f"127.0.0.1:{server.server_address[1]}", logs
    finally:
        server.shutdown()
        thread.join()
        server.server_close()
