"""A server over HTTP, and the logs of its sources.

A worker of the server serves one connection until it ends. So whoever waits between two questions calls `rest`, which
lets the connection go; the next question opens another one.
"""
from __future__ import annotations

import json
import re
import time
import uuid
from collections.abc import Iterator, Sequence
from types import TracebackType
from urllib.parse import quote, urlsplit

import requests

from rdfdelta import answers, errors
from rdfdelta.answers import Appended, AppendedRun, LogState, Members, Source
from rdfdelta.patches import PATCH_LIMIT, join, read_link

PATCHES_LIMIT = 262_144
LOG_LIMIT = 268_435_456
REGISTRY_LIMIT = 2_097_152
PATCH_TYPE = "application/rdf-patch"
# Seconds to connect, and between two bytes of an answer: a busy server lets its clients wait for a worker.
CONNECT_SECONDS, ANSWER_SECONDS = 5.0, 30.0
_HOST_AND_PORT = re.compile(r"[!-.0-~]+:([0-9]{1,5})")


def base_of(address: str) -> str:
    """The URL before the server's routes: HOST:PORT, as the program takes it, or an URL of http or https."""
    if address.startswith(("http://", "https://")):
        parts = urlsplit(address)
        if not parts.hostname or parts.query or parts.fragment:
            raise errors.BadAddress(f"no address: {address}")
        return address.rstrip("/")
    found = _HOST_AND_PORT.fullmatch(address)
    if found is None or len(address) > 255 or not 0 < int(found[1]) < 65_536:
        raise errors.BadAddress(f"no address: {address}: HOST:PORT as in 127.0.0.1:10660, or an URL of http or https")
    return f"http://{address}"


class Server:
    """A server at HOST:PORT, which is asked directly, or at an URL, which is asked as `requests` does: with passwords
    of ~/.netrc, and by the proxy of the environment."""

    def __init__(self, address: str, seconds: float = ANSWER_SECONDS) -> None:
        self.address = address
        # Until it is told otherwise.
        self.takes_runs = True
        self._base = base_of(address)
        self._seconds = seconds
        self._session = requests.Session()
        self._session.trust_env = "://" in address
        self._session.headers.update({"User-Agent": "rdfd", "Accept-Encoding": "identity"})

    def __enter__(self) -> Server:
        return self

    def __exit__(
        self, kind: type[BaseException] | None, error: BaseException | None, trace: TracebackType | None
    ) -> None:
        self._session.close()

    def rest(self) -> None:
        """Lets the connection go, and with it the server's worker."""
        self._session.close()

    def direct_address(self) -> str:
        """HOST:PORT for the program, which speaks neither TLS nor passwords."""
        parts = urlsplit(self._base)
        if parts.scheme != "http" or parts.path or parts.username or parts.port is None:
            raise errors.BadAddress(f"the program needs HOST:PORT, and not {self.address}")
        return parts.netloc

    def _ask(
        self, method: str, path: str, body: bytes | None = None, kind: str = "application/json"
    ) -> requests.Response:
        headers = {} if body is None else {"Content-Type": kind}
        try:
            reply = self._session.request(
                method,
                self._base + path,
                data=body,
                headers=headers,
                timeout=(CONNECT_SECONDS, self._seconds),
                allow_redirects=False,
            )
        except requests.RequestException as error:
            # A connection that failed isn't used again.
            self.rest()
            raise errors.LinkFailed(f"link failed: {self.address}: {_cause(error)}") from error
        length = reply.headers.get("Content-Length")
        # What was cut off isn't told by each version of the library.
        if length is not None and length.isdecimal() and reply.raw.tell() != int(length):
            self.rest()
            raise errors.LinkFailed(f"link failed: {self.address}: the connection ended inside an answer")
        return reply

    def _members(self, reply: requests.Response) -> Members:
        if reply.status_code != 200:
            raise answers.refusal(reply.status_code, reply.content)
        return answers.members_of(reply.content)

    def get(self, path: str) -> Members:
        return self._members(self._ask("GET", path))

    def post(self, path: str, patches: bytes) -> Members:
        return self._members(self._ask("POST", path, patches, PATCH_TYPE))

    def patch(self, path: str) -> bytes:
        """The bytes of a patch."""
        reply = self._ask("GET", path)
        if reply.status_code != 200:
            raise answers.refusal(reply.status_code, reply.content)
        kind = reply.headers.get("Content-Type", "").partition(";")[0]
        if kind != PATCH_TYPE or len(reply.content) > PATCH_LIMIT:
            raise errors.NotUnderstood("answer not understood: no patch; is this an rdfdelta server?")
        return reply.content

    def call(self, operation: str, **members: str) -> Members:
        """An operation of /$/rpc."""
        body = json.dumps({"operation": operation, **members}).encode()
        return self._members(self._ask("POST", "/$/rpc", body))

    def ping(self) -> float:
        """Seconds until a worker answered."""
        begun = time.monotonic()
        if self.get("/$/ping").get("ping") != "ok":
            raise errors.NotUnderstood("answer not understood: member ping")
        return time.monotonic() - begun

    def sources(self) -> list[Source]:
        """All sources, in the order of their names."""
        return answers.sources(self.call("list"))

    def source(self, name: str) -> Source:
        return answers.source(self.call("source", name=name))

    def create(self, name: str, uri: str, source_id: str | None = None) -> Source:
        """Makes a source. The id is drawn here where none is given, so that the call may be sent again."""
        source_id = source_id or str(uuid.uuid4())
        return answers.source(self.call("create", name=name, uri=uri, id=source_id))

    def rename(self, name: str, new_name: str) -> Source:
        return answers.source(self.call("rename", name=name, new_name=new_name))

    def remove(self, name: str) -> Source:
        return answers.source(self.call("remove", name=name))

    def log(self, name: str) -> Log:
        return Log(self, name)


class Log:
    """The log of the source with this name."""

    def __init__(self, server: Server, name: str) -> None:
        self.server = server
        self.name = name
        self._path = "/" + quote(name, safe="")

    def source(self) -> Source:
        return self.server.source(self.name)

    def state(self) -> LogState:
        """The log's version and its head."""
        return answers.state(self.server.get(self._path))

    def fetch(self, which: int | str) -> bytes:
        """The patch of a version, or of an id, byte for byte as it was sent."""
        return self.server.patch(f"{self._path}/{quote(str(which), safe='')}")

    def patches(self, after: int = 0, until: int | None = None) -> Iterator[tuple[int, bytes]]:
        """The patches behind a version with their versions, up to another one or the log's when this begins. Each is
        seen to follow the one before it."""
        until = self.state().version if until is None else until
        before: str | None = None
        for version in range(after + 1, until + 1):
            patch = self.fetch(version)
            link = read_link(patch)
            if link.prev != before and (version == 1 or version > after + 1):
                raise errors.NotUnderstood(f"patch {version} of {self.name} follows {link.prev or 'none'}, "
                                           f"and not {before or 'none'}: was another log put in its place?")
            before = link.id
            yield version, patch

    def append(self, patch: bytes, tries: int = 5) -> Appended:
        """Appends a patch. Where no answer comes, or the server has no memory, the same bytes are sent again, at most
        so often; where they stand already, that is told as well."""
        try:
            return Appended(answers.number(self._send(self._path, patch, tries), "version"))
        except errors.Known as known:
            if not known.same:
                raise
            return Appended(known.version, known=True)

    def append_run(self, patches: Sequence[bytes], tries: int = 5) -> AppendedRun:
        """Appends patches all or none. Each is to name the one before it, and together they have at most 4,194,304
        bytes. They are sent again as `append` does. A server that takes no runs is told by `NoRuns`."""
        text = join(patches)
        if len(text) > PATCH_LIMIT:
            raise errors.RdfDeltaError(f"a run of {len(text)} bytes is longer than a request may be: {PATCH_LIMIT}")
        try:
            return answers.appended_run(self._send(f"{self._path}/run", text, tries), len(patches))
        except errors.Known as known:
            if not known.same:
                raise
            return AppendedRun(known.version, known.version + len(patches) - 1, known=True)
        except errors.NoSource:
            raise
        except errors.Refused as error:
            if error.status not in (404, 405):
                raise
            self.server.takes_runs = False
            raise errors.NoRuns(error.status, error.error, f"{self.server.address} takes no runs of patches") from None

    def _send(self, path: str, body: bytes, tries: int) -> Members:
        """What is answered to what is appended. Where nothing is, or there is no memory, it is sent again."""
        wait = 0.2
        while True:
            try:
                return self.server.post(path, body)
            except (errors.LinkFailed, errors.Refused) as error:
                tries -= 1
                if tries <= 0 or (isinstance(error, errors.Refused) and error.status != 503):
                    raise
            time.sleep(wait)
            wait *= 2


def _cause(error: requests.RequestException) -> str:
    """What a failed request says, without the names of classes around it."""
    if isinstance(error, requests.ConnectTimeout):
        return "no connection in time"
    if isinstance(error, requests.Timeout):
        return "connected, but no answer in time"
    text = str(error)
    for sign, said in (
        ("Connection refused", "connection refused"),
        ("Name or service not known", "no machine has this name"),
        ("Temporary failure in name resolution", "no machine has this name"),
        ("Network is unreachable", "network unreachable"),
        ("RemoteDisconnected", "the connection ended without an answer"),
        ("reset by peer", "the connection was reset"),
    ):
        if sign in text:
            return said
    return text
