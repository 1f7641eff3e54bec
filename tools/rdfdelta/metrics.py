"""What a server is to be watched by, as metrics of Prometheus."""
from __future__ import annotations

import resource
import shutil
import time
from collections.abc import Iterator
from pathlib import Path
from urllib.parse import urlsplit

from prometheus_client import CollectorRegistry
from prometheus_client.core import GaugeMetricFamily, Metric
from prometheus_client.registry import Collector

from rdfdelta import errors, locks, sockets
from rdfdelta.journal import REGISTRY, file_of
from rdfdelta.server import LOG_LIMIT, PATCHES_LIMIT, REGISTRY_LIMIT, Server, base_of

# Prometheus gives a scrape ten seconds.
PING_SECONDS = 5.0


class ServerCollector(Collector):
    """Asks the server at each scrape, and looks at its files and its process where they are on this machine."""

    def __init__(self, address: str, folder: Path | None = None) -> None:
        self.server = Server(address, seconds=PING_SECONDS)
        self.folder = folder

    def collect(self) -> Iterator[Metric]:
        begun = time.monotonic()
        try:
            yield from self._of_server()
        finally:
            self.server.rest()
        if self.folder is not None:
            yield from self._of_files(self.folder)
        yield from self._of_process()
        yield GaugeMetricFamily("rdfdelta_scrape_seconds", "Seconds that these metrics took.", time.monotonic() - begun)

    def _of_server(self) -> Iterator[Metric]:
        versions = GaugeMetricFamily("rdfdelta_log_version", "Patches of a log.", labels=["name", "id", "slot"])
        seconds = None
        try:
            seconds = self.server.ping()
            for source in self.server.sources():
                try:
                    version = self.server.log(source.name).state().version
                except errors.NoSource:
                    # It was renamed or removed meanwhile.
                    continue
                versions.add_metric([source.name, source.id, str(source.slot)], version)
        except errors.RdfDeltaError:
            # What was answered till then is told; the server isn't up.
            seconds = None
        yield GaugeMetricFamily("rdfdelta_up", "Whether the server answered.", float(seconds is not None))
        if seconds is not None:
            yield GaugeMetricFamily("rdfdelta_ping_seconds", "Seconds until a worker answered.", seconds)
        yield versions
        yield GaugeMetricFamily("rdfdelta_log_version_limit", "Patches that a log may have.", PATCHES_LIMIT)

    def _of_files(self, folder: Path) -> Iterator[Metric]:
        lengths = GaugeMetricFamily("rdfdelta_file_bytes", "The length of a file.", labels=["slot"])
        limits = GaugeMetricFamily("rdfdelta_file_bytes_limit", "What a file may have.", labels=["slot"])
        for path in sorted(folder.glob("rdj-00[0-9][0-9]")):
            slot = str(int(path.name[4:]))
            lengths.add_metric([slot], path.stat().st_size)
            limits.add_metric([slot], REGISTRY_LIMIT if slot == "0" else LOG_LIMIT)
        yield lengths
        yield limits
        free = shutil.disk_usage(folder).free
        yield GaugeMetricFamily("rdfdelta_disk_free_bytes", "Room on the disk of the files.", free)

    def _of_process(self) -> Iterator[Metric]:
        pid = self._pid()
        if pid is None:
            return
        try:
            pages = int(Path(f"/proc/{pid}/statm").read_text().split()[1])
        except OSError:
            return
        size = pages * resource.getpagesize()
        yield GaugeMetricFamily("rdfdelta_resident_bytes", "Memory that the server's process has.", size)

    def _pid(self) -> int | None:
        """The server's process: who holds the registry's file, or listens at the port on this machine."""
        if self.folder is not None:
            held = [pid for pid in locks.holders(file_of(self.folder, REGISTRY)) if pid > 0]
            return held[0] if held else None
        parts = urlsplit(base_of(self.server.address))
        if parts.hostname in ("127.0.0.1", "localhost", "::1") and parts.port is not None:
            return sockets.listener(parts.port)
        return None


def registry_of(collector: ServerCollector) -> CollectorRegistry:
    """A registry of this collector alone, without what the exporter's own process is."""
    registry = CollectorRegistry(auto_describe=False)
    registry.register(collector)
    return registry
