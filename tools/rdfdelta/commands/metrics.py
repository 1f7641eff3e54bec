"""rdfd metrics: an exporter for Prometheus."""
from __future__ import annotations

import time
from pathlib import Path

import click

from rdfdelta import errors
from rdfdelta.commands.options import folder_type, say, server_option, write
from rdfdelta.server import Server

DEFAULT_LISTEN = "127.0.0.1:9660"


@click.command()
@server_option
@click.option("--files", type=folder_type, metavar="DIR", help="The server's folder: lengths of files and room.")
@click.option("--listen", default=DEFAULT_LISTEN, show_default=True, metavar="HOST:PORT", help="Where it is scraped.")
@click.option("--once", is_flag=True, help="Print the metrics and end, as for a textfile collector.")
def metrics(server: Server, files: Path | None, listen: str, once: bool) -> None:
    """Export metrics for Prometheus.

    The versions of a server's logs, its ping and memory and, with --files, lengths of files and room on the disk.
    """
    try:
        from prometheus_client import generate_latest, start_http_server

        from rdfdelta.metrics import ServerCollector, registry_of
    except ImportError:
        raise errors.RdfDeltaError("metrics need prometheus_client (Debian: python3-prometheus-client)") from None
    collector = ServerCollector(server.address, files)
    if once:
        write(generate_latest(registry_of(collector)))
        return
    host, _, port = listen.rpartition(":")
    if not host or not port.isdecimal() or int(port) > 65_535:
        raise click.UsageError(f"--listen takes HOST:PORT, and not {listen}")
    start_http_server(int(port), host, registry_of(collector))
    say(f"metrics of {server.address} at http://{listen}/metrics")
    while True:
        time.sleep(3600)
