"""The dashboard and the alerts ask for metrics that the exporter has."""
from __future__ import annotations

import json
import re

import pytest

from conftest import TOP, Running

pytest.importorskip("prometheus_client")

from rdfdelta.metrics import ServerCollector

PROMETHEUS = TOP / "contrib/prometheus"


def test_metrics_are_those_of_the_exporter(running: Running) -> None:
    running.fill("ABC", 1)
    exported = {metric.name for metric in ServerCollector(running.address, running.folder).collect()}
    dashboard = json.loads((PROMETHEUS / "grafana.json").read_text())
    asked = [target["expr"] for panel in dashboard["panels"] for target in panel["targets"]]
    asked += re.findall(r"expr: (?:>-\n)?((?:.|\n +(?!for:))*)", (PROMETHEUS / "rules.yml").read_text())
    names = {name for text in asked for name in re.findall(r"rdfdelta_\w+", text)}
    assert names and names <= exported
