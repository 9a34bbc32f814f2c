"""The metrics and the health of a worker or a gateway, over HTTP.

`/metrics` is for Prometheus, by its library for Python (of Debian: python3-prometheus-client), without which nothing is counted. `/health`
is JSON.
"""

from __future__ import annotations

import http.server
import json
import os
import threading
from collections.abc import Callable, Mapping
from typing import Any, NamedTuple

from bpfhost.errors import MissingPackage
from bpfhost.optional import optional_module
from bpfhost.shards.errors import ShardError


class Metric(NamedTuple):
    """A metric: its kind, its help text, and the name of its label, if it has one."""

    kind: str
    what: str
    label: str = ""


WORKER = {
    "bpfhost_worker_calls_total": Metric("Counter", "calls that were answered"),
    "bpfhost_worker_frames_total": Metric("Counter", "frames of calls that were answered"),
    "bpfhost_worker_bytes_total": Metric("Counter", "bytes of calls that were answered, with their replies"),
    "bpfhost_worker_turns_total": Metric("Counter", "turns, in each of which every tenant has its share"),
    "bpfhost_worker_turn_seconds": Metric("Histogram", "seconds in which the host did the calls of a turn"),
    "bpfhost_worker_hosts_total": Metric("Counter", "hosts that were begun, but for the first one"),
    "bpfhost_worker_snapshots_total": Metric("Counter", "snapshots that were taken"),
    "bpfhost_worker_snapshot_seconds": Metric("Histogram", "seconds from the begin of a snapshot to its end"),
    "bpfhost_worker_replayed_frames_total": Metric("Counter", "frames that were played again"),
    "bpfhost_worker_restore_seconds": Metric("Gauge", "seconds that making the states took the last time"),
    "bpfhost_worker_lease_age_seconds": Metric("Gauge", "seconds since the last raise of the lease that succeeded"),
    "bpfhost_worker_serves": Metric("Gauge", "1 while the shard is served"),
    "bpfhost_worker_waiting_bytes": Metric("Gauge", "the weight of calls that wait, as it was last looked at"),
    "bpfhost_worker_aside": Metric("Gauge", "tenants of which something is set aside"),
    "bpfhost_worker_redis_memory_bytes": Metric("Gauge", "memory that Redis uses, as it was last looked at"),
    "bpfhost_worker_redis_memory_most_bytes": Metric("Gauge", "memory that Redis may use, 0 without a limit"),
}
GATEWAY = {
    "bpfhost_gateway_calls_total": Metric("Counter", "calls that were taken", "customer"),
    "bpfhost_gateway_frames_total": Metric("Counter", "frames of calls that were taken", "customer"),
    "bpfhost_gateway_bytes_total": Metric("Counter", "bytes of calls that were taken", "customer"),
    "bpfhost_gateway_call_seconds": Metric("Histogram", "seconds from a call to its replies", "customer"),
    "bpfhost_gateway_new_connections_total": Metric("Counter", "connections that came"),
    "bpfhost_gateway_refusals_total": Metric("Counter", "connections that were ended, by why", "why"),
    "bpfhost_gateway_connections": Metric("Gauge", "connections of customers"),
    "bpfhost_gateway_unknown": Metric("Gauge", "connections that have not said who they are"),
    "bpfhost_gateway_unread_bytes": Metric("Gauge", "bytes of replies that customers have not read yet"),
}
# Upper bounds of the histograms, in seconds.
_BUCKETS = (0.001, 0.0025, 0.005, 0.01, 0.025, 0.05, 0.1, 0.25, 0.5, 1.0, 2.5, 5.0, 10.0, 30.0)

# Metrics by their names that are computed when they are read.
Numbers = Mapping[str, float]


class Told:
    """Metrics that a process counts, and those that are computed when they are read."""

    def __init__(self, known: Mapping[str, Metric], look: Callable[[], Numbers] = dict) -> None:
        self._look, self._made = look, dict[str, Any]()
        # None if nothing is counted.
        self.registry: Any = None
        # The time at which each metric was made is of no use here.
        os.environ.setdefault("PROMETHEUS_DISABLE_CREATED_SERIES", "true")
        try:
            client = optional_module("prometheus_client")
        except MissingPackage:
            return
        self.registry = client.CollectorRegistry()
        for name, metric in known.items():
            words = {"buckets": _BUCKETS} if metric.kind == "Histogram" else {}
            labels = [metric.label] if metric.label else []
            self._made[name] = getattr(client, metric.kind)(name, metric.what, labels, registry=self.registry, **words)
        client.ProcessCollector(registry=self.registry)

    def _of(self, name: str, label: str) -> Any:
        made = self._made.get(name)
        return made.labels(label) if made is not None and label else made

    def add(self, name: str, many: float = 1.0, label: str = "") -> None:
        """Adds so many to a counter."""
        if made := self._of(name, label):
            made.inc(many)

    def set(self, name: str, value: float) -> None:
        """Sets a gauge."""
        if made := self._of(name, ""):
            made.set(value)

    def saw(self, name: str, seconds: float, label: str = "") -> None:
        """Adds a time to a histogram."""
        if made := self._of(name, label):
            made.observe(seconds)

    def text(self) -> str:
        """All of them, in Prometheus's text format; raises MissingPackage without the library."""
        client = optional_module("prometheus_client")
        for name, value in self._look().items():
            self.set(name, value)
        return str(client.generate_latest(self.registry), "utf-8")


# Whether a process is well, and the details.
Health = Callable[[], tuple[bool, Mapping[str, object]]]


class Page:
    """An HTTP server with both pages, in a thread of its own. It shows nothing of customers' frames, and accepts no data."""

    def __init__(self, address: str, text: Callable[[], str], health: Health) -> None:
        """Listens at `host:port`; raises ShardError if it can't, and MissingPackage if there are no metrics."""
        host, _, port = address.rpartition(":")
        if not host or not port.isdecimal():
            raise ShardError(f"metrics are read at host:port, and not at {address}")
        text()
        try:
            self._server = http.server.ThreadingHTTPServer((host.strip("[]"), int(port)), _handler(text, health))
        except (OSError, OverflowError) as error:
            raise ShardError(f"metrics can't be read at {address}: {getattr(error, 'strerror', None) or error}") from None
        self._server.daemon_threads = True
        self.address = "{}:{}".format(*self._server.server_address[:2])
        threading.Thread(target=self._server.serve_forever, daemon=True).start()

    def close(self) -> None:
        """Ends it."""
        self._server.shutdown()
        self._server.server_close()


def _handler(text: Callable[[], str], health: Health) -> type[http.server.BaseHTTPRequestHandler]:
    class Handler(http.server.BaseHTTPRequestHandler):
        # The server does not wait for a client that sends nothing.
        timeout = 5

        def do_GET(self) -> None:
            if self.path == "/metrics":
                self._answer(200, "text/plain; version=0.0.4; charset=utf-8", text())
            elif self.path == "/health":
                is_well, said = health()
                self._answer(200 if is_well else 503, "application/json", json.dumps(said) + "\n")
            else:
                self._answer(404, "text/plain; charset=utf-8", "there are /metrics and /health\n")

        def _answer(self, status: int, kind: str, body: str) -> None:
            data = body.encode()
            self.send_response(status)
            self.send_header("Content-Type", kind)
            self.send_header("Content-Length", str(len(data)))
            self.end_headers()
            self.wfile.write(data)

        def log_message(self, format: str, *_arguments: object) -> None:
            """Requests are not logged."""

    return Handler
