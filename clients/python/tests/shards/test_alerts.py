"""The alert rules of deploy/, tried on the metrics of workers and gateways in the simulator: each fires for its fault, and none before."""

from __future__ import annotations

import importlib.util
import re
import unittest
from collections.abc import Callable
from dataclasses import dataclass, field

from bpfhost.shards import metrics
from tests.shards.gateways import UNCOUNTED
from tests.shards.test_service import ServiceTest
from tests.test_command import PACKAGE

_WHY = UNCOUNTED or (None if importlib.util.find_spec("lupa") else "python3-lupa is missing")
if _WHY is None:
    from tests.shards.simulator.service import Service, customers

_RULE = re.compile(r"  - alert: (\w+)\n    expr: (.+)\n    for: (\d+)([sm])\n    annotations: \{summary: \"[^\"]+\"\}\n")
# A comparison of a metric, of its increase in some minutes, or of two metrics' ratio, with a number.
_EXPRESSION = re.compile(r"(?:increase\((\S+)\[(\d+)m\]\)|(\S+)(?: / (\S+))?) ([<>]) (\S+)")
_SECONDS = 5.0


@dataclass
class Rule:
    """A rule, and since when its expression holds."""

    name: str
    expression: re.Match[str]
    seconds: float
    since: float | None = None
    seen: list[tuple[float, float]] = field(default_factory=list)

    def fires(self, now: float, found: dict[str, float]) -> bool:
        """Whether it fires, by the metrics at a time."""
        holds = self._holds(now, found)
        self.since = (self.since if self.since is not None else now) if holds else None
        return self.since is not None and now - self.since >= self.seconds

    def _holds(self, now: float, found: dict[str, float]) -> bool:
        counter, minutes, name, divisor, sign, number = self.expression.groups()
        if counter:
            self.seen = [one for one in self.seen if one[0] >= now - 60 * int(minutes)] + [(now, found.get(counter, 0.0))]
            value = self.seen[-1][1] - self.seen[0][1]
        elif name not in found or divisor and not found.get(divisor):
            return False
        else:
            value = found[name] / (found[divisor] if divisor else 1.0)
        return value > float(number) if sign == ">" else value < float(number)


def rules() -> list[Rule]:
    """The rules of the file."""
    found = []
    for name, expression, many, unit in _RULE.findall((PACKAGE / "deploy/alerts.yml").read_text()):
        parsed = _EXPRESSION.fullmatch(expression)
        assert parsed, expression
        found.append(Rule(name, parsed, int(many) * (60 if unit == "m" else 1)))
    return found


@unittest.skipIf(_WHY is not None, _WHY or "")
class Alerts(ServiceTest):
    def fired(self, service: Service, seconds: float, rules: list[Rule]) -> set[str]:
        """The rules that fire within so many seconds."""
        fired, until = set[str](), service.world.now + seconds
        while service.world.now < until:
            service.world.run(service.world.now + _SECONDS)
            found = dict[str, float]()
            for text in (*(worker.metrics.text() for _, worker in service.workers.values()), service.gateway.told.text()):
                found |= {name: float(value) for name, _, value in (line.rpartition(" ") for line in text.splitlines() if line[0] != "#")}
            fired |= {rule.name for rule in rules if rule.fires(service.world.now, found)}
        return fired

    def test_the_file(self) -> None:
        """Each rule can be read, and is about metrics that there are."""
        text = (PACKAGE / "deploy/alerts.yml").read_text()
        self.assertEqual(len(rules()), text.count("- alert:"))
        named = set(re.findall(r"bpfhost_[a-z_]+", text))
        self.assertEqual(named - {*metrics.WORKER, *metrics.GATEWAY}, set())

    def test_each_of_them(self) -> None:
        def redis_is_away(service: Service) -> None:
            service.network.server("redis://directory").away_until = service.world.now + 200

        def no_lease(service: Service) -> None:
            service.network.server("redis://directory").store.keys[b"bpfhost:{0}:lease"][b"token"] = b"another"

        def memory(service: Service) -> None:
            service.network.server("redis://directory").store.memory = 90, 100

        def waits(service: Service) -> None:
            service.network.server("redis://directory").store.keys[b"bpfhost:{0}:waiting"] = {b"7": b"40000000"}
            service.workers[0][1].logs[7].aside = None
            service.workers[0][1]._agenda.busy.add(7)

        def hosts_end(service: Service) -> None:
            service.workers[0][1].metrics.add("bpfhost_worker_hosts_total", 4)

        def aside(service: Service) -> None:
            service.workers[0][1].logs[7].aside = object()  # type: ignore[assignment]

        def strangers(service: Service) -> None:
            service.gateway.told.add("bpfhost_gateway_refusals_total", 101, "who")

        def flood(service: Service) -> None:
            service.do(lambda: self.many_come(service))

        faults: dict[str, Callable[[Service], None]] = {
            "BpfhostLeaseNotRaised": redis_is_away,
            "BpfhostNotServing": no_lease,
            "BpfhostRedisMemory": memory,
            "BpfhostBehind": waits,
            "BpfhostHostsEnd": hosts_end,
            "BpfhostAside": aside,
            "BpfhostStrangers": strangers,
            "BpfhostFlood": flood,
        }
        self.assertEqual(set(faults), {rule.name for rule in rules()} - {"BpfhostGone"})
        for name, fault in faults.items():
            with self.subTest(name):
                service, own = self.service(customers("acme")), rules()
                self.assertEqual(self.fired(service, 20.0, own), set())
                fault(service)
                self.assertIn(name, self.fired(service, 90.0, own))

    async def many_come(self, service: Service) -> None:
        """1,500 connections from one address."""
        for _ in range(1500):
            service.connect("10.6.6.6").end.abort()


if __name__ == "__main__":
    unittest.main()
