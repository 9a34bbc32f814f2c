"""The cost of a step of an operation on a host: machine instructions, and processor time compared with other hosts."""

from __future__ import annotations

import tempfile
from collections.abc import Iterator
from concurrent.futures import ThreadPoolExecutor
from contextlib import contextmanager
from dataclasses import dataclass, field
from pathlib import Path

from map_costs.commands import FILL, Streams, streams_of
from map_costs.hosts import Files, Host, least
from map_costs.keys import Family, Keys
from measure import Count

# Steps whose machine instructions are counted, and that are timed; fewer for colliding keys, as each takes long.
COUNTED, COUNTED_COLLIDING = 1000, 100
TIMED, TIMED_BYTES = 20_000, 6_000_000
# How many processes' machine instructions are counted at once. Their counts do not depend on each other.
AT_ONCE = 2


@dataclass(frozen=True)
class Shape:
    """The size of a key, and how many fill the map."""

    key_size: int
    entries: int


@contextmanager
def scratch() -> Iterator[Files]:
    with tempfile.TemporaryDirectory() as folder:
        yield Files(Path(folder))


@dataclass
class Counts:
    """Machine instructions of streams on hosts, each counted once."""

    count: Count
    files: Files
    known: dict[tuple[Host, Path], int] = field(default_factory=dict)

    def look_at(self, wanted: list[tuple[Host, bytes]]) -> None:
        tasks = {(host, self.files.of(stream)) for host, stream in wanted}
        open_tasks = [task for task in tasks if task not in self.known]
        with ThreadPoolExecutor(AT_ONCE) as pool:
            self.known.update(zip(open_tasks, pool.map(self.counted, open_tasks), strict=True))

    def counted(self, task: tuple[Host, Path]) -> int:
        host, stream = task
        return host.instructions(self.count, stream)

    def of_step(self, host: Host, streams: Streams) -> float:
        whole, without = (self.known[host, self.files.of(stream)] for stream in (streams.whole, streams.without))
        return (whole - without) / streams.steps


def counted_steps(family: Family) -> int:
    return COUNTED_COLLIDING if family.knows_seed else COUNTED


def timed_steps(family: Family, keys: Keys) -> int:
    """As many as take long enough. With colliding keys each step, and the fill, takes longer by a factor of the number of keys."""
    most = min(TIMED, TIMED_BYTES // (2 * len(keys[0]) + 60))
    return min(most, max(len(keys), 64 * TIMED // len(keys))) if family.knows_seed else most


def instructions(
    count: Count, hosts: list[Host], family: Family, keys: Keys, operations: list[str]
) -> dict[tuple[str, str], float]:
    """Machine instructions per step, by operation and host."""
    wanted = {(name, host): streams_of(name, keys, counted_steps(family)) for name in operations for host in hosts if host.counts}
    with scratch() as files:
        counts = Counts(count, files)
        counts.look_at([(host, stream) for (_, host), it in wanted.items() for stream in (it.without, it.whole)])
        return {(name, host.name): counts.of_step(host, streams) for (name, host), streams in wanted.items()}


def times(
    rounds: int, hosts: list[Host], families: dict[str, tuple[Family, Keys]], operations: list[str]
) -> dict[tuple[str, str, str], float]:
    """Seconds per step, by family, operation and host; all take turns in one run."""
    with scratch() as files:
        wanted = {
            (family_name, name, host.name): (host, streams)
            for family_name, (family, keys) in families.items()
            for name in operations
            for streams in (streams_of(name, keys, timed_steps(family, keys)),)
            for host in hosts
        }
        tasks = {(host, files.of(stream)) for host, it in wanted.values() for stream in (it.without, it.whole)}
        best = least(rounds, sorted(tasks, key=lambda task: str(task[1])))
        return {
            key: (best[host, files.of(it.whole)] - best[host, files.of(it.without)]) / it.steps for key, (host, it) in wanted.items()
        }
