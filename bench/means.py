"""Geometric means of ratios of times, and the worst of them."""

from __future__ import annotations

import math
from collections.abc import Iterator, Mapping
from dataclasses import dataclass


@dataclass(frozen=True)
class Mean:
    """The geometric mean of some ratios, how many they are, and the greatest of them with the name of its program."""

    count: int
    mean: float
    worst: float
    name: str

    def __str__(self) -> str:
        return f"{self.mean:.3f} of {self.count}, worst {self.worst:.2f} ({self.name})"


def mean_of(ratios: Mapping[str, float]) -> Mean | None:
    """None without ratios."""
    if not ratios:
        return None
    name = max(ratios, key=ratios.__getitem__)
    return Mean(len(ratios), math.exp(sum(map(math.log, ratios.values())) / len(ratios)), ratios[name], name)


def lines(group: str, ratios: Mapping[str, Mapping[str, float]]) -> Iterator[str]:
    """A line for each host that programs of this group are compared with, by the hosts' names."""
    for host, found in ratios.items():
        if mean := mean_of(found):
            yield f"{group}, to {host}: {mean}"
