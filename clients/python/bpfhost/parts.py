"""Splits what is too much to give to Redis or to a host at once."""

from __future__ import annotations

from collections.abc import Callable, Iterable, Iterator
from typing import TypeVar

Item = TypeVar("Item")


def in_parts(items: Iterable[Item], size_of: Callable[[Item], int], most: int, many: int | None = None) -> Iterator[list[Item]]:
    """Items in lists of at most `many`; the sizes in a list of several add up to at most `most`."""
    part: list[Item] = []
    left = most
    for item in items:
        size = size_of(item)
        if part and (size > left or len(part) == many):
            yield part
            part, left = [], most
        part.append(item)
        left -= size
    if part:
        yield part
