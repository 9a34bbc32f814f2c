"""Copies of blocks: a block with several incoming edges is copied for each, so that none of them loses what is known on it."""

from __future__ import annotations

from collections.abc import Callable, Collection, Iterator
from dataclasses import dataclass

from bpfhost.lowering.graph import Block, Graph, Written, predecessors, written
from bpfhost.numbers import MOST_SLOTS

# The most slots of a block that is copied; small ones are tried first.
SIZES = (4, 8, 16)
# The most forms of a program that are tried.
MOST_TRIES = 48

Refusal = tuple[int, int]
Ask = Callable[[Written], Refusal | None]
Write = Callable[[Graph], Written]


@dataclass(frozen=True)
class Copied:
    """A graph with copies: `sources` has the block of the original graph for each block."""

    graph: dict[int, Block]
    sources: dict[int, int]


def copied(graph: Graph, chosen: Collection[int]) -> Copied | None:
    """The graph with a copy of each chosen block for each edge that leads to it; None if that has too many slots."""
    return _Copying(graph, chosen).copied()


class _Copying:
    """Follows the copies from the first block."""

    def __init__(self, graph: Graph, chosen: Collection[int]) -> None:
        self._graph = graph
        self._chosen = chosen
        # The one shared copy of each block that is not chosen.
        self._shared: dict[int, int] = {}
        self._sources: dict[int, int] = {}
        self._waiting: list[int] = []
        self._slots = 0

    def copied(self) -> Copied | None:
        """All copies."""
        found: dict[int, Block] = {}
        self._number(0)
        while self._waiting:
            number = self._waiting.pop()
            block = self._graph[self._sources[number]]
            self._slots += block.slots
            if self._slots > MOST_SLOTS:
                return None
            found[number] = block.leading(self._number)
        return Copied(found, self._sources)

    def _number(self, block: int) -> int:
        """The number of the copy that an edge leads to."""
        if block not in self._chosen and block in self._shared:
            return self._shared[block]
        number = len(self._sources)
        self._sources[number] = block
        self._shared.setdefault(block, number)
        self._waiting.append(number)
        return number


@dataclass(frozen=True)
class Accepted:
    """A form that is accepted, and how many of its blocks are copies."""

    written: Written
    copies: int


def with_copies(graph: Graph, refused: Refusal, ask: Ask, write: Write = written) -> Accepted | None:
    """The accepted form with the fewest copies that is found, for a graph whose form is rejected; None if there is none.

    `write` returns the form of a graph, whose blocks keep their numbers.

    A fact that a rejected instruction needs was lost where edges meet before it. So the nearest such block, and the blocks from there to
    the instruction, are copied for each edge, and the new form is verified. Small blocks are tried first, then larger ones.
    """
    tries = iter(range(MOST_TRIES))
    for size in SIZES:
        found = _with_copies_of(graph, size, refused, (ask, write), tries)
        if found is not None:
            return found
    return None


def _with_copies_of(graph: Graph, size: int, refused: Refusal | None, by: tuple[Ask, Write], tries: Iterator[int]) -> Accepted | None:
    """Copies more and more blocks of at most so many slots, until a form is accepted or nothing more can be copied."""
    ask, write = by
    chosen: set[int] = set()
    now = copied(graph, chosen)
    while now is not None and next(tries, None) is not None:
        form = write(now.graph)
        if chosen:
            refused = ask(form) if len(form.origins) <= MOST_SLOTS else (0, 0)
        if refused is None:
            return Accepted(form, len(now.graph) - len(graph))
        more = _to_copy(now, form, refused[0], size) - chosen
        chosen |= more
        now = copied(graph, chosen) if more else None
    return None


def _to_copy(now: Copied, form: Written, slot: int, size: int) -> set[int]:
    """The blocks from the nearest one before a slot that has several incoming edges, to the slot's; none if one of them is too large."""
    before = predecessors(now.graph)
    number = form.blocks[slot]
    if number not in now.graph:
        return set()
    found = {number}
    while len(set(before[number])) == 1:
        (number,) = set(before[number])
        found.add(number)
    if not before[number] or any(now.graph[each].slots > size for each in found):
        return set()
    return {now.sources[each] for each in found}
