"""Loops, unrolled: a copy of a loop's blocks for each iteration, as long as known numbers decide whether there is one more.

The blocks are followed from the program's first one, each copy once, in topological order, with what is known on the incoming edges
(`values`). A comparison that is decided is left out. So a loop ends if its count is bounded: by constants, or by a range, as that of `size
< 16 ? size : 16`.
"""

from __future__ import annotations

import heapq
from collections.abc import Callable, Collection, Iterator, Mapping
from dataclasses import dataclass, replace

from bpfhost.lowering.errors import LoweringError
from bpfhost.lowering.graph import Block, Graph, Origin
from bpfhost.lowering.values import State, edges
from bpfhost.numbers import MOST_SLOTS

# Names a copy of a block: the places of loops and block in topological order, and between them the iterations of the loops.
Key = tuple[int, ...]
Where = Callable[[Origin], str]


@dataclass(frozen=True)
class Nest:
    """For each block, its place in topological order, within each loop around it, and the headers of these loops, outermost first."""

    places: Mapping[int, tuple[int, ...]]
    headers: Mapping[int, tuple[int, ...]]


def unrolled(graph: Graph, where: Where) -> dict[int, Block]:
    """The graph without cycles. `where` returns the line of an origin.

    Raises LoweringError if the bound of a loop is not found, or if there are more slots than a program may have.
    """
    return _Unrolling(graph, _nest(graph, where), where).graph()


def _nest(graph: Graph, where: Where) -> Nest:
    places: dict[int, tuple[int, ...]] = {number: () for number in graph}
    headers: dict[int, tuple[int, ...]] = {number: () for number in graph}
    regions: list[tuple[set[int], int | None]] = [(set(graph), None)]
    while regions:
        region, header = regions.pop()
        for place, component in enumerate(_components(graph, region, header)):
            is_loop = len(component) > 1 or any(each in graph[each].successors() and each != header for each in component)
            inner = _header(graph, region, component, header, where) if is_loop else None
            for each in component:
                places[each] += (place,)
                headers[each] += (inner,) if inner is not None else ()
            if inner is not None:
                regions.append((component, inner))
    return Nest(places, headers)


def _header(graph: Graph, region: set[int], component: set[int], outer: int | None, where: Where) -> int:
    """The block at which a loop is entered; compilers write loops with exactly one."""
    entered = {each for number in region - component for each in graph[number].successors() if each in component and each != outer}
    if 0 in component:
        entered.add(0)
    if len(entered) != 1:
        loop = f"{where(graph[min(component)].origin)}: this loop, {_slots(graph, component)}"
        raise LoweringError(f"{loop}, is entered at {len(entered)} places, and one with a single entry is unrolled")
    return entered.pop()


def _slots(graph: Graph, blocks: Collection[int]) -> str:
    """The slots of a loop, in the function that has it; those of functions that it calls are not counted."""
    origins = [graph[number].origin for number in blocks]
    origins += [step.origin for number in blocks for step in (*graph[number].steps, *filter(None, (graph[number].jump,)))]
    frame = min(origin.frame for origin in origins)
    slots = [origin.slot for origin in origins if origin.frame == frame]
    return f"slots {min(slots)} to {max(slots)}"


def _components(graph: Graph, region: set[int], header: int | None) -> list[set[int]]:
    """The blocks of a region in topological order; blocks that lead to one another without its header are together (Tarjan's algorithm)."""
    return _Tarjan(lambda number: [each for each in graph[number].successors() if each in region and each != header]).components(region)


class _Tarjan:
    """Strongly connected components; source: Tarjan, Depth-first search and linear graph algorithms (1972)."""

    def __init__(self, successors: Callable[[int], list[int]]) -> None:
        self._successors = successors
        self._numbers: dict[int, int] = {}
        self._lowest: dict[int, int] = {}
        self._open: list[int] = []
        self._found: list[set[int]] = []

    def components(self, nodes: set[int]) -> list[set[int]]:
        """The components, each before those that it leads to."""
        for node in sorted(nodes):
            if node not in self._numbers:
                self._visit(node)
        return self._found[::-1]

    def _enter(self, node: int) -> tuple[int, Iterator[int]]:
        self._numbers[node] = self._lowest[node] = len(self._numbers)
        self._open.append(node)
        return node, iter(self._successors(node))

    def _visit(self, begin: int) -> None:
        path = [self._enter(begin)]
        while path:
            node, following = path[-1]
            each = next(following, None)
            if each is None:
                path.pop()
                self._leave(node, path[-1][0] if path else None)
            elif each not in self._numbers:
                path.append(self._enter(each))
            elif each in self._open:
                self._lowest[node] = min(self._lowest[node], self._numbers[each])

    def _leave(self, node: int, before: int | None) -> None:
        if before is not None:
            self._lowest[before] = min(self._lowest[before], self._lowest[node])
        if self._lowest[node] == self._numbers[node]:
            at = self._open.index(node)
            self._found.append(set(self._open[at:]))
            del self._open[at:]


class _Unrolling:
    """Follows the copies of blocks in the order of their keys, which is topological."""

    def __init__(self, graph: Graph, nest: Nest, where: Where) -> None:
        self._graph = graph
        self._nest = nest
        self._where = where
        self._numbers: dict[tuple[Key, int], int] = {}
        self._states: dict[int, State] = {}
        self._waiting: list[tuple[Key, int]] = []
        self._found: dict[int, Block] = {}
        self._slots = 0
        # The loops, by their headers, in which a comparison was decided for one more iteration.
        self._counted: set[int] = set()
        self._headers: dict[tuple[Key, int], State] = {}

    def graph(self) -> dict[int, Block]:
        """The blocks of the program without loops."""
        self._arrive(self._key(0, ()), 0, State())
        while self._waiting:
            key, block = heapq.heappop(self._waiting)
            self._follow(key, block)
        return self._found

    def _key(self, block: int, turns: tuple[int, ...]) -> Key:
        """The key of a block in such iterations of the loops around it, and in the first iteration of inner loops."""
        places, count = self._nest.places[block], len(self._nest.headers[block])
        filled = (*turns, *(0 for _ in range(count - len(turns))))
        return tuple(number for pair in zip(places, filled) for number in pair) + places[count:]

    def _arrive(self, key: Key, block: int, state: State) -> int:
        """Adds an edge to a copy of a block, and returns its number."""
        copy = key, block
        if copy not in self._numbers:
            self._numbers[copy] = len(self._numbers)
            heapq.heappush(self._waiting, copy)
        number = self._numbers[copy]
        self._states[number] = state.joined(self._states.get(number))
        return number

    def _follow(self, key: Key, number: int) -> None:
        """Follows a copy of a block to its successors."""
        block, copy = self._graph[number], self._numbers[key, number]
        state = self._states.pop(copy)
        if self._nest.headers[number] and self._nest.headers[number][-1] == number:
            self._check_progress(key, number, state)
        self._slots += block.slots
        if self._slots > MOST_SLOTS:
            self._refuse_length(number)
        state = state.copy()
        for step in block.steps:
            state.apply(step.instruction)
        self._found[copy] = self._ended(key, number, block, state)

    def _ended(self, key: Key, number: int, block: Block, state: State) -> Block:
        if block.next is None:
            return block
        if block.jump is None:
            return replace(block, next=self._edge(key, number, block.next, state))
        assert block.taken is not None
        taken, fallen = edges(state, block.jump.instruction)
        if taken is not None and fallen is not None:
            jumped = self._edge(key, number, block.taken, taken)
            return replace(block, taken=jumped, next=self._edge(key, number, block.next, fallen))
        # One edge can't be taken, so the comparison is left out.
        self._decided(number, block.next if fallen is None else block.taken)
        target, behind = (block.taken, taken) if fallen is None else (block.next, fallen)
        return replace(block, next=self._edge(key, number, target, behind or state), jump=None, taken=None)

    def _edge(self, key: Key, number: int, target: int, state: State) -> int:
        """Follows an edge: an edge to the header of a loop around its block leads into the next iteration."""
        around, there = self._nest.headers[number], self._nest.headers[target]
        common = 0
        while common < min(len(around), len(there)) and around[common] == there[common]:
            common += 1
        turns = list(key[1 : 2 * common : 2])
        if common and there[-1] == target == around[common - 1] and len(there) == common:
            turns[-1] += 1
        return self._arrive(self._key(target, tuple(turns)), target, state)

    def _decided(self, number: int, left_out: int) -> None:
        """Notes that a comparison is decided that otherwise leaves a loop."""
        self._counted |= set(self._nest.headers[number]) - set(self._nest.headers[left_out])

    def _check_progress(self, key: Key, header: int, state: State) -> None:
        """Raises LoweringError if nothing is known at a loop's header that was not known an iteration ago: then no iteration is the last one."""
        count = len(self._nest.headers[header])
        turn = key[2 * count - 1]
        if turn:
            before = self._headers.pop((self._key(header, (*key[1 : 2 * count - 1 : 2], turn - 1)), header))
            if before == state:
                raise LoweringError(self._unbounded(header))
        self._headers[key, header] = state

    def _refuse_length(self, number: int) -> None:
        headers = self._nest.headers[number]
        if headers and not set(headers) & self._counted:
            raise LoweringError(self._unbounded(headers[-1]))
        what = "its loops are unrolled"
        if headers:
            what = f"{self._line(headers[-1])}: this loop, {self._slots_of(headers[-1])}, is unrolled"
        raise LoweringError(f"{what} to more than {MOST_SLOTS:,} slots, which a program has at most: fewer turns, or less in each, fit")

    def _unbounded(self, header: int) -> str:
        bound = "a counter that begins at a constant, is changed by constants and compared with one, or with a number below one"
        return f"{self._line(header)}: no bound of this loop, {self._slots_of(header)}, is found: it needs {bound}"

    def _slots_of(self, header: int) -> str:
        return _slots(self._graph, [number for number, headers in self._nest.headers.items() if header in headers])

    def _line(self, header: int) -> str:
        """The line of a loop: of the comparison that leaves it, which mostly has the loop's condition, or else of its first block."""
        for number, block in self._graph.items():
            inside = [header in self._nest.headers[each] for each in block.successors()]
            if header in self._nest.headers[number] and block.jump is not None and not all(inside):
                return self._where(block.jump.origin)
        return self._where(self._graph[header].origin)
