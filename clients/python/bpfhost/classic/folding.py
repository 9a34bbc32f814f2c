"""Makes a sum that only one load needs a part of that load.

A load at an offset that the packet decides is `tax` and `ld [x + k]`, often after an addition to A. The helper's argument is a sum anyway.
"""

from __future__ import annotations

from dataclasses import replace

from bpfhost.classic.instructions import Operator
from bpfhost.classic.knowledge import FARTHEST, greatest, live, predecessors
from bpfhost.classic.steps import Copy, Graph, LoadPacket, Operate, Pass, Place, Register

_TAX = Copy(Register.X, Register.A)


def with_sums_folded(graph: Graph) -> Graph:
    """The same program; a load relative to X reads the register that X was copied from, and adds the number that was added to it."""
    if _TAX not in graph.steps.values():
        return graph
    folding = _Folding(graph)
    for place in folding.order:
        folding.fold(place)
    return folding.found


class _Folding:
    def __init__(self, graph: Graph) -> None:
        self.order = graph.order()
        self.found = graph.copy()
        self._graph = graph
        self._live = live(graph, self.order)
        self._greatest = greatest(graph, self.order)
        self._before = predecessors(graph, self.order)
        self._sources = {follower: place for place in self.order for follower in graph.followers[place]}

    def fold(self, place: Place) -> None:
        """Leaves out a copy to X, and an addition before it, if only one load needs them."""
        following = self._graph.followers[place]
        load = self._graph.steps[following[0]] if len(following) == 1 else None
        if self._graph.steps[place] != _TAX or not isinstance(load, LoadPacket) or not self._needs_only_sum(following[0], load):
            return
        source = self._sources.get(place)
        added = self._added(source, load.offset) if source and self._before[place] == 1 else 0
        if source and added:
            self.found.steps[source] = Pass()
        self.found.steps[place] = Pass()
        self.found.steps[following[0]] = replace(load, base=Register.A, offset=load.offset + added)

    def _needs_only_sum(self, place: Place, load: LoadPacket) -> bool:
        """Whether X is copied for only this load, and A is not read after it unless the load writes it."""
        if not load.is_behind_x or load.to is not Register.A or self._before[place] > 1:
            return False
        first, *others = self._graph.followers[place]
        read_later = self._live.before[first] - {Register.A}
        return Register.X not in read_later and not any({Register.A, Register.X} & self._live.before[each] for each in others)

    def _added(self, place: Place, offset: int) -> int:
        """The number that is added to A here; 0 if it is no such addition, or if the sum and the offset may be too large."""
        match self._graph.steps[place]:
            case Operate(to=Register.A, operator=Operator.ADD, operand=int() as number):
                return number if self._greatest[place][Register.A] + number + offset <= FARTHEST else 0
        return 0
