"""Tests late whether a call has found the packet too short.

Such a call leaves zeros in place of the bytes. So only the path that zeros take has the test, at its end, and packets that have other
bytes there go on without it. If both the path of zeros and that of a short packet end with 0, nothing is tested.
"""

from __future__ import annotations

from dataclasses import dataclass

from bpfhost.classic.instructions import Operator, Test
from bpfhost.classic.knowledge import greatest, has_33_bits, live, predecessors
from bpfhost.classic.steps import CALLS, CONTEXT, Branch, Copy, Fetch, Graph, LoadHeader, LoadPacket, Operate, Pass, Place, Register, Return, Step, TestCall

# The operators with which a number makes 0 of 0.
_KEEP_ZERO = (Operator.AND, Operator.LSH, Operator.RSH, Operator.MUL)


def with_failures_tested_late(graph: Graph) -> Graph:
    """The same program; what a call has found is tested at the end of the path that zeros take."""
    return _Failures(graph).tested_late()


@dataclass(frozen=True)
class _Edge:
    """The way from a step to one of its followers, by its number."""

    place: Place
    number: int


class _Failures:
    def __init__(self, graph: Graph) -> None:
        order = graph.order()
        self._graph, self._order = graph, order
        self._found = graph.copy()
        self._live = live(graph, order)
        self._greatest = greatest(graph, order)
        self._before = predecessors(graph, order)

    def tested_late(self) -> Graph:
        """The graph with the tests at their new places."""
        for place in self._order:
            step = self._graph.steps[place]
            if isinstance(step, CALLS) and len(self._graph.followers[place]) > 1 and self._can_go_on(place, step):
                self._move(place, step)
        return self._found

    def _can_go_on(self, place: Place, step: Fetch | LoadPacket) -> bool:
        """Whether zeros may be tested first: the path of a short packet reads no register, and no test comes before the call."""
        shorter = self._graph.followers[place][1]
        return not self._live.before[shorter] - {CONTEXT} and not (isinstance(step, LoadPacket) and has_33_bits(step, self._greatest[place]))

    def _move(self, place: Place, call: Fetch | LoadPacket) -> None:
        """Moves the test of a call to the end of the path that zeros take, if that has any steps."""
        first, shorter = self._graph.followers[place]
        edge = self._last_edge(place, call)
        if edge.place == place:
            return
        end = self._graph.followers[edge.place][edge.number]
        if self._before[end] > 1 and not self._ends_with_0(end):
            # The test would need a jump of its own, as the step at this end follows others.
            return
        if self._ends_with_0(end) and self._ends_with_0(shorter):
            target = self._found.add(end.at, end.view, Return(0, may_follow_failure=True))
        else:
            target = self._found.add(place.at, place.view, TestCall(), end, shorter)
        self._found.followers[place] = (first,)
        followers = list(self._found.followers[edge.place])
        followers[edge.number] = target
        self._found.followers[edge.place] = tuple(followers)

    def _last_edge(self, place: Place, call: Fetch | LoadPacket) -> _Edge:
        """The end of the path that zeros take from a call, as far as no other path leads to its steps."""
        zeros = {call.to} if isinstance(call, LoadPacket) else set[Register]()
        edge = _Edge(place, 0)
        while True:
            at = self._graph.followers[edge.place][edge.number]
            number = _next_of_zeros(self._graph.steps[at], call, zeros) if self._before[at] == 1 else None
            if number is None:
                return edge
            edge = _Edge(at, number)

    def _ends_with_0(self, place: Place) -> bool:
        while isinstance(self._graph.steps[place], Pass):
            (place,) = self._graph.followers[place]
        return self._graph.steps[place] == Return(0)


def _next_of_zeros(step: Step, call: Fetch | LoadPacket, zeros: set[Register]) -> int | None:
    """The number of the follower to which a step goes on after a call that left zeros; None if that is not known.

    `zeros` has the registers that are 0 then.
    """
    match step:
        case LoadHeader(to=to, offset=offset, size=size):
            is_zero = isinstance(call, Fetch) and call.headers.has(offset, size)
            (zeros.add if is_zero else zeros.discard)(to)
            return 0
        case Copy(to=to, source=source):
            (zeros.add if source in zeros else zeros.discard)(to)
            return 0
        case Operate(to=to, operator=operator, operand=int()) if to in zeros and operator in _KEEP_ZERO:
            return 0
        case Branch(register=register, test=test, operand=int() as operand) if register in zeros:
            return 0 if _holds_for_zero(test, operand) else 1
        case Pass():
            return 0
    return None


def _holds_for_zero(test: Test, operand: int) -> bool:
    """Whether a test of 0 with a number holds: for equality, and for at least, only with 0."""
    return test in (Test.EQ, Test.GE) and operand == 0
