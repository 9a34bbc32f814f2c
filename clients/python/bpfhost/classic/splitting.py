"""Compares a number that is not aligned on the stack in pieces, in place of putting the number together.

Its last bytes come first: they differ more often, in addresses of hosts and of interfaces.
"""

from __future__ import annotations

from bpfhost.classic.instructions import Test
from bpfhost.classic.knowledge import live, predecessors
from bpfhost.classic.stack import Layout, pieces
from bpfhost.classic.steps import Branch, Fetch, Graph, LoadHeader, Place


def with_unaligned_tests_split(graph: Graph) -> Graph:
    """The same program; a number that is only compared with one other is loaded and compared in aligned pieces."""
    order, found = graph.order(), graph.copy()
    loads = [(place, step) for place in order if isinstance(step := graph.steps[place], LoadHeader)]
    headers = [step.headers for place in order if isinstance(step := graph.steps[place], Fetch)]
    layout = Layout(headers, [load for _, load in loads])
    unaligned = [each for each in loads if len(pieces(layout.place(each[1].offset), each[1].size)) > 1]
    if not unaligned:
        return graph
    needed, before = live(graph, order), predecessors(graph, order)
    for place, load in unaligned:
        (test,) = graph.followers[place]
        branch = graph.steps[test]
        is_comparison = isinstance(branch, Branch) and branch.register is load.to and branch.test is Test.EQ
        if is_comparison and before[test] == 1 and load.to not in needed.after[test]:
            parts = [(offset - layout.place(0), size) for offset, size in pieces(layout.place(load.offset), load.size)]
            _split(found, place, load, parts)
    return found


def _split(found: Graph, place: Place, load: LoadHeader, parts: list[tuple[int, int]]) -> None:
    """Puts loads and tests of the parts, each with its offset and its size, in place of a load and its test."""
    (test,) = found.followers[place]
    branch = found.steps[test]
    assert isinstance(branch, Branch)
    if not isinstance(branch.operand, int) or branch.operand >= 2 ** (8 * load.size):
        # No bytes of this size are equal to a larger number.
        return
    number = branch.operand.to_bytes(load.size, "big")
    following, other = found.followers[test]
    for offset, size in parts:
        begin = offset - load.offset
        part = Branch(load.to, Test.EQ, int.from_bytes(number[begin : begin + size], "big"))
        compared = found.add(place.at, place.view, part, following, other)
        following = found.add(place.at, place.view, LoadHeader(load.to, offset, size), compared)
    found.put(place, found.steps[following], *found.followers[following])
