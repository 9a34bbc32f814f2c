"""Tests two fields that are side by side in a packet by one load: the EtherType of IPv4, and the first byte of its header.

Most packets of IPv4 have no options, and 0 as their type of service. So one load of four bytes finds the EtherType 0x0800, the byte 0x45 and
a 0; a packet that has other bytes there takes the tests of each field.
"""

from __future__ import annotations

from collections.abc import Mapping
from dataclasses import dataclass

from bpfhost.classic.instructions import Test
from bpfhost.classic.ipv4 import ETHERTYPE, USUAL_BYTE
from bpfhost.classic.knowledge import live
from bpfhost.classic.steps import Branch, Graph, LoadHeader, Operate, Pass, Place, Register

# The sizes of the EtherType and of the first byte of IPv4, and of these with the type of service.
_KIND_SIZE, _BYTE_SIZE, _MERGED_SIZE = 2, 1, 4
_MERGED = ETHERTYPE << 16 | USUAL_BYTE << 8
# The second test is looked for among so many steps, and at most so many between the two are copied.
_MOST_REACHED, _MOST_BETWEEN = 64, 16


def with_kind_and_header_merged(graph: Graph) -> Graph:
    """The same program with one test in place of two, for packets of IPv4 as most of them are."""
    order = graph.order()
    tests = {place: test for place in order if (test := _test_at(graph, place))}
    offset = _common_offset(tests)
    if offset is None or _needs_other_alignment(graph, order, offset):
        return graph
    merging = _Merging(graph, order, {place: test for place, test in tests.items() if test.offset == offset})
    for place in order:
        merging.merge(place)
    return merging.found


@dataclass(frozen=True)
class _FieldTest:
    """A load with the test of what it loads: whether it is the EtherType or the byte, and the offset of the EtherType."""

    is_kind: bool
    offset: int
    branch: Place


def _test_at(graph: Graph, place: Place) -> _FieldTest | None:
    """The test of one of the two fields that begins here."""
    load = graph.steps[place]
    if not isinstance(load, LoadHeader):
        return None
    (following,) = graph.followers[place]
    branch = graph.steps[following]
    if not isinstance(branch, Branch) or branch.register is not load.to or branch.test is not Test.EQ:
        return None
    if (load.size, branch.operand) == (_KIND_SIZE, ETHERTYPE):
        return _FieldTest(True, load.offset, following)
    if (load.size, branch.operand) == (_BYTE_SIZE, USUAL_BYTE):
        return _FieldTest(False, load.offset - _KIND_SIZE, following)
    return None


def _common_offset(tests: Mapping[Place, _FieldTest]) -> int | None:
    """The offset of the only EtherType that both fields are tested after."""
    kinds, others = ({test.offset for test in tests.values() if test.is_kind is is_kind} for is_kind in (True, False))
    return next(iter(kinds & others)) if len(kinds & others) == 1 else None


def _needs_other_alignment(graph: Graph, order: list[Place], offset: int) -> bool:
    """Whether a load of four bytes would no longer be aligned on the stack if the merged one is."""
    loads = (graph.steps[place] for place in order)
    return any(isinstance(load, LoadHeader) and load.size == _MERGED_SIZE and (load.offset - offset) % _MERGED_SIZE for load in loads)


class _Merging:
    def __init__(self, graph: Graph, order: list[Place], tests: Mapping[Place, _FieldTest]) -> None:
        self._graph, self._tests = graph, tests
        self._numbers = {place: number for number, place in enumerate(order)}
        self._live = live(graph, order)
        self.found = graph.copy()

    def merge(self, place: Place) -> None:
        """Merges the test that begins here with those of the other field that follow it, if there are any."""
        first = self._tests.get(place)
        if not first or not self._is_only_tested(place, first) or not place.view.has(first.offset, _MERGED_SIZE):
            return
        begin = self._graph.followers[first.branch][0]
        between = self._between(begin, not first.is_kind)
        if not between:
            return
        alone = self.found.add(place.at, place.view, self._graph.steps[place], first.branch)
        merged = Branch(Register.MOVED, Test.EQ, _MERGED)
        test = self.found.add(place.at, place.view, merged, self._copied(begin, between, not first.is_kind), alone)
        self.found.put(place, LoadHeader(Register.MOVED, first.offset, _MERGED_SIZE), test)

    def _copied(self, begin: Place, between: list[Place], is_kind: bool) -> Place:
        """A copy of the steps between the tests, without the second ones; returns its first step."""
        copies: dict[Place, Place] = {}
        for place in reversed(between):
            if self._is_second(place, is_kind):
                copies[place] = copies.get(following := self._graph.followers[self._tests[place].branch][0], following)
            else:
                followers = (copies.get(each, each) for each in self._graph.followers[place])
                copies[place] = self.found.add(place.at, place.view, self._graph.steps[place], *followers)
        return copies[begin]

    def _is_second(self, place: Place, is_kind: bool) -> bool:
        """Whether the test of a field begins here that the merged test makes needless."""
        test = self._tests.get(place)
        return test is not None and test.is_kind is is_kind and self._is_only_tested(place, test)

    def _is_only_tested(self, place: Place, test: _FieldTest) -> bool:
        """Whether nothing reads what is loaded here after the test that holds."""
        load = self._graph.steps[place]
        assert isinstance(load, LoadHeader)
        return load.to not in self._live.before[self._graph.followers[test.branch][0]]

    def _between(self, begin: Place, is_kind: bool) -> list[Place]:
        """The steps that lead from one to the test of a field, with that test, each before its followers; none if they are too many."""
        reached, left = {begin}, [begin]
        while left and len(reached) <= _MOST_REACHED:
            place = left.pop()
            if isinstance(self._graph.steps[place], LoadHeader | Branch | Pass | Operate) and not self._is_second(place, is_kind):
                left += (each for each in self._graph.followers[place] if each not in reached)
                reached.update(self._graph.followers[place])
        leads: list[Place] = []
        for place in sorted(reached, key=self._numbers.__getitem__, reverse=True):
            if self._is_second(place, is_kind) or any(each in leads for each in self._graph.followers[place]):
                leads.append(place)
        return leads[::-1] if not left and len(leads) <= _MOST_BETWEEN else []
