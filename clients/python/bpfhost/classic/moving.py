"""Reorders tests: IPv4 first among the kinds of packets, and tests that most packets pass last."""

from __future__ import annotations

from dataclasses import replace

from bpfhost.classic.instructions import Test
from bpfhost.classic.ipv4 import ETHERTYPE
from bpfhost.classic.knowledge import live
from bpfhost.classic.steps import Branch, Graph, LoadHeader, LoadPacket, Pass, Place, Register, Return, Step, View

# A test is moved after so many steps at most, and to so many places.
_MOST_STEPS, _MOST_PLACES = 64, 3


def with_tests_moved(graph: Graph) -> Graph:
    """The same program with its tests in an order in which most packets need fewer steps."""
    found = _Linked(graph)
    for place in reversed(graph.order()):
        _put_ipv4_first(found, place)
    order = found.graph.order()
    mover = _Mover(found, order)
    for place in reversed(order):
        mover.move(place)
    return found.graph


class _Linked:
    """A copy of a graph, with the steps that come before each one."""

    def __init__(self, graph: Graph) -> None:
        self.graph = graph.copy()
        self.steps, self.followers = self.graph.steps, self.graph.followers
        self.before: dict[Place, set[Place]] = {}
        for place, followers in self.followers.items():
            self._note(place, followers)

    def _note(self, place: Place, followers: tuple[Place, ...]) -> None:
        for follower in followers:
            self.before.setdefault(follower, set()).add(place)

    def link(self, place: Place, *followers: Place) -> None:
        """Sets the followers of a step."""
        for follower in self.followers.get(place, ()):
            self.before[follower].discard(place)
        self.followers[place] = followers
        self._note(place, followers)

    def put(self, place: Place, step: Step, *followers: Place) -> None:
        """Sets the step of a place."""
        self.steps[place] = step
        self.link(place, *followers)

    def add(self, at: int, view: View, step: Step, *followers: Place) -> Place:
        """Adds a step to the graph; returns its place."""
        place = self.graph.add(at, view, step)
        self.link(place, *followers)
        return place

    def replace(self, place: Place, old: Place, new: Place) -> None:
        """Replaces a follower of a step by another one."""
        self.link(place, *(new if follower == old else follower for follower in self.followers[place]))

    def ends_with_0(self, place: Place) -> bool:
        """Whether the result is 0 from here on."""
        while isinstance(self.steps[place], Pass):
            (place,) = self.followers[place]
        return self.steps[place] == Return(0)


def _put_ipv4_first(linked: _Linked, place: Place) -> None:
    """If a test for IPv4 follows a test of the same number for something else, moves it before that test."""
    step = linked.steps[place]
    if place == linked.graph.entry or not isinstance(step, Branch):
        return
    yes, no = linked.followers[place]
    is_other = step.test is Test.EQ and isinstance(step.operand, int) and step.operand != ETHERTYPE
    if is_other and linked.steps[no] == Branch(step.register, Test.EQ, ETHERTYPE) and linked.before[no] == {place}:
        for before in list(linked.before[place]):
            linked.replace(before, place, no)
        ipv4, neither = linked.followers[no]
        linked.link(no, ipv4, place)
        linked.link(place, yes, neither)


class _Mover:
    """Moves tests that most packets pass, and that otherwise end the program, after other tests that end it."""

    def __init__(self, linked: _Linked, order: list[Place]) -> None:
        self._linked = linked
        self._live = live(linked.graph, order)

    def move(self, load: Place) -> None:
        """Moves the test of bytes of the packet that are loaded here, if it is such a test and the move saves steps."""
        linked, step = self._linked, self._linked.steps[load]
        if not isinstance(step, LoadHeader | LoadPacket) or step.to is not Register.A or len(linked.followers[load]) > 1:
            return
        (test,) = linked.followers[load]
        branch = linked.steps[test]
        if not isinstance(branch, Branch) or not self._is_weak(test) or linked.before[test] != {load} or Register.A in self._live.after[test]:
            return
        yes, no = linked.followers[test]
        on, end = (no, yes) if linked.ends_with_0(yes) else (yes, no)
        passed = self._passed(test, on)
        targets = {each for place in passed for each in linked.followers[place] if each not in passed and not linked.ends_with_0(each)}
        if not passed or len(targets) > _MOST_PLACES:
            return
        linked.put(load, Pass(), on)
        linked.link(test)
        for target in targets:
            moved = replace(branch, register=Register.MOVED)
            new_test = linked.add(test.at, target.view, moved, *((target, end) if on == yes else (end, target)))
            new_load = linked.add(load.at, target.view, replace(step, to=Register.MOVED), new_test)
            for place in passed:
                linked.replace(place, target, new_load)

    def _is_weak(self, place: Place) -> bool:
        """Whether a test ends the program for few packets: those that are not IPv4, and those with a bit that is rarely set."""
        step, followers = self._linked.steps[place], self._linked.followers[place]
        match step:
            case Branch(test=Test.SET, operand=int()):
                return self._linked.ends_with_0(followers[0])
            case Branch(test=Test.EQ, operand=operand):
                return operand == ETHERTYPE and self._linked.ends_with_0(followers[1])
        return False

    def _passed(self, test: Place, on: Place) -> list[Place]:
        """The steps after which a test is moved: those that no other step leads to and that lead to an end with 0."""
        found: dict[Place, None] = {}
        left = [on] if self._linked.before[on] == {test} else []
        while left and len(found) < _MOST_STEPS:
            place = left.pop()
            if not isinstance(self._linked.steps[place], Return):
                found[place] = None
                left += [each for each in self._linked.followers[place] if self._linked.before[each] <= found.keys()]
        gain: set[Place] = set()
        for place in reversed(found):
            if any(each in gain or self._ends_many(place, each) for each in self._linked.followers[place]):
                gain.add(place)
        return [place for place in found if place in gain]

    def _ends_many(self, place: Place, follower: Place) -> bool:
        """Whether a test ends the program for many packets by this follower."""
        return isinstance(self._linked.steps[place], Branch) and not self._is_weak(place) and self._linked.ends_with_0(follower)
