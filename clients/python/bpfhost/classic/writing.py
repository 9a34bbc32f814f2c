"""Writes the slots of a graph of steps.

A is register 7, X register 8, the context register 6, and scratch memory is on the stack.
"""

from __future__ import annotations

from collections.abc import Mapping
from dataclasses import dataclass, replace

from bpfhost.classic import slots_writer as op
from bpfhost.classic.instructions import Test
from bpfhost.classic.knowledge import after_calls, behind_calls_that_went_well, greatest, in_packet_order, live, reach
from bpfhost.classic.slots_writer import SlotsWriter
from bpfhost.classic.stack import Layout
from bpfhost.classic.step_slots import CONTEXT, NUMBERS, Context, StepSlots
from bpfhost.classic.steps import CONTEXT as CONTEXT_VALUE
from bpfhost.classic.steps import CALLS, Branch, Fetch, Graph, LoadHeader, LoadPacket, Operate, Place, Register, Return, TestCall
from bpfhost.numbers import MOST_SLOTS

# Of 32-bit comparisons with a number: the opcode, and that of the opposite comparison, which a test of common bits (JSET) does not have.
_TESTS: Mapping[Test, tuple[int, int | None]] = {
    Test.EQ: (0x16, 0x56),
    Test.GT: (0x26, 0xB6),
    Test.GE: (0x36, 0xA6),
    Test.SET: (0x46, None),
}
_BY_REGISTER = 0x08


@dataclass(frozen=True)
class Written:
    """How many slots there are, and what they are, if a program may have so many.

    `lines` has the slots at which other instructions begin: pairs of a slot and the instruction that it comes from, -1 for the end that a
    load out of the packet leads to. `reach` is how many of a packet's first bytes decide the result, if its length does not.
    """

    count: int
    slots: bytes | None
    lines: tuple[tuple[int, int], ...]
    reach: int | None


def written_slots(graph: Graph) -> Written:
    """The slots of a graph."""
    return _Writing(graph).written()


class _Writing:
    def __init__(self, graph: Graph) -> None:
        order = graph.order()
        self._graph = graph
        self._live = live(graph, order)
        self._greatest = greatest(graph, order)
        self._sizes_in_order = in_packet_order(graph, order, self._live)
        self._order = [place for place in order if place in self._live.needed]
        self._after_calls = after_calls(graph, order)
        # Otherwise the calls save the context.
        self._saves_first = any(self._meets_without_call(place) for place in order)
        self._with_zero = behind_calls_that_went_well(graph, order)
        steps = [graph.steps[place] for place in self._order]
        headers = [step.headers for step in steps if isinstance(step, Fetch)]
        self._lines: list[tuple[int, int]] = []
        self._writer = SlotsWriter()
        self._steps = StepSlots(self._writer, Layout(headers, [step for step in steps if isinstance(step, LoadHeader)]))

    def written(self) -> Written:
        """All slots; those of each step once, if a jump leads there or the step before goes on there."""
        self._begin()
        reached: Place | None = self._with_slots(self._graph.entry)
        for place, following in zip(self._order, [*self._order[1:], None]):
            if place == reached or self._writer.is_jumped_to(place):
                self._writer.label(place)
                self._mark(place)
                reached = self._write(place, following)
        count = len(self._writer)
        slots = self._writer.slots() if count <= MOST_SLOTS else None
        return Written(count, slots, tuple(self._lines), reach(self._graph, self._order, self._greatest))

    def _mark(self, place: Place) -> None:
        """Notes the instruction that the next slot comes from."""
        if not self._lines or self._lines[-1][1] != place.at:
            self._lines.append((len(self._writer), place.at))

    def _begin(self) -> None:
        """A register that is read before it is written is 0."""
        if self._saves_first:
            self._writer.put(op.MOVE_X, CONTEXT, op.R1)
        for register in (Register.A, Register.X):
            if register in self._live.before[self._graph.entry]:
                self._steps.number(NUMBERS[register], 0)

    def _context(self, place: Place) -> Context:
        """The place of the context at a step. The first call on a path saves it: a call that does is one turn of the host's interpreter."""
        if self._saves_first or place in self._after_calls:
            return Context.SAVED
        return Context.TO_SAVE if isinstance(self._graph.steps[place], CALLS) else Context.PASSED

    def _meets_without_call(self, place: Place) -> bool:
        """Whether this step goes on without a call to one that needs the context, and that other paths lead to with a call."""
        if place in self._after_calls or isinstance(self._graph.steps[place], CALLS):
            return False
        return any(each in self._after_calls and CONTEXT_VALUE in self._live.before[each] for each in self._graph.followers[place])

    def _with_slots(self, place: Place) -> Place:
        """The first step with slots from a step on, which may have none."""
        while place not in self._live.needed:
            place = self._graph.followers[place][0]
        return place

    def _write(self, place: Place, following: Place | None) -> Place | None:
        """Writes a step with the jumps after it; returns the step that it goes on to without a jump."""
        step = self._graph.steps[place]
        followers = [self._with_slots(each) for each in self._graph.followers[place]]
        context, in_order = self._context(place), place in self._sizes_in_order
        match step:
            case Branch():
                yes, no = followers
                return self._branch(place, step, yes, no, following)
            case Fetch(headers=headers):
                self._steps.fetch(headers, context, *followers[1:])
            case TestCall():
                self._steps.jump_if_short(followers[1])
            case Return():
                self._steps.end(step, place in self._with_zero)
            case LoadPacket():
                self._steps.load(step, context, self._greatest[place], *followers[1:])
                if step.to in self._live.after[place]:
                    self._steps.take(step, in_order)
            case Operate(operand=int() as number) if in_order:
                mask = _in_order(number, self._sizes_in_order[place])
                self._steps.step(replace(step, operand=mask), context, in_order)
            case _:
                self._steps.step(step, context, in_order)
        if not followers:
            return None
        return self._go_on(followers[0], following, isinstance(step, (*CALLS, TestCall)) or place in self._with_zero)

    def _go_on(self, follower: Place, following: Place | None, is_zero: bool) -> Place | None:
        """Goes on to a step: without a jump if it comes next; instead of a jump to a return, writes a copy of the return."""
        step = self._graph.steps[follower]
        if follower == following:
            return follower
        if isinstance(step, Return):
            self._mark(follower)
            self._steps.end(step, is_zero)
        else:
            self._writer.jump(follower)
        return None

    def _branch(self, place: Place, step: Branch, yes: Place, no: Place, following: Place | None) -> Place | None:
        """Writes a test with its jump; returns the step that it goes on to without one."""
        size = self._sizes_in_order.get(place)
        opcode, opposite = _TESTS[step.test]
        register, operand = NUMBERS[step.register], step.operand
        source, number = (NUMBERS[operand], 0) if isinstance(operand, Register) else (0, _number_in_order(step.test, operand, size))
        by_register = _BY_REGISTER if isinstance(operand, Register) else 0
        if yes == following and opposite is not None and no != following:
            self._writer.jump(no, opposite | by_register, register, source, number=number)
            return yes
        self._writer.jump(yes, opcode | by_register, register, source, number=number)
        return self._go_on(no, following, place in self._with_zero)


def _number_in_order(test: Test, number: int, size: int | None) -> int:
    """The number that a test compares with bytes in the packet's order, or the number itself if the bytes are swapped."""
    # No bytes of this size are equal to a larger number, in either order.
    if size is None or (test is Test.EQ and number >= 2 ** (8 * size)):
        return number
    return _in_order(number, size)


def _in_order(number: int, size: int) -> int:
    """The number whose lowest bytes are those of this one in the packet's order."""
    return int.from_bytes((number % 2 ** (8 * size)).to_bytes(size, "big"), "little")
