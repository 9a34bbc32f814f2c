"""Analyses of a graph: which values are read later, how large numbers are, and which stay in the packet's byte order."""

from __future__ import annotations

from collections import Counter
from collections.abc import Mapping, Set
from dataclasses import dataclass

from bpfhost.classic.ancillary import LENGTH
from bpfhost.classic.instructions import Operator, Test
from bpfhost.classic.steps import (
    CALLS,
    Branch,
    Copy,
    Fetch,
    Graph,
    LoadContext,
    LoadHeader,
    LoadPacket,
    LoadScratch,
    Operate,
    Operand,
    Pass,
    Place,
    Register,
    SetNumber,
    Step,
    Storage,
    StoreScratch,
    TestCall,
    reads,
    written,
)

_WORD = 2**32 - 1
# The greatest offset that the helper accepts.
FARTHEST = 2**31 - 1
_NOTHING: frozenset[Storage] = frozenset()
# In place of a step that wrote a register: the start of the program; and the steps that use a number as an offset.
_START, _OFFSET = "start", "offset"
# The steps whose first follower is for a call that has found its bytes.
_TESTED = (*CALLS, TestCall)
Known = Mapping[Storage, int]


@dataclass(frozen=True)
class Live:
    """What is read later, before and after each step: other values need not be written.

    `needed` has the steps with an effect that is seen later: a load of the packet has, since the packet may end before it.
    """

    before: Mapping[Place, frozenset[Storage]]
    after: Mapping[Place, frozenset[Storage]]
    needed: Set[Place]


def live(graph: Graph, order: list[Place]) -> Live:
    """What is read later, for steps in an order in which each comes before its followers."""
    before: dict[Place, frozenset[Storage]] = {}
    after: dict[Place, frozenset[Storage]] = {}
    needed: set[Place] = set()
    for place in reversed(order):
        step, followers = graph.steps[place], graph.followers[place]
        target = written(step)
        later = before[followers[0]] if len(followers) == 1 else _NOTHING.union(*[before[each] for each in followers])
        after[place] = before[place] = later
        if target in later or isinstance(step, LoadPacket) or (target is None and not isinstance(step, Pass)):
            needed.add(place)
            before[place] = (later if target is None else later - {target}).union(reads(step))
    return Live(before, after, needed)


def predecessors(graph: Graph, order: list[Place]) -> Mapping[Place, int]:
    """How many steps lead to each step, each once for each of its followers."""
    return Counter(follower for place in order for follower in graph.followers[place])


def has_33_bits(step: LoadPacket, known: Known) -> bool:
    """Whether a load is relative to X, at a sum that may be larger than the 32 bits that the helper reads; it does not wrap then."""
    return step.is_behind_x and not step.wraps and known[step.base] + step.offset > _WORD


def after_calls(graph: Graph, order: list[Place]) -> set[Place]:
    """The steps before which some path has a call."""
    found: set[Place] = set()
    for place in order:
        if place in found or isinstance(graph.steps[place], CALLS):
            found.update(graph.followers[place])
    return found


def behind_calls_that_went_well(graph: Graph, order: list[Place]) -> set[Place]:
    """The steps before which each path has a call, the last of which succeeded: so it has left 0 as its result.

    They may include the path that zeros take after a call that is tested later, except what follows that test.
    """
    found = set(order) - {graph.entry}
    for place in order:
        is_call = isinstance(graph.steps[place], _TESTED)
        for number, follower in enumerate(graph.followers[place]):
            if number > 0 if is_call else place not in found:
                found.discard(follower)
    return found


def greatest(graph: Graph, order: list[Place]) -> dict[Place, Known]:
    """The greatest number that each register and each word of scratch memory may have before each step; both registers begin with 0."""
    before: dict[Place, Known] = {graph.entry: {Register.A: 0, Register.X: 0}}
    for place in order:
        step, known = graph.steps[place], before[place]
        target = written(step)
        behind = known if target is None else {**known, target: _greatest_of(step, known)}
        for follower in graph.followers[place]:
            met = before.setdefault(follower, behind)
            if met != behind:
                before[follower] = {storage: max(met.get(storage, _WORD), behind.get(storage, _WORD)) for storage in {**met, **behind}}
    return before


def _greatest_of(step: Step, known: Known) -> int:
    """The greatest number that a step writes."""
    match step:
        case SetNumber(number=number):
            return number
        case Copy(source=source):
            return known[source]
        case LoadScratch(word=word):
            return known.get(word, _WORD)
        case StoreScratch(value=value):
            return _of(value, known)
        case LoadHeader(size=size) | LoadPacket(size=size):
            return int(2 ** (8 * size) - 1)
        case Operate(to=to, operator=operator, operand=operand):
            return _greatest_result(operator, known[to], _of(operand, known), isinstance(operand, int))
    return _WORD


def _of(operand: Operand, known: Known) -> int:
    return operand if isinstance(operand, int) else known[operand]


def _greatest_result(operator: Operator, a: int, b: int, is_number: bool) -> int:
    """The greatest result of numbers up to a and up to b; of exactly b, if it is a number."""
    match operator:
        case Operator.ADD:
            found = a + b
        case Operator.MUL:
            found = a * b
        case Operator.AND:
            found = min(a, b)
        case Operator.OR | Operator.XOR:
            found = 2 ** max(a, b).bit_length() - 1
        case Operator.RSH:
            found = a >> b if is_number else a
        case Operator.LSH if is_number:
            found = a << b
        case Operator.DIV:
            found = a // b if is_number else a
        case Operator.MOD:
            found = min(a, b - 1) if is_number else a
        case _:
            return _WORD
    return found if found <= _WORD else _WORD


def reach(graph: Graph, order: list[Place], known: Mapping[Place, Known]) -> int | None:
    """How many of a packet's first bytes decide the result; None if it depends on the length of the packet in another way."""
    farthest = 0
    for place in order:
        match graph.steps[place]:
            case LoadContext(word=word) if word == LENGTH:
                return None
            case Fetch(headers=headers):
                farthest = max(farthest, headers.end)
            case LoadPacket(offset=offset, size=size, is_behind_x=is_behind_x, base=base):
                farthest = max(farthest, offset + size + (known[place][base] if is_behind_x else 0))
    return farthest


def in_packet_order(graph: Graph, order: list[Place], needed: Live) -> dict[Place, int]:
    """Loads of the packet, and the tests and masks of what they load, that can use the packet's byte order; each with the size.

    Such a value is only masked (AND) and tested for equality and for common bits, all with numbers; each of these steps sees loads of only
    one size.
    """
    return _in_packet_order(graph, order, needed, Register.A) | _in_packet_order(graph, order, needed, Register.MOVED)


def _in_packet_order(graph: Graph, order: list[Place], needed: Live, register: Register) -> dict[Place, int]:
    """Those of one register."""
    if not any(register in later for later in needed.after.values()):
        return {}
    groups = _Groups(register)
    # The step that wrote it last; if paths meet, one of the steps that did, which then are in one group if the register is read later.
    sources: dict[Place, Place | str] = {graph.entry: _START}
    for place in order:
        step, source = graph.steps[place], sources[place]
        is_needed = place in needed.needed
        if is_needed and register in reads(step):
            groups.join(_OFFSET if isinstance(step, LoadPacket) else place, source)
        behind = place if is_needed and written(step) is register else source
        for follower in graph.followers[place]:
            met = sources.setdefault(follower, behind)
            if met != behind and register in needed.before[follower]:
                groups.join(met, behind)
    return groups.of_one_size(graph)


class _Groups:
    """Groups of steps that have to agree on the byte order of a register, each led by one of them."""

    def __init__(self, register: Register) -> None:
        self._register = register
        self._leaders: dict[Place | str, Place | str] = {}

    def _leader(self, each: Place | str) -> Place | str:
        while (above := self._leaders.setdefault(each, each)) != each:
            self._leaders[each] = self._leaders[above]
            each = above
        return each

    def join(self, one: Place | str, other: Place | str) -> None:
        """Joins the groups of both."""
        self._leaders[self._leader(one)] = self._leader(other)

    def of_one_size(self, graph: Graph) -> dict[Place, int]:
        """The members of the groups in which all loads have one size of more than a byte, and nothing needs the number itself."""
        sizes: dict[Place | str, set[int]] = {}
        members = [(each, self._leader(each)) for each in list(self._leaders)]
        for each, leader in members:
            if not self._is_of_bytes(graph, each):
                sizes.setdefault(leader, set()).add(self._loaded_size(graph, each))
        agreed = {leader: size for leader, (size, *others) in sizes.items() if size > 1 and not others}
        return {each: agreed[leader] for each, leader in members if leader in agreed and isinstance(each, Place)}

    def _is_of_bytes(self, graph: Graph, each: Place | str) -> bool:
        """Whether this is a test or a mask that has the same result with the bytes of the register and of the number in another order."""
        match graph.steps[each] if isinstance(each, Place) else None:
            case Branch(register=register, test=Test.EQ | Test.SET, operand=int()):
                return register is self._register
            case Operate(to=register, operator=Operator.AND, operand=int()):
                return register is self._register
        return False

    def _loaded_size(self, graph: Graph, each: Place | str) -> int:
        """The size of a load of the packet; 0 for all other steps, which need the number itself or make one."""
        match graph.steps[each] if isinstance(each, Place) else None:
            case LoadHeader(to=register, size=size) | LoadPacket(to=register, size=size):
                return size if register is self._register else 0
        return 0
