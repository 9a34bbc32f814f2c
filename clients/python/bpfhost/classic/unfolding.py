"""A classic program as a graph of steps: each instruction once for each state of what is known at it."""

from __future__ import annotations

from collections.abc import Sequence
from dataclasses import dataclass

from bpfhost.classic.ancillary import LENGTH, WIRE_LENGTH, context_word, is_exclusive_or, without_word
from bpfhost.classic.checking import refused_at
from bpfhost.classic.instructions import (
    ANCILLARY,
    FORMS,
    LINK_HEADER,
    MOST_INSTRUCTIONS,
    NETWORK_HEADER,
    Form,
    Instruction,
    Kind,
    Operator,
    Test,
)
from bpfhost.classic.ipv4 import USUAL_BYTE, USUAL_LENGTH
from bpfhost.classic.knowledge import FARTHEST
from bpfhost.classic.semantics import Length, Meaning, Semantics
from bpfhost.classic.steps import (
    Branch,
    Copy,
    Fetch,
    Graph,
    Headers,
    LoadContext,
    LoadHeader,
    LoadPacket,
    LoadScratch,
    Negate,
    Operand,
    Operate,
    Pass,
    Place,
    Register,
    Return,
    SetNumber,
    Step,
    StoreScratch,
    View,
)

A, X = Register.A, Register.X
_SHIFTS = (Operator.LSH, Operator.RSH)
_DIVISIONS = (Operator.DIV, Operator.MOD)
# Nothing is on the stack, and nothing is copied to it: each load of the packet is a call.
_BY_CALLS = View()
# A graph with more steps would have more slots than a program may have, or take too long to analyze: a program can be made so that each
# of its instructions has hundreds of views.
_MOST_STEPS = 8 * MOST_INSTRUCTIONS


@dataclass(frozen=True)
class Plan:
    """Which headers come to the stack, each at the first load of them, and whether the usual IPv4 header is a case of its own."""

    headers: tuple[Headers, ...] = ()
    has_usual: bool = False

    def with_bytes(self, offset: int, size: int) -> Headers | None:
        """The headers that have these bytes of the packet."""
        return next((each for each in self.headers if each.has(offset, size)), None)


def unfolded(instructions: Sequence[Instruction], plan: Plan, meaning: Meaning) -> Graph | None:
    """The steps of a program that was checked, or None if they are too many; without headers they never are.

    A ClassicError names a load that no run has a value for.
    """
    return _Unfolding(instructions, plan, meaning).graph()


class _Unfolding:
    def __init__(self, instructions: Sequence[Instruction], plan: Plan, meaning: Meaning) -> None:
        self._instructions = instructions
        self._plan = plan
        self._meaning = meaning
        self._graph = Graph(Place(0, View(()) if plan.headers else _BY_CALLS))
        self._place = self._graph.entry
        self._left: list[Place] = []

    def graph(self) -> Graph | None:
        """All steps that a path leads to, if they are not too many."""
        self._left.append(self._graph.entry)
        while self._left:
            if len(self._graph.steps) > _MOST_STEPS:
                return None
            place = self._left.pop()
            if place not in self._graph.steps:
                self._place = place
                self._unfold(place)
        return self._graph

    # Steps of an instruction are added one after another.

    def _add(self, step: Step, *others: Place) -> None:
        """A step that the next one of this instruction follows, and these if it fails."""
        following = self._next_part()
        self._put(step, (following, *others))
        self._place = following

    def _end(self, step: Step, *followers: Place) -> None:
        """The last step of this instruction."""
        self._put(step, followers)

    def _put(self, step: Step, followers: tuple[Place, ...]) -> None:
        self._graph.steps[self._place] = step
        self._graph.followers[self._place] = followers
        self._left += followers

    def _next_part(self, many: int = 1) -> Place:
        return self._graph.place(self._place.at, self._place.view, self._place.part + many)

    def _drop(self) -> Place:
        """The end with the result 0."""
        return self._graph.end(self._place.view)

    def _unfold(self, place: Place) -> None:
        at, view = place.at, place.view
        instruction = self._instructions[at]
        form, k = FORMS[instruction.code], instruction.k
        if self._fetches(view, form, k):
            return
        following = self._graph.place(at + 1, self._view_behind(view, form))
        to = X if form.is_x else A
        match form.kind:
            case Kind.BRANCH:
                self._branch(form, self._x(view) if form.is_x else k, *[self._graph.place(at + 1 + far, view) for far in instruction[1:3]])
            case Kind.ABSOLUTE:
                self._load_at(at, k, form.size, following)
            case Kind.INDIRECT:
                self._load_behind_x(view, k, form.size, following)
            case Kind.HEADER_LENGTH:
                self._load_header_length(place, k)
            case Kind.LENGTH:
                self._end(LoadContext(to, LENGTH if self._meaning.length is Length.PACKET else WIRE_LENGTH), following)
            case Kind.NUMBER:
                self._end(SetNumber(to, k), following)
            case Kind.SCRATCH:
                self._end(LoadScratch(to, k), following)
            case Kind.STORE:
                self._end(StoreScratch(k, self._x(view) if form.is_x else A), following)
            case Kind.OPERATE:
                self._operate(form, self._x(view) if form.is_x else k, following)
            case Kind.NEGATE:
                self._end(Negate(), following)
            case Kind.JUMP:
                self._end(Pass(), self._graph.place(at + 1 + k, view))
            case Kind.RETURN:
                self._end(Return(A if form.is_x else k))
            case Kind.MOVE:
                self._move(form, view, following)

    @staticmethod
    def _view_behind(view: View, form: Form) -> View:
        """The view after an instruction that is no jump: whether it writes X."""
        writes_x = form.mnemonic == "tax" or (form.is_x and form.kind in (Kind.NUMBER, Kind.SCRATCH, Kind.LENGTH))
        return view._replace(is_x_usual=False) if writes_x else view

    @staticmethod
    def _x(view: View) -> Operand:
        return USUAL_LENGTH if view.is_x_usual else X

    def _move(self, form: Form, view: View, following: Place) -> None:
        if not form.is_x:
            self._end(Copy(X, A), following)
        else:
            self._end(SetNumber(A, USUAL_LENGTH) if view.is_x_usual else Copy(A, X), following)

    def _branch(self, form: Form, operand: Operand, yes: Place, no: Place) -> None:
        assert form.test
        if yes == no:
            self._end(Pass(), yes)
        else:
            self._end(Branch(A, form.test, operand), yes, no)

    def _operate(self, form: Form, operand: Operand, following: Place) -> None:
        operator = form.operator
        assert operator
        if operand is X and operator in _DIVISIONS:
            self._add_branch(Branch(X, Test.EQ, 0), self._drop())
        elif operand is X and operator in _SHIFTS and self._meaning.semantics is Semantics.LIBPCAP:
            far = self._next_part(2)
            self._graph.steps[far], self._graph.followers[far] = SetNumber(A, 0), (following,)
            self._add_branch(Branch(X, Test.GT, 31), far)
        self._end(Operate(A, operator, operand), following)

    def _add_branch(self, branch: Branch, yes: Place) -> None:
        """A test of this instruction; its next step follows if the test does not hold."""
        following = self._next_part()
        self._put(branch, (yes, following))
        self._place = following

    # Loads of the packet.

    def _fetches(self, view: View, form: Form, k: int) -> bool:
        """Whether an instruction loads headers that come to the stack first: then it is unfolded once more, in the view after that.

        A packet that is too short for them takes the path with a call for each load.
        """
        offset = None if view.fetched is None else self._offset(view, form, k)
        headers = None if offset is None else self._plan.with_bytes(offset, form.size)
        if view.fetched is None or headers is None or headers in view.fetched:
            return False
        at, place = self._place.at, self._graph.place
        shorter = place(at, _BY_CALLS)
        if view.is_x_usual:
            by_calls, shorter = shorter, self._next_part(2)
            self._graph.steps[shorter], self._graph.followers[shorter] = SetNumber(X, USUAL_LENGTH), (by_calls,)
            self._left.append(by_calls)
        fetched = tuple(each for each in self._plan.headers if each == headers or each in view.fetched)
        self._end(Fetch(headers), place(at, view._replace(fetched=fetched)), shorter)
        return True

    def _offset(self, view: View, form: Form, k: int) -> int | None:
        """The offset of the bytes of a load of the packet, if that is known."""
        match form.kind:
            case Kind.INDIRECT if view.is_x_usual:
                return self._offset_behind_x(k)
            case Kind.ABSOLUTE | Kind.HEADER_LENGTH:
                return k
        return None

    def _offset_behind_x(self, k: int) -> int:
        """X + k if X is known."""
        return (k + USUAL_LENGTH) % 2**32 if self._meaning.semantics is Semantics.KERNEL else k + USUAL_LENGTH

    def _load_at(self, at: int, k: int, size: int, following: Place) -> None:
        """A load at k, or an ancillary one."""
        if k >= LINK_HEADER:
            self._load_ancillary(at, k, following)
        else:
            self._load(A, k, size, following)

    def _load(self, to: Register, offset: int, size: int, following: Place) -> None:
        """A load at a known offset: from the stack if the bytes are there."""
        if offset > FARTHEST:
            self._end(Pass(), self._drop())
        elif following.view.has(offset, size):
            self._end(LoadHeader(to, offset, size), following)
        else:
            self._end(LoadPacket(to, offset, size), following, self._drop())

    def _load_ancillary(self, at: int, k: int, following: Place) -> None:
        word = context_word(k) if k >= ANCILLARY else None
        if word:
            self._end(LoadContext(A, word), following)
        elif is_exclusive_or(k):
            self._end(Operate(A, Operator.XOR, self._x(following.view)), following)
        else:
            area = "the link header (SKF_LL_OFF)" if k < NETWORK_HEADER else "the network header (SKF_NET_OFF)"
            what = without_word(k) if k >= ANCILLARY else f"bytes behind {area}"
            raise refused_at(at, self._instructions[at], f"a run's context does not have {what}")

    def _load_behind_x(self, view: View, k: int, size: int, following: Place) -> None:
        is_kernel = self._meaning.semantics is Semantics.KERNEL
        if view.is_x_usual:
            self._load(A, self._offset_behind_x(k), size, following)
        elif k > FARTHEST and not is_kernel:
            self._end(Pass(), self._drop())
        else:
            self._end(LoadPacket(A, k, size, is_behind_x=True, wraps=is_kernel), following, self._drop())

    def _load_header_length(self, place: Place, k: int) -> None:
        """Four times the low half of a byte: 20 if the byte is that of an IPv4 header without options, otherwise by arithmetic."""
        following, view = place.at + 1, place.view
        usual = self._graph.place(following, view._replace(usual=k, is_x_usual=True))
        other = self._graph.place(following, view._replace(is_x_usual=False))
        has_usual = self._plan.has_usual and view.has(k, 1)
        if has_usual and view.usual == k:
            self._end(Pass(), usual)
            return
        if k > FARTHEST:
            self._end(Pass(), self._drop())
            return
        if view.has(k, 1):
            self._add(LoadHeader(X, k, 1))
        else:
            self._add(LoadPacket(X, k, 1), self._drop())
        if has_usual:
            other = self._graph.place(following, _BY_CALLS)
            self._add_branch(Branch(X, Test.EQ, USUAL_BYTE), usual)
        self._add(Operate(X, Operator.AND, 0x0F))
        self._end(Operate(X, Operator.LSH, 2), other)
