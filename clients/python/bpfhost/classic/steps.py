"""A classic program as a graph of small steps, from which slots are written: what each step reads and writes, and its followers."""

from __future__ import annotations

from dataclasses import dataclass, field
from enum import Enum
from typing import NamedTuple

from bpfhost.classic.ancillary import ContextWord
from bpfhost.classic.instructions import Operator, Test


class Register(Enum):
    """The registers of a classic program, and one more for its translation."""

    A = "A"
    X = "X"
    # The value that a moved test reads.
    MOVED = "moved"

    # Each is one object, so its identity is enough; the hash of Enum is that of its name.
    __hash__ = object.__hash__


# Instead of an instruction's number: the end that a load out of the packet leads to.
NO_INSTRUCTION = -1
# What steps read and write: a register, a word of scratch memory by its number, or the run's context.
CONTEXT = "context"
Storage = Register | int | str
# An operand: a register, or a number of 32 bits.
Operand = Register | int


class Headers(NamedTuple):
    """Bytes of the packet that one call copies to the stack: so many from an offset on."""

    first: int
    size: int

    @property
    def end(self) -> int:
        """Their end: a packet that has them has at least so many bytes."""
        return self.first + self.size

    def has(self, offset: int, size: int) -> bool:
        """Whether these bytes of the packet are among them."""
        return self.first <= offset and offset + size <= self.end


@dataclass(frozen=True)
class Pass:
    """Does nothing."""


@dataclass(frozen=True)
class SetNumber:
    """Sets a register to a number."""

    to: Register
    number: int


@dataclass(frozen=True)
class Copy:
    """Copies one register to another."""

    to: Register
    source: Register


@dataclass(frozen=True)
class LoadContext:
    """Loads a word of the context into a register."""

    to: Register
    word: ContextWord


@dataclass(frozen=True)
class LoadScratch:
    """Loads a word of scratch memory into a register."""

    to: Register
    word: int


@dataclass(frozen=True)
class StoreScratch:
    """Stores an operand to a word of scratch memory."""

    word: int
    value: Operand


@dataclass(frozen=True)
class LoadHeader:
    """Loads bytes of the packet that are on the stack into a register."""

    to: Register
    offset: int
    size: int


@dataclass(frozen=True)
class LoadPacket:
    """The register becomes bytes of the packet, by a call; the second follower is for a packet that ends before them.

    There is no second follower if the packet is known to have them, or if this is tested later. The bytes are
    at an offset, or relative to X: at the sum of the offset and X, or another register, `base`. The sum has 32 bits if it wraps, and otherwise as
    many as it needs.
    """

    to: Register
    offset: int
    size: int
    is_behind_x: bool = False
    wraps: bool = False
    base: Register = Register.X


@dataclass(frozen=True)
class Operate:
    """Applies an operator to a register and an operand."""

    to: Register
    operator: Operator
    operand: Operand


@dataclass(frozen=True)
class Negate:
    """Negates A."""


@dataclass(frozen=True)
class Branch:
    """The first follower is for a test of a register with an operand that holds, and the second for one that does not."""

    register: Register
    test: Test
    operand: Operand


@dataclass(frozen=True)
class Fetch:
    """Copies headers to the stack, by a call; the second follower is for a packet that ends before them.

    There is no second follower if the packet is known to have them, or if this is tested later.
    """

    headers: Headers


@dataclass(frozen=True)
class TestCall:
    """The first follower is for a last call that has found its bytes in the packet, and the second for one that has not."""


@dataclass(frozen=True)
class Return:
    """The program's result; `may_follow_failure` if the last call may not have found its bytes."""

    value: Operand
    may_follow_failure: bool = False


Step = (
    Pass
    | SetNumber
    | Copy
    | LoadContext
    | LoadScratch
    | StoreScratch
    | LoadHeader
    | LoadPacket
    | Operate
    | Negate
    | Branch
    | Fetch
    | TestCall
    | Return
)


class View(NamedTuple):
    """What is known at an instruction: which headers are on the stack, and what their first bytes of IPv4 are.

    `fetched` is None if no headers are looked for any more: the packet is too short for some, or has options. `usual` is the offset of a
    byte that was seen to be 0x45, as IPv4 without options begins; `is_x_usual` is whether X is the header's length in this byte, so that
    X needs no register.
    """

    fetched: tuple[Headers, ...] | None = None
    usual: int | None = None
    is_x_usual: bool = False

    def has(self, offset: int, size: int) -> bool:
        """Whether these bytes of the packet lie on the stack."""
        return any(headers.has(offset, size) for headers in self.fetched or ())


@dataclass(frozen=True, eq=False)
class Place:
    """A step by its instruction, the view there, and its number among the steps of that instruction.

    A step that the translation adds later has no such number. A place is one object, which is found in a graph by these three
    (`Graph.place`), so that two are compared, and looked up, as objects.
    """

    at: int
    view: View
    part: int = 0


@dataclass
class Graph:
    """Steps by their places, with their followers; no step follows itself."""

    entry: Place
    steps: dict[Place, Step] = field(default_factory=dict)
    followers: dict[Place, tuple[Place, ...]] = field(default_factory=dict)
    # All places but the entry, to which no jump leads, and the added ones.
    _places: dict[tuple[int, View, int], Place] = field(default_factory=dict)

    def copy(self) -> Graph:
        """A copy of the graph with the same steps."""
        return Graph(self.entry, dict(self.steps), dict(self.followers), self._places)

    def place(self, at: int, view: View, part: int = 0) -> Place:
        """The place of an instruction's step in a view."""
        found = self._places.get((at, view, part))
        if found is None:
            found = self._places[at, view, part] = Place(at, view, part)
        return found

    def put(self, place: Place, step: Step, *followers: Place) -> None:
        """Sets a step with its followers."""
        self.steps[place], self.followers[place] = step, followers

    def add(self, at: int, view: View, step: Step, *followers: Place) -> Place:
        """Adds a step, which belongs to an instruction in a view; returns its place."""
        place = Place(at, view)
        self.put(place, step, *followers)
        return place

    def end(self, view: View) -> Place:
        """The end with the result 0 that a load out of the packet leads to."""
        place = self.place(NO_INSTRUCTION, View(view.fetched))
        self.steps.setdefault(place, Return(0))
        self.followers.setdefault(place, ())
        return place

    def order(self) -> list[Place]:
        """The places that a path leads to, each before its followers.

        If possible, right after a step comes the follower that it goes on to without a jump: of a test the second one.
        """
        order: list[Place] = []
        seen: set[Place] = set()
        # A place with None after it comes into the order, as all that follows it is there.
        left: list[Place | None] = [self.entry]
        while left:
            place = left.pop()
            if place is None:
                order.append(left.pop())  # type: ignore[arg-type]
            elif place not in seen:
                seen.add(place)
                followers = self.followers[place]
                left += (place, None)
                # The last one of these is looked at first, so that it is the farthest one in the order.
                left += followers[::-1] if len(followers) > 1 and isinstance(self.steps[place], Branch) else followers
        return order[::-1]


# The steps that are calls: the context is passed to them.
CALLS = (Fetch, LoadPacket)


# In `reads` and `written` the most frequent steps come first, since the cases are tried in their order.


def reads(step: Step) -> tuple[Storage, ...]:
    """What a step reads."""
    match step:
        case Branch(register=register, operand=Register() as operand):
            return (register, operand)
        case Branch(register=register):
            return (register,)
        case LoadHeader() | Pass() | SetNumber() | TestCall():
            return ()
        case Return(value=Register() as value):
            return (value,)
        case LoadPacket(is_behind_x=True, base=base):
            return (base, CONTEXT)
        case LoadPacket() | Fetch() | LoadContext():
            return (CONTEXT,)
        case Operate(to=to, operand=Register() as operand):
            return (to, operand)
        case Operate(to=to):
            return (to,)
        case Copy(source=source):
            return (source,)
        case LoadScratch(word=word):
            return (word,)
        case StoreScratch(value=Register() as value):
            return (value,)
        case Negate():
            return (Register.A,)
    return ()


def written(step: Step) -> Storage | None:
    """What a step writes."""
    match step:
        case Branch() | Pass() | Return() | Fetch() | TestCall():
            return None
        case StoreScratch(word=word):
            return word
        case Negate():
            return Register.A
    return step.to
