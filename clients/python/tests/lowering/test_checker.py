"""The checker: right forms pass; wrong ones do not, each made by one change of a right form, or by a wrong step."""

from __future__ import annotations

import random
import struct
from collections import Counter
from collections.abc import Callable, Iterator
from dataclasses import dataclass, replace
from unittest import mock

from bpfhost.lowering import WrongForm
from bpfhost.lowering.checker import check
from bpfhost.lowering.code import Function
from bpfhost.lowering.frames import Frame, frames_of
from bpfhost.lowering.graph import Origin, without_empty, written
from bpfhost.lowering.inlining import inlined
from bpfhost.lowering.instructions import decoded
from bpfhost.lowering.values import State, edges
from bpfhost.objects import ObjectFile
from tests.lowering.common import LoweringTest, decoded_functions, object_of

WRONG = 400

# All instructions of a program differ, so that none can replace another.
BACKWARD = """
    r0 = *(u32 *)(r1 + 0)
    if r0 > 40 goto far
    r0 += 1
    if r0 == 7 goto back
    r0 += 2
    if r0 & 5 goto end
    r0 += 3
back:
    r0 *= 5
    goto end
far:
    r0 -= 6
    r2 = 81985529216486895 ll
    r0 ^= r2
    if r0 s< 77 goto back
    r0 |= 9
end:
    r0 <<= 3
    exit"""
CALLS = """
    r6 = *(u32 *)(r1 + 0)
    r7 = 13
    r8 = 14
    r9 = 15
    *(u64 *)(r10 - 24) = 16
    r1 = r6
    call inner
    r0 += r6
    r1 = r0
    r1 += r7
    call inner
    r0 ^= r8
    r1 = *(u64 *)(r10 - 24)
    r0 -= r9
    r0 += r1
    exit"""
INNER = """
    r6 = r1
    r6 *= 17
    *(u64 *)(r10 - 16) = r6
    r7 = r10
    r7 += -16
    r0 = *(u64 *)(r7 + 0)
    if r0 > 18 goto big
    r0 += 19
    exit
big:
    r0 -= 20
    exit"""
LOOP = """
    r8 = *(u32 *)(r1 + 0)
    r0 = 21
    r6 = 0
loop:
    r0 += r6
    if r8 == 22 goto end
    r0 ^= r8
    r6 += 1
    if r6 < 4 goto loop
    r0 += 23
end:
    r0 *= 24
    exit"""


@dataclass(frozen=True)
class Form:
    """The arguments of the checker."""

    name: str
    functions: tuple[Function, ...]
    frames: tuple[Frame, ...]
    slots: bytes
    origins: tuple[Origin, ...]

    def check(self) -> None:
        check(self.functions, self.frames, self.slots, self.origins)

    def with_slot(self, slot: int, data: bytes) -> Form:
        """The form with other bytes from a slot on."""
        return replace(self, slots=self.slots[: 8 * slot] + data + self.slots[8 * slot + len(data) :])

    def at(self, slot: int) -> bytes:
        return self.slots[8 * slot : 8 * slot + 8]


def _slots(form: Form) -> list[int]:
    return list(decoded(form.slots))


def _field(form: Form, chance: random.Random) -> Form | None:
    """One bit of an instruction, except in the distances of jumps."""
    slot = chance.choice(_slots(form))
    byte = chance.choice((0, 1, 4, 5, 6, 7))
    if decoded(form.slots)[slot].is_goto:
        return None
    data = bytearray(form.at(slot))
    data[byte] ^= 1 << chance.randrange(8)
    return form.with_slot(slot, bytes(data))


def _jump(form: Form, chance: random.Random) -> Form | None:
    """A jump to a slot of another origin."""
    jumps = [slot for slot, found in decoded(form.slots).items() if found.distance() is not None]
    if not jumps:
        return None
    slot, target = chance.choice(jumps), chance.choice(_slots(form))
    now = slot + 1 + (decoded(form.slots)[slot].distance() or 0)
    if target == now or form.origins[target] == form.origins[now]:
        return None
    data = form.at(slot)
    return form.with_slot(slot, data[:2] + struct.pack("<h", target - slot - 1) + data[4:])


def _left_out(form: Form, chance: random.Random) -> Form | None:
    """A missing instruction, with its origin; jumps over it have their new distance."""
    slot = chance.choice(_slots(form))
    found = decoded(form.slots)
    if found[slot].is_goto and not found[slot].offset:
        return None
    count = found[slot].slots
    pieces = []
    for at, each in found.items():
        if at == slot:
            continue
        distance = each.distance()
        if distance is not None:
            target = at + 1 + distance
            shorter = (count if at < slot < target else 0)
            each = each.jumping(distance - shorter)
        pieces.append(each.to_bytes())
    return replace(form, slots=b"".join(pieces), origins=form.origins[:slot] + form.origins[slot + count :])


def _exchanged(form: Form, chance: random.Random) -> Form | None:
    """Two instructions that have changed places, with their origins or without."""
    found = decoded(form.slots)
    pairs = [slot for slot in found if slot + 1 in found and found[slot].slots == found[slot + 1].slots == 1]
    pairs = [slot for slot in pairs if all(found[each].distance() is None for each in (slot, slot + 1))]
    if not pairs:
        return None
    slot = chance.choice(pairs)
    origins = list(form.origins)
    if chance.random() < 0.5:
        origins[slot], origins[slot + 1] = origins[slot + 1], origins[slot]
    return replace(form.with_slot(slot, form.at(slot + 1) + form.at(slot)), origins=tuple(origins))


def _other_origin(form: Form, chance: random.Random) -> Form | None:
    """An origin of another slot."""
    slot = chance.choice(_slots(form))
    origin = chance.choice([*form.origins, form.origins[slot]._replace(part=form.origins[slot].part + 1), Origin(0, 99)])
    if origin == form.origins[slot]:
        return None
    return replace(form, origins=(*form.origins[:slot], origin, *form.origins[slot + 1 :]))


def _opposite(form: Form, chance: random.Random) -> Form | None:
    """An opposite comparison, with the edges as they were."""
    found = decoded(form.slots)
    slots = [slot for slot, each in found.items() if each.is_comparison and each.opposite() is not None]
    if not slots:
        return None
    slot = chance.choice(slots)
    opposite = found[slot].opposite()
    assert opposite is not None
    return form.with_slot(slot, opposite.to_bytes())


def _decided(form: Form, chance: random.Random) -> Form | None:
    """A comparison that always jumps, or never does."""
    found = decoded(form.slots)
    slots = [slot for slot, each in found.items() if each.is_comparison]
    if not slots:
        return None
    slot = chance.choice(slots)
    distance = chance.choice((0, found[slot].offset))
    target = slot + 1 + distance
    goto = struct.pack("<BBhi", 5, 0, distance, 0)
    origins = (*form.origins[:slot], form.origins[target], *form.origins[slot + 1 :])
    return replace(form.with_slot(slot, goto), origins=origins)


def _frame(form: Form, chance: random.Random) -> Form | None:
    """A frame that is stated wrongly."""
    number = chance.randrange(len(form.frames))
    frame = form.frames[number]
    other = chance.choice(
        (
            replace(frame, depth=frame.depth + chance.choice((-8, 8, 1, 512))),
            replace(frame, function=1 - frame.function),
            replace(frame, call=frame.call + 1),
            replace(frame, caller=None if frame.caller is not None else 0),
            replace(frame, saved=((6, -frame.depth - 8), *frame.saved)),
            replace(frame, saved=frame.saved[1:]),
            replace(frame, registers=(*frame.registers[:6], frame.registers[7], frame.registers[6], *frame.registers[8:])),
            replace(frame, registers=(*frame.registers[:9], frame.registers[8], 10)),
        )
    )
    return None if other == frame else replace(form, frames=(*form.frames[:number], other, *form.frames[number + 1 :]))


def _cut(form: Form, chance: random.Random) -> Form | None:
    """A form that ends too early, or continues past the end."""
    if chance.random() < 0.5:
        return replace(form, slots=form.slots[:-8], origins=form.origins[:-1])
    return replace(form, slots=form.slots + form.at(0), origins=(*form.origins, form.origins[0]))


KINDS: tuple[Callable[[Form, random.Random], Form | None], ...] = (
    _field,
    _jump,
    _left_out,
    _exchanged,
    _other_origin,
    _opposite,
    _decided,
    _frame,
    _cut,
)


class CheckerTest(LoweringTest):
    def right(self) -> Iterator[Form]:
        """Right forms: with blocks in another order, calls, loops, and copies."""
        for name, found in (
            ("order", object_of(f=BACKWARD)),
            ("calls", object_of(f=CALLS, inner=INNER)),
            ("loop", object_of(f=LOOP)),
            ("copies", object_of(f=BACKWARD.replace("r0 *= 5", "r0 *= r2"), inner=INNER)),
        ):
            yield self.form_of(name, found)

    def form_of(self, name: str, found: ObjectFile) -> Form:
        lowered = self.form(found)
        self.assertTrue(lowered.origins, name)
        return Form(name, lowered.functions, lowered.frames, lowered.program.slots, lowered.origins)


class Wrong(CheckerTest):
    def test_right_forms_pass(self) -> None:
        for form in self.right():
            form.check()

    def test_wrong_forms_do_not(self) -> None:
        chance = random.Random(56)
        forms = list(self.right())
        counts: Counter[str] = Counter()
        while sum(counts.values()) < WRONG:
            form, kind = chance.choice(forms), chance.choice(KINDS)
            wrong = kind(form, chance)
            if wrong is None:
                continue
            with self.subTest(form=form.name, kind=kind.__name__, number=sum(counts.values())), self.assertRaises(WrongForm):
                wrong.check()
            counts[kind.__name__] += 1
        self.assertEqual(set(counts), {kind.__name__ for kind in KINDS})
        self.assertGreater(min(counts.values()), 10, counts)

    def test_a_wrong_origin_of_nothing(self) -> None:
        form = next(self.right())
        for wrong in (replace(form, origins=form.origins[:-1]), replace(form, slots=b"", origins=()), replace(form, frames=())):
            with self.assertRaises(WrongForm):
                wrong.check()


class WrongSteps(CheckerTest):
    """The result of a step that is wrong everywhere is rejected."""

    def refused(self, found: ObjectFile) -> None:
        functions = decoded_functions(found)
        frames = frames_of(functions)
        form = written(without_empty(inlined(functions, frames)))
        with self.assertRaises(WrongForm):
            check(decoded_functions(found), frames, form.slots, form.origins)

    def test_nothing_is_saved(self) -> None:
        found = object_of(f=CALLS, inner=INNER)
        nothing = {slot: frozenset[int]() for slot in range(100)}
        with mock.patch.object(Function, "live", nothing):
            self.refused(found)

    def test_stacks_overlap(self) -> None:
        functions = decoded_functions(object_of(f=CALLS, inner=INNER))
        with mock.patch.object(Function, "stack", 8):
            frames = frames_of(functions)
            form = written(without_empty(inlined(functions, frames)))
        with self.assertRaisesRegex(WrongForm, "is not below its caller"):
            check(decoded_functions(object_of(f=CALLS, inner=INNER)), frames, form.slots, form.origins)

    def test_a_turn_too_few(self) -> None:
        def one_less(state: State, found: object) -> tuple[State | None, State | None]:
            taken, fallen = edges(state, found)  # type: ignore[arg-type]
            register = state.registers[6]
            return (None, state.copy()) if taken is not None and fallen is None and register == (3, 3) else (taken, fallen)

        with mock.patch("bpfhost.lowering.loops.edges", one_less), self.assertRaisesRegex(WrongForm, "the program goes on at"):
            self.form(object_of(f=LOOP))
