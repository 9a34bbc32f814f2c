"""Sequences, by kind: on random states each does what its instruction does, in registers and in memory, and leads to the same place."""

from __future__ import annotations

import random
import struct
from collections import Counter
from dataclasses import dataclass
from unittest import mock

from bpfhost import Host
from bpfhost.lowering import WrongForm, sequences
from bpfhost.lowering.checker import check
from bpfhost.lowering.frames import frames_of
from bpfhost.lowering.graph import without_empty, written
from bpfhost.lowering.inlining import inlined
from bpfhost.lowering.instructions import Instruction
from bpfhost.lowering.sequences import AFTER, EXIT, Stated, kind_of, needs_room, spare_of, stated
from bpfhost.objects import ObjectProgram
from tests.common import PROGRAM
from tests.lowering.common import LoweringTest, decoded_functions, object_of
from tests.lowering.interpreter import CONTEXT, FRAME, STACK, Machine, result_of

STATES = 400
MARK = (1 << 40) + 7
ROOM = -64
_END = STACK + FRAME
# r9 = MARK; exit: the run came to the instruction after.
AFTERWARDS = struct.pack("<BBhiII", 0x18, 9, 0, MARK & 0xFFFFFFFF, 0, MARK >> 32) + bytes.fromhex("9500000000000000")
_FETCHES = (0x01, 0x41, 0x51, 0xA1)
_PACKETS = (0x20, 0x28, 0x30, 0x40, 0x48, 0x50)


@dataclass(frozen=True)
class Ended:
    """What a run leaves: whether it came to the next instruction, its registers, and the stack."""

    is_after: bool
    registers: tuple[int, ...]
    memory: tuple[tuple[int, int], ...]


def program(slots: bytes) -> ObjectProgram:
    return ObjectProgram("socket", "f", slots, (), ())


def laid_out(sequence: Stated) -> bytes:
    """The parts of a sequence one after another: after the last one comes what follows, and then what ends the function."""
    slots = len(AFTERWARDS) // 8
    place = [part + slots * (part > sequence.last) for part in range(len(sequence.parts))]
    pieces = [
        each.jumping(place[sequence.taken[part]] - place[part] - 1) if part in sequence.taken else each
        for part, each in enumerate(sequence.parts)
    ]
    first = b"".join(each.to_bytes() for each in pieces[: sequence.last + 1])
    return first + AFTERWARDS + b"".join(each.to_bytes() for each in pieces[sequence.last + 1 :])


class Kinds(LoweringTest):
    def setUp(self) -> None:
        super().setUp()
        self.chance = random.Random(92)

    def instruction(self, kind: str) -> Instruction:
        """A random instruction of a kind."""
        chance = self.chance
        if kind == sequences.PACKET:
            opcode = chance.choice(_PACKETS)
            return Instruction(opcode, 0, chance.choice((1, 3, 7, 8)) if opcode & 0x40 else 0, 0, chance.randrange(24))
        operation = {sequences.EXCHANGED: 0xE1, sequences.COMPARED: 0xF1}.get(kind, chance.choice(_FETCHES))
        dst, src = chance.sample((0, 1, 2, 3, 4, 5, 7, 8), 2)
        if kind == sequences.COMPARED:
            dst = dst or (6 if src != 6 else 7)
        return Instruction(chance.choice((0xC3, 0xDB)), dst, src, chance.choice((0, 8, -8)), operation)

    def state(self, found: Instruction) -> tuple[list[int], dict[int, int]]:
        """Random registers and a random stack: some numbers occur in both, so that comparisons hold."""
        chance = self.chance
        numbers = [chance.getrandbits(64) for _ in range(3)] + [5, 1 << 32 | 5]
        registers = [chance.choice(numbers) for _ in range(10)] + [_END]
        memory = b"".join(chance.choice(numbers).to_bytes(8, "little") for _ in range(8))
        if found.reads_packet:
            registers[6] = CONTEXT
            registers[found.src] = CONTEXT if found.src == 6 else chance.randrange(24)
        else:
            registers[found.dst] = _END - chance.choice((16, 24, 32))
        return registers, {_END - 64 + at: byte for at, byte in enumerate(memory)}

    def ended(self, slots: bytes, registers: list[int], memory: dict[int, int], packet: bytes) -> Ended:
        machine = Machine((), packet, memory=memory.copy())
        after = registers.copy()
        machine.follow(program(slots), after)
        left = tuple(sorted((at, byte) for at, byte in machine.memory.items() if not _END + ROOM <= at < _END + ROOM + 8))
        return Ended(after[9] == MARK, tuple(after), left)

    def compare(self, kind: str, spare: int | None, counts: Counter[str]) -> None:
        """One instruction and its sequence, on one state."""
        found = self.instruction(kind)
        self.assertEqual(kind_of(found), kind)
        lost = {1, 2, 3, 4, 5} if found.reads_packet else set()
        if spare is not None:
            lost = {spare}
            if spare_of(found, frozenset(range(10)) - lost) != spare:
                return
        context = 6
        named = found._replace(dst=context) if found.reads_packet else found
        sequence = stated(named, spare, ROOM, (Instruction(0x95, 0, 0, 0, 0),))
        registers, memory = self.state(found)
        packet = bytes(self.chance.randrange(256) for _ in range(self.chance.randrange(40)))
        old = self.ended(found.to_bytes() + AFTERWARDS, registers, memory, packet)
        new = self.ended(laid_out(sequence), registers, memory, packet)
        kept = [register for register in range(11) if register not in lost and (old.is_after or register == 0)]
        words = f"{found} by {sequence} from {registers}"
        self.assertEqual((new.is_after, new.memory), (old.is_after, old.memory), words)
        self.assertEqual([new.registers[each] for each in kept], [old.registers[each] for each in kept], words)
        counts["after" if old.is_after else "ended"] += 1
        counts["stored" if old.memory != tuple(sorted((at, each) for at, each in memory.items() if at >= _END + ROOM + 8)) else "not"] += 1

    def test_packet(self) -> None:
        counts = Counter[str]()
        for _ in range(STATES):
            self.compare(sequences.PACKET, None, counts)
        self.assertGreater(min(counts["after"], counts["ended"]), STATES // 10, counts)

    def atomic(self, kind: str) -> Counter[str]:
        counts = Counter[str]()
        for _ in range(STATES):
            self.compare(kind, self.chance.choice((None, 0, 1, 2, 3, 4, 5)), counts)
        self.assertEqual(counts["ended"], 0)
        self.assertGreater(counts["after"], STATES // 2)
        return counts

    def test_fetch(self) -> None:
        self.assertGreater(self.atomic(sequences.FETCHED)["stored"], STATES // 10)

    def test_exchange(self) -> None:
        self.assertGreater(self.atomic(sequences.EXCHANGED)["stored"], STATES // 10)

    def test_compare(self) -> None:
        counts = self.atomic(sequences.COMPARED)
        self.assertGreater(min(counts["stored"], counts["not"]), STATES // 10, counts)

    def test_each_kind_has_its_test(self) -> None:
        self.assertEqual({f"test_{kind}" for kind in sequences.KINDS} - set(dir(self)), set())

    def test_what_follows(self) -> None:
        sequence = stated(Instruction(0x28, 6, 0, 0, 12), None, ROOM, (Instruction(0x95, 0, 0, 0, 0),))
        self.assertEqual(sequence.following(sequence.last, False), AFTER)
        self.assertEqual(sequence.following(len(sequence.parts) - 1, False), EXIT)


# ldabs h 12; ldind b r7 + 3; lock fetch add u64 r10-8, r8; xchg u64; cmpxchg u32.
HALF_12, BYTE_R7, WORD_NEAR = "slot 280000000c000000", "slot 5070000003000000", "slot 2000000002000000"
FETCH, EXCHANGE, COMPARE = "slot db8af8ff01000000", "slot db8af8ffe1000000", "slot c38af8fff1000000"
PACKETS = tuple(bytes(range(1, size + 1)) for size in (0, 1, 13, 14, 16, 40))


class Programs(LoweringTest):
    """Programs with sequences give what they give as compiled, in the interpreter."""

    def same(self, *changes: str, **functions: str) -> None:
        found = object_of((), **functions)
        lowered = self.accepted(found)
        text = self.text(lowered)
        self.assertEqual(lowered.changes, changes)
        with Host(PROGRAM) as host:
            tenant = host.tenant()
            descriptor = tenant.prog_load(lowered.program.slots)
            for packet in PACKETS:
                self.assertEqual(tenant.prog_test_run(descriptor, packet), result_of(found, packet), (packet, text))

    def test_a_legacy_load(self) -> None:
        self.same("1 legacy load of the packet is a call of bpf_skb_load_bytes", f=f"r6 = r1\n{HALF_12}\nr0 += 7\nexit")

    def test_at_a_register(self) -> None:
        text = f"r6 = r1\nr7 = *(u32 *)(r1 + 0)\nr7 >>= 1\nr8 = r7\n{BYTE_R7}\nr0 += r8\nr8 = r0\n{WORD_NEAR}\nr0 ^= r8\nexit"
        self.same("2 legacy loads of the packet are calls of bpf_skb_load_bytes", f=text)

    def test_in_a_function(self) -> None:
        """A packet that is too short ends the function with 0, and its caller continues."""
        inner = f"r9 = r6\nr6 = r1\nr7 = 2\nr8 = 5\n{HALF_12}\nr0 += r8\nr6 = 1\nexit"
        text = "r6 = r1\nr7 = 3\nr8 = 4\nr9 = 6\n*(u64 *)(r10 - 8) = 9\ncall inner\nr0 += r7\nr0 *= 5\nr0 += r8\nr0 += r9\nexit"
        saved = "1 call is inlined, of inner, which save 4 registers"
        load = "1 legacy load of the packet is a call of bpf_skb_load_bytes"
        inner = inner.replace("r9 = r6\n", "r9 = 1\n")
        self.same(saved, load, f=text.replace("call inner", "r6 = 0\ncall inner\nr0 += r6"), inner=inner)

    def test_in_a_loop(self) -> None:
        turn = f"{BYTE_R7}\nr8 += r0\nr7 += 1\nif r7 != 5 goto loop"
        load = "1 legacy load of the packet is a call of bpf_skb_load_bytes"
        self.same(load, "loops are unrolled: 62 slots of 19", f=f"r6 = r1\nr7 = 0\nr8 = 0\nloop:\n{turn}\nr0 = r8\nexit")

    def test_atomics(self) -> None:
        alone = "since runs follow one another"
        text = f"r8 = *(u32 *)(r1 + 0)\n*(u64 *)(r10 - 8) = 13\nr0 = 13\n{FETCH}\nr7 = r8\nr8 = *(u32 *)(r1 + 0)\n{EXCHANGE}\nr7 += r8\n"
        text += f"r0 = 13\n{COMPARE}\nr7 += r0\nr0 = *(u64 *)(r10 - 8)\nr0 += r7\nexit"
        self.same(
            f"1 atomic operation that fetches is a load, the operation and a store, {alone}",
            f"1 atomic exchange is a load and a store, {alone}",
            f"1 atomic compare-and-exchange is a load, a comparison and a store, {alone}",
            f=text,
        )

    def test_a_register_that_is_saved(self) -> None:
        read = "r0 += r1\nr0 += r2\nr0 += r3\nr0 += r4\nr0 += r5\nr0 += r8\nexit"
        given = "r0 = 2\nr2 = 3\nr3 = 4\nr4 = 5\nr5 = 6\nr8 = *(u32 *)(r1 + 0)\nr1 = 7\n*(u64 *)(r10 - 8) = 13\n"
        found = object_of(f=f"{given}{FETCH}\n{read}")
        function = decoded_functions(found)[0]
        self.assertEqual((list(function.spares.values()), function.stack), ([None], 16))
        change = "1 atomic operation that fetches is a load, the operation and a store, since runs follow one another"
        self.same(change, f=f"{given}{FETCH}\n{read}")

    def test_wrong_sequences(self) -> None:
        """A sequence that writes a register that is read later, or one with another part, is another program."""
        found = object_of(f=f"r8 = 1\nr1 = 7\n*(u64 *)(r10 - 8) = 13\nr0 = 2\n{FETCH}\nr0 += r1\nr0 += r8\nexit")
        functions = decoded_functions(found)
        frames = frames_of(functions)
        form = written(without_empty(inlined(functions, frames)))
        check(functions, frames, form.slots, form.origins)
        with self.assertRaises(WrongForm):
            check(functions, frames, form.slots.replace(bytes.fromhex("0f82000000000000"), bytes.fromhex("1f82000000000000")), form.origins)
        for spare in (1, 8):
            functions = decoded_functions(found)
            with mock.patch.object(type(functions[0]), "spares", {4: spare}), self.assertRaisesRegex(WrongForm, "which is read later"):
                wrong = written(without_empty(inlined(functions, frames)))
                check(functions, frames, wrong.slots, wrong.origins)

    def test_needs(self) -> None:
        self.assertTrue(needs_room(Instruction(0x28, 0, 0, 0, 12), 1))
        self.assertFalse(needs_room(Instruction(0xDB, 1, 2, 0, 1), 3))
