"""The kernel's checks, by hand from net/core/filter.c: each rule at its edge, each refusal by its sentence."""

from __future__ import annotations

from bpfhost.classic import ClassicError, ClassicProgram, Semantics
from bpfhost.classic.instructions import FORMS
from tests.common import TimedTest

RETURN = (0x06, 0, 0, 0)
LOAD, STORE, LOAD_SCRATCH = (0x30, 0, 0, 0), (0x02, 0, 0, 3), (0x60, 0, 0, 3)
Numbers = tuple[int, int, int, int]


class Checking(TimedTest):
    def refuses(self, told: str, *instructions: Numbers) -> None:
        with self.assertRaises(ClassicError) as raised:
            ClassicProgram.of(instructions)
        self.assertEqual(str(raised.exception), f"the classic program: {told}")

    def test_counts(self) -> None:
        self.refuses("it has no instruction")
        ClassicProgram.of([LOAD] * 4095 + [RETURN])
        self.refuses("it has 4,097 instructions, and 4,096 are the most", *[LOAD] * 4096, RETURN)

    def test_codes(self) -> None:
        for code in {*range(256), 0x100, 0xFFFF} - FORMS.keys():
            self.refuses(f"instruction 0, unimp 0x{code:x}: no instruction has the code 0x{code:x}", (code, 0, 0, 0), RETURN)
        told = "instruction 0, {}: a field has no room for its number: a code has 16 bits, jt and jf have 8, k has 32"
        self.refuses(told.format("ret #0"), (6, 256, 0, 0))
        self.refuses(told.format("ret #-1"), (6, 0, -1, 2**32 - 1))

    def test_jumps(self) -> None:
        ClassicProgram.of([(0x05, 0, 0, 1), LOAD, RETURN])
        self.refuses("instruction 0, ja 3: it jumps out of the program", (0x05, 0, 0, 2), LOAD, RETURN)
        backward = "it jumps backward, as protochain does, and a program that ends surely has jumps forward alone; proto in place of protochain "
        backward += "tests the first header after that of IP"
        self.refuses(f"instruction 1, ja 0: {backward}", LOAD, (0x05, 0, 0, 2**32 - 2), RETURN)
        ClassicProgram.of([(0x15, 1, 0, 0), LOAD, RETURN])
        self.refuses("instruction 0, jeq #0x0 jt 3 jf 1: it jumps out of the program", (0x15, 2, 0, 0), LOAD, RETURN)
        self.refuses("instruction 0, jset x jt 1 jf 3: it jumps out of the program", (0x4D, 0, 2, 0), LOAD, RETURN)
        # The last instruction.
        self.refuses("instruction 0, jeq #0x0 jt 1 jf 1: it jumps out of the program", (0x15, 0, 0, 0))
        self.refuses("instruction 1, ld [0]: the last instruction is no return", RETURN, (0x20, 0, 0, 0))

    def test_numbers(self) -> None:
        for code, name in ((0x34, "div"), (0x94, "mod")):
            ClassicProgram.of([(code, 0, 0, 1), RETURN])
            self.refuses(f"instruction 0, {name} #0: it divides by 0", (code, 0, 0, 0), RETURN)
        for code, name in ((0x64, "lsh"), (0x74, "rsh")):
            ClassicProgram.of([(code, 0, 0, 31), RETURN])
            self.refuses(f"instruction 0, {name} #32: it shifts by more than 31 bits", (code, 0, 0, 32), RETURN)
            ClassicProgram.of([(code | 8, 0, 0, 32), RETURN])

    def test_scratch_memory(self) -> None:
        for code, name in ((0x02, "st"), (0x03, "stx"), (0x60, "ld"), (0x61, "ldx")):
            self.refuses(f"instruction 0, {name} M[16]: scratch memory has 16 words", (code, 0, 0, 16), RETURN)
        ClassicProgram.of([(0x02, 0, 0, 15), (0x61, 0, 0, 15), RETURN])
        told = "ld M[3]: M[3] is loaded, and not stored before on each path"
        self.refuses(f"instruction 0, {told}", LOAD_SCRATCH, STORE, RETURN)
        # Stored only on the path that falls through; on both paths; before a jump over the store.
        self.refuses(f"instruction 2, {told}", (0x15, 1, 0, 0), STORE, LOAD_SCRATCH, RETURN)
        ClassicProgram.of([(0x15, 0, 2, 0), STORE, (0x05, 0, 0, 1), STORE, LOAD_SCRATCH, RETURN])
        ClassicProgram.of([STORE, (0x15, 1, 0, 0), STORE, LOAD_SCRATCH, RETURN])
        self.refuses(f"instruction 2, {told}", (0x05, 0, 0, 1), STORE, LOAD_SCRATCH, RETURN)

    def test_ancillary_loads(self) -> None:
        for offset in (*range(0, 65), 0xFFF):
            load = (0x20, 0, 0, 0xFFFFF000 + offset)
            if offset % 4 == 0 and offset < 64:
                ClassicProgram.of([load, RETURN])
            else:
                told = f"instruction 0, ld [{offset - 4096}]: the kernel has no ancillary load at {offset}"
                self.refuses(told, load, RETURN)


class WithoutAnswer(TimedTest):
    """Programs that the kernel accepts, and that no run of this host has a result for."""

    def refuses(self, k: int, told: str) -> None:
        for semantics in Semantics:
            with self.assertRaises(ClassicError) as raised:
                ClassicProgram.of([(0x20, 0, 0, k), (0x16, 0, 0, 0)]).translated(semantics)
            self.assertEqual(str(raised.exception), f"the classic program: instruction 0, ld [{k - 2**32}]: a run's context does not have {told}")

    def test_ancillary_loads_by_their_names(self) -> None:
        for offset, told in {
            12: "SKF_AD_NLATTR, an attribute of a netlink message",
            16: "SKF_AD_NLATTR_NEST, a nested attribute of a netlink message",
            28: "SKF_AD_HATYPE, the type of the interface",
            32: "SKF_AD_RXHASH, the packet's hash",
            36: "SKF_AD_CPU, the processor",
            52: "SKF_AD_PAY_OFFSET, where the payload begins",
            56: "SKF_AD_RANDOM, a random number",
        }.items():
            self.refuses(0xFFFFF000 + offset, told)

    def test_offsets_of_headers(self) -> None:
        self.refuses(0xFFF00000, "bytes behind the network header (SKF_NET_OFF)")
        self.refuses(0xFFE0000C, "bytes behind the link header (SKF_LL_OFF)")

    def test_they_are_refused_where_a_path_leads_there_alone(self) -> None:
        ClassicProgram.of([(0x06, 0, 0, 1), (0x20, 0, 0, 0xFFFFF000 + 56), (0x16, 0, 0, 0)]).translated()
