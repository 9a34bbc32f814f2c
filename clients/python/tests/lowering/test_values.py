"""What is known before instructions: numbers and places in the stack, what makes them unknown; how much of the stack a function uses."""

from __future__ import annotations

from bpfhost.lowering import LoweringError
from bpfhost.lowering.code import Function
from bpfhost.lowering.ranges import ANY_NUMBER, Range, constant, full
from bpfhost.lowering.values import UNKNOWN, Place, State, Value, join
from tests.lowering.common import LoweringTest, decoded_functions, object_of


def function(text: str) -> Function:
    """The function of a text that ends with an exit."""
    return decoded_functions(object_of(f=f"{text}\nexit"))[0]


class States(LoweringTest):
    def after(self, text: str) -> State:
        """What is known after some lines."""
        state = State()
        for found in list(function(text).instructions.values())[:-1]:
            state.apply(found)
        return state

    def knows(self, register: int, wanted: Value, text: str) -> None:
        self.assertEqual(self.after(text).registers[register], wanted, text)

    def test_numbers_in_the_stack(self) -> None:
        self.knows(2, constant(7), "*(u64 *)(r10 - 8) = 7\nr2 = *(u64 *)(r10 - 8)")
        self.knows(2, constant(7), "r1 = 263\n*(u8 *)(r10 - 8) = r1\nr2 = *(u8 *)(r10 - 8)")
        self.knows(2, constant(7), "r3 = r10\nr3 += -16\n*(u32 *)(r3 + 8) = 7\nr2 = *(u32 *)(r10 - 8)")
        self.knows(2, full(16), "*(u32 *)(r10 - 8) = 7\nr2 = *(u16 *)(r10 - 8)")
        self.knows(2, UNKNOWN, "*(u32 *)(r10 - 8) = 7\n*(u32 *)(r10 - 4) = 7\nr2 = *(u64 *)(r10 - 8)")

    def test_what_is_written_over(self) -> None:
        kept = "*(u64 *)(r10 - 8) = 7\n*(u64 *)(r10 - 16) = 8\n"
        read = "\nr2 = *(u64 *)(r10 - 8)\nr3 = *(u64 *)(r10 - 16)"
        self.knows(2, UNKNOWN, f"{kept}*(u8 *)(r10 - 1) = 0{read}")
        self.knows(3, constant(8), f"{kept}*(u8 *)(r10 - 1) = 0{read}")
        self.knows(2, UNKNOWN, f"{kept}lock *(u64 *)(r10 - 8) += r1{read}")
        # Through a pointer that may lead into the stack all is forgotten, and through any other nothing.
        self.knows(3, UNKNOWN, f"{kept}r4 = r10\nr4 += r0\n*(u8 *)(r4 + 0) = 0{read}")
        self.knows(3, constant(8), f"{kept}r4 = *(u64 *)(r1 + 0)\n*(u8 *)(r4 + 0) = 0{read}")

    def test_calls(self) -> None:
        kept = "*(u64 *)(r10 - 8) = 7\n*(u64 *)(r10 - 24) = 8\nr3 = r10\nr3 += -16\n"
        read = "\nr6 = *(u64 *)(r10 - 8)\nr7 = *(u64 *)(r10 - 24)"
        self.knows(6, constant(7), f"{kept}r4 = 8\ncall 26{read}")
        self.knows(6, UNKNOWN, f"{kept}r4 = 9\ncall 26{read}")
        self.knows(7, constant(8), f"{kept}r4 = 9\ncall 26{read}")
        self.knows(6, UNKNOWN, f"{kept}r4 = *(u32 *)(r1 + 0)\ncall 26{read}")
        self.knows(6, UNKNOWN, f"{kept}r3 = *(u64 *)(r10 - 64)\nr4 = 1\ncall 26{read}")
        self.knows(6, constant(7), f"{kept}call 2{read}")
        self.knows(0, ANY_NUMBER, "r0 = 1\ncall 1")
        self.knows(3, UNKNOWN, "r3 = 1\ncall 1")

    def test_places(self) -> None:
        self.knows(2, Place(-8), "r2 = r10\nr2 += -16\nr2 -= -8")
        self.knows(2, Place(-16), "r3 = -16\nr2 = r10\nr2 += r3")
        self.knows(3, Place(-16), "r3 = -16\nr2 = r10\nr3 += r2")
        self.knows(2, UNKNOWN, "r2 = r10\nr2 += r0")
        self.knows(2, Range(0, 63), "r2 = r10\nr2 &= 63")
        self.knows(2, full(32), "w2 = w10")
        self.knows(3, Place(-8), "r2 = r10\nr2 += -8\n*(u64 *)(r10 - 16) = r2\nr3 = *(u64 *)(r10 - 16)")

    def test_joins(self) -> None:
        self.assertEqual(join(Range(1, 2), Range(5, 6)), Range(1, 6))
        self.assertEqual(join(Place(-8), Place(-8)), Place(-8))
        pairs: tuple[tuple[Value, Value], ...] = ((Place(-8), Place(-16)), (Place(-8), ANY_NUMBER), (UNKNOWN, constant(1)))
        for a, b in pairs:
            self.assertEqual((join(a, b), join(b, a)), (UNKNOWN, UNKNOWN))
        one, other = self.after("*(u64 *)(r10 - 8) = 7\nr6 = 1"), self.after("*(u64 *)(r10 - 8) = 9\n*(u64 *)(r10 - 16) = 1\nr6 = 3")
        joined = one.joined(other)
        self.assertEqual((joined.stack, joined.registers[6]), ({(-8, 8): Range(7, 9)}, Range(1, 3)))


class StackUsed(LoweringTest):
    def used(self, size: int, text: str) -> None:
        self.assertEqual(function(text).stack, size, text)

    def test_addresses(self) -> None:
        self.used(0, "r0 = 1")
        self.used(8, "*(u8 *)(r10 - 1) = 1")
        self.used(24, "r1 = *(u32 *)(r10 - 20)")
        self.used(16, "r2 = r10\nr2 += -9")
        self.used(40, "r2 = r10\nr2 += -32\nr3 = r2\n*(u64 *)(r3 - 8) = 1")
        self.used(512, "*(u64 *)(r10 - 512) = 1")
        self.used(16, "r2 = r10\nr2 += 8\nr2 += -24")
        self.used(32, "r2 = r10\nr2 -= 32\nr2 += 8\nr3 = *(u64 *)(r2 - 8)")

    def test_places_of_two_paths(self) -> None:
        self.used(48, "r2 = r10\nif r0 == 1 goto one\nr2 += -40\ngoto end\none:\nr2 += -16\nend:\n*(u64 *)(r2 - 8) = 1")

    def test_a_place_with_an_index(self) -> None:
        self.used(40, "r2 = r10\nr2 += -32\nr2 += r0\nr3 = *(u64 *)(r2 - 8)")
        self.used(40, "r3 = r10\nr3 += -32\nr2 = r0\nr2 += r3\nr3 = *(u64 *)(r2 - 8)")

    def test_numbers_are_no_places(self) -> None:
        self.used(8, "r2 = 1\nr2 += -400\n*(u64 *)(r10 - 8) = r2")

    def test_too_much(self) -> None:
        for text in ("*(u64 *)(r10 - 520) = 1", "r2 = r10\nloop:\nr2 += -8\nif r0 == r2 goto loop"):
            with self.assertRaisesRegex(LoweringError, "^function f uses more of the stack than a program has, 512 bytes$"):
                self.used(0, text)
