"""Each step separately: order, copies, inlining, loops; the changes that it reports, and what stops it."""

from __future__ import annotations

from dataclasses import replace

from bpfhost import Host
from bpfhost.loading import refused_at
from bpfhost.lowering import LoweringError
from bpfhost.objects import ObjectFile
from tests.common import PROGRAM
from tests.lowering.common import LoweringTest, object_of, only
from tests.lowering.interpreter import result_of

PACKETS = tuple(bytes(range(1, size + 1)) for size in (0, 1, 5, 9, 16, 40))


class StepTest(LoweringTest):
    def changed(self, found: ObjectFile, *changes: str) -> None:
        """The form is accepted, returns what the program returns, and reports this change."""
        lowered = self.accepted(found)
        text = self.text(lowered)
        self.assertEqual(lowered.changes, changes, text)
        with Host(PROGRAM) as host:
            tenant = host.tenant()
            descriptor = tenant.prog_load(lowered.program.slots)
            for packet in PACKETS:
                self.assertEqual(tenant.prog_test_run(descriptor, packet), result_of(found, packet), text)

    def stops(self, found: ObjectFile, sentence: str) -> None:
        with self.assertRaises(LoweringError) as caught:
            self.lowered(found)
        self.assertEqual(str(caught.exception), sentence)

    def writes(self, found: ObjectFile, text: str) -> None:
        """The plainest form has this text."""
        self.assertEqual(self.text(self.form(found)).splitlines(), [line.strip() for line in text.strip().splitlines()])


class Order(StepTest):
    BACKWARD = "blocks are put in topological order"

    def test_a_program_that_is_accepted_stays(self) -> None:
        found = object_of(f="r0 = *(u32 *)(r1 + 0)\nif r0 > 4 goto +1\nr0 = 1\nexit")
        lowered = self.accepted(found)
        self.assertEqual((lowered.program, lowered.changes, lowered.origins), (found.programs[0], (), ()))

    def test_a_jump_backward(self) -> None:
        text = "r0 = *(u32 *)(r1 + 0)\nif r0 > 4 goto far\nr0 += 1\nback:\nexit\nfar:\nr0 = 9\ngoto back"
        self.changed(object_of(f=text), self.BACKWARD)
        self.writes(object_of(f=text), "r0 = *(u32 *)(r1 + 0)\nif r0 > 4 goto +2\nr0 += 1\ngoto +1\nr0 = 9\nexit")

    def test_what_no_path_reaches(self) -> None:
        text = "r0 = 1\ngoto end\nr0 = 2\nend:\nexit"
        self.changed(object_of(f=text), f"{self.BACKWARD} and unreachable ones are left out")
        self.writes(object_of(f=text), "r0 = 1\nexit")

    def test_a_far_jump_becomes_a_near_one(self) -> None:
        text = "r0 = 1\ngotol there\nback:\nexit\nthere:\nif r0 == 1 goto back\ngoto back"
        self.writes(object_of(f=text), "r0 = 1\nif r0 == 1 goto +0\nexit")

    def test_a_comparison_is_turned_where_that_saves_a_jump(self) -> None:
        text = "r0 = *(u32 *)(r1 + 0)\nif r0 > 4 goto one\ngoto two\none:\nr0 = 7\ntwo:\nexit"
        self.writes(object_of(f=text), "r0 = *(u32 *)(r1 + 0)\nif r0 <= 4 goto +1\nr0 = 7\nexit")

    def test_a_test_of_bits_has_no_opposite(self) -> None:
        text = "r0 = *(u32 *)(r1 + 0)\nif r0 & 4 goto one\ngoto two\none:\nr0 = 7\ntwo:\nexit"
        self.writes(object_of(f=text), "r0 = *(u32 *)(r1 + 0)\nif r0 & 4 goto +1\ngoto +1\nr0 = 7\nexit")

    def test_jumps_that_lead_nowhere(self) -> None:
        # The verifier finds the first, and no form avoids its reason; with a call only the decoder finds it.
        refused = self.lowered(object_of(f="goto +1\nr1 = 5 ll\nr0 = 0\nexit")).refused
        self.assertEqual(refused, (0, 1))
        for text, told in (
            ("goto +1\nr1 = 5 ll\ncall g\nexit", "f.c:1: goto +1: the jump at slot 0 of f leads to slot 2, the second half of a wide load"),
            ("call g\ngoto +7\nexit", "f.c:2: goto +7: the jump at slot 1 of f leads to slot 9, a slot outside of the function"),
            ("call g\nr0 = 1", "f.c:2: r0 = 1: the last instruction of f, slot 1, can continue past its end"),
        ):
            self.stops(object_of(f=text, g="r0 = 0\nexit"), told)

    def test_bytes_that_are_no_instruction(self) -> None:
        found = object_of(f="call g\nr0 = 0\nexit", g="r0 = 0\nexit")
        program = only(found)
        damaged = replace(program, slots=program.slots[:8] + b"\xff" + program.slots[9:])
        self.stops(replace(found, programs=(damaged,)), "f.c:2: r0 = 0: there is no valid instruction at slot 1 of f")


class Copies(StepTest):
    def test_a_pointer_or_a_number(self) -> None:
        """Both paths are right, and at their join a register is a pointer on one and a number on the other."""
        text = """
            r6 = *(u32 *)(r1 + 0)
            r2 = 8
            if r6 > 4 goto join
            *(u64 *)(r10 - 8) = 5
            r2 = r10
        join:
            r0 = r6
            if r6 > 4 goto end
            r0 = *(u64 *)(r2 - 8)
        end:
            exit"""
        self.changed(object_of(f=text), "blocks with several incoming edges are copied for each edge: 2 copies, 4 slots more")

    def test_along_a_path(self) -> None:
        text = """
            r6 = *(u32 *)(r1 + 0)
            if r6 > 4 goto one
            *(u64 *)(r10 - 8) = 5
            r2 = r10
            r2 += -8
            goto join
        one:
            *(u64 *)(r10 - 16) = 7
            r2 = r10
            r2 += -16
        join:
            r0 = 1
            if r6 == 2 goto end
            r0 = *(u64 *)(r2 + 0)
        end:
            exit"""
        self.changed(object_of(f=text), "blocks with several incoming edges are copied for each edge: 2 copies, 3 slots more")

    def test_what_is_refused_on_a_path_stays_refused(self) -> None:
        found = object_of(f="r6 = *(u32 *)(r1 + 0)\nif r6 > 4 goto +1\nr6 = 1\nr0 = r3\nexit")
        lowered = self.lowered(found)
        self.assertEqual((lowered.refused, lowered.changes), ((3, 20), ()))

    def test_refused_in_another_form_points_at_its_line(self) -> None:
        text = "r0 = *(u32 *)(r1 + 0)\nif r0 > 4 goto far\nr0 += 1\nback:\nr0 += r5\nexit\nfar:\nr0 = 9\ngoto back"
        found = object_of(f=text)
        lowered = self.lowered(found)
        assert lowered.refused is not None
        told = str(refused_at(PROGRAM, found, lowered, *lowered.refused))
        wanted = "f.c:5: r0 += r5 (slot 5, slot 3 of f as compiled: an unreadable register is read, reason 20)"
        self.assertTrue(told.startswith(wanted), told)
        self.assertIn("; give the variable a value on each path to this line", told)


class Inlining(StepTest):
    def test_arguments_and_result(self) -> None:
        found = object_of(f="r1 = *(u32 *)(r1 + 0)\nr2 = 7\ncall sum\nr0 += 1\nexit", sum="r0 = r1\nr0 += r2\nexit")
        self.changed(found, "1 call is inlined, of sum")

    def test_several_exits(self) -> None:
        inner = "r0 = 3\nif r1 > 4 goto +1\nexit\nr0 = 4\nexit"
        found = object_of(f="r6 = *(u32 *)(r1 + 0)\nr1 = r6\ncall g\nr7 = r0\nr1 = r7\ncall g\nr0 += r6\nexit", g=inner)
        self.changed(found, "2 calls are inlined, of g")

    def test_registers_that_the_caller_does_not_need_are_taken(self) -> None:
        found = object_of(f="r6 = *(u32 *)(r1 + 0)\nr1 = r6\ncall g\nr0 += r6\nexit", g="r6 = r1\nr6 += 5\nr0 = r6\nexit")
        self.changed(found, "1 call is inlined, of g")
        self.assertNotIn("r10", self.text(self.lowered(found)))

    def test_registers_that_the_caller_needs_are_saved(self) -> None:
        outer = """
            r6 = *(u32 *)(r1 + 0)
            r7 = 3
            r8 = 5
            r9 = 7
            *(u64 *)(r10 - 8) = 9
            r1 = r6
            call g
            r1 = *(u64 *)(r10 - 8)
            r0 += r1
            r0 += r6
            r0 += r7
            r0 += r8
            r0 += r9
            exit"""
        inner = "*(u64 *)(r10 - 8) = 4\nr6 = r1\nr7 = r6\nr7 += 1\nr1 = r10\nr1 += -8\ncall h\nr0 += r6\nr0 += r7\nexit"
        innermost = "*(u64 *)(r10 - 8) = 1\nr6 = *(u64 *)(r1 + 0)\nr9 = *(u64 *)(r10 - 8)\nr0 = r6\nr0 += r9\nexit"
        found = object_of(f=outer, g=inner, h=innermost)
        self.changed(found, "2 calls are inlined, of g, h, which save 4 registers")

    def test_a_stack_below_the_callers(self) -> None:
        outer = "*(u64 *)(r10 - 16) = 6\nr1 = r10\nr1 += -16\ncall g\nr1 = *(u64 *)(r10 - 16)\nr0 += r1\nexit"
        inner = "*(u32 *)(r10 - 4) = 2\nr0 = *(u64 *)(r1 + 0)\nr2 = *(u32 *)(r10 - 4)\nr0 += r2\nr3 = r10\nr3 += -4\n"
        inner += "*(u32 *)(r3 + 0) = 1\nexit"
        found = object_of(f=outer, g=inner)
        self.changed(found, "1 call is inlined, of g")
        self.assertIn("r3 += -16\nr3 += -4\n", self.text(self.lowered(found)))

    def test_recursion(self) -> None:
        self.stops(
            object_of(f="call g\nexit", g="call h\nexit", h="r0 = 1\ncall g\nexit"),
            "h.c:2: call g: g calls h calls g, and a function that calls itself can't be inlined",
        )
        told = "g.c:1: call g: g calls g, and a function that calls itself can't be inlined"
        self.stops(object_of(f="call g\nexit", g="call g\nexit"), told)

    def test_too_much_of_the_stack(self) -> None:
        deep = "*(u64 *)(r10 - 264) = 1\nr0 = 1\nexit"
        self.stops(
            object_of(f="*(u64 *)(r10 - 256) = 1\ncall g\nexit", g=deep),
            "f.c:2: call g: with those of its callers the stack of g has 520 bytes, and a program has 512",
        )
        self.accepted(object_of(f="*(u64 *)(r10 - 248) = 1\ncall g\nexit", g=deep))

    def test_too_many_slots(self) -> None:
        big = "r0 = 1\n" * 700 + "exit"
        self.stops(object_of(f="call g\n" * 6 + "exit", g=big), "with the functions that it calls, f has more than 4,096 slots")

    def test_too_deep(self) -> None:
        functions = {f"g{number}": f"call g{number + 1}\nexit" for number in range(40)}
        found = object_of((), f="call g0\nexit", **functions, g40="r0 = 1\nexit")
        self.stops(found, "g32 is called inside of more than 32 other functions")

    def test_a_frame_pointer_that_is_no_copy(self) -> None:
        found = object_of(f="*(u64 *)(r10 - 8) = 1\ncall g\nexit", g="*(u64 *)(r10 - 8) = r10\nr0 = 1\nexit")
        self.stops(found, "g.c:1: *(u64 *)(r10 - 8) = r10: g has no copy of its frame pointer here, and is not inlined")

    def test_a_refusal_in_an_inlined_function_names_its_calls(self) -> None:
        found = object_of(f="r6 = 1\ncall g\nr0 += r6\nexit", g="r0 = 1\ncall h\nexit", h="r0 = r9\nexit")
        lowered = self.lowered(found)
        assert lowered.refused is not None
        told = str(refused_at(PROGRAM, found, lowered, *lowered.refused))
        wanted = "h.c:1: r0 = r9 (slot 2, slot 0 of h as compiled, called at g.c:2: call h, called at f.c:2: call g: "
        self.assertTrue(told.startswith(wanted), told)


class Loops(StepTest):
    COUNT = "r0 = 0\nr6 = 0\nloop:\nr0 += r6\nr6 += 1\nif r6 != 5 goto loop\nexit"

    def test_a_count(self) -> None:
        self.changed(object_of(f=self.COUNT), "loops are unrolled: 13 slots of 6")
        self.assertNotIn("if", self.text(self.lowered(object_of(f=self.COUNT))))

    def test_a_way_out(self) -> None:
        text = """
            r8 = r1
            r6 = 0
            r7 = 0
        loop:
            r1 = r8
            r2 = r6
            r3 = r10
            r3 += -1
            r4 = 1
            call 26
            if r0 != 0 goto end
            r1 = *(u8 *)(r10 - 1)
            r7 += r1
            r6 += 1
            if r6 < 12 goto loop
        end:
            r0 = r7
            exit"""
        self.changed(object_of(f=text), "loops are unrolled: 125 slots of 16")

    def test_a_count_in_the_stack(self) -> None:
        turn = "r1 = *(u32 *)(r10 - 4)\nr0 += r1\nr1 += 2\n*(u32 *)(r10 - 4) = r1\nif w1 s< 9 goto loop"
        text = f"*(u32 *)(r10 - 4) = 0\nr0 = 0\nloop:\n{turn}\nexit"
        self.changed(object_of(f=text), "loops are unrolled: 23 slots of 8")

    def test_a_count_below_a_bound(self) -> None:
        """As of `size < 6 ? size : 6`: the count is a range."""
        text = """
            r7 = *(u32 *)(r1 + 0)
            if r7 < 6 goto small
            r7 = 6
        small:
            r0 = 0
            r6 = 0
            if r7 == 0 goto end
        loop:
            r0 += r6
            r6 += 1
            if r6 != r7 goto loop
        end:
            exit"""
        self.changed(object_of(f=text), "loops are unrolled: 24 slots of 10")

    def test_a_loop_in_a_loop(self) -> None:
        text = """
            r0 = 0
            r6 = 0
        outer:
            r7 = 0
        inner:
            r0 += r7
            r7 += 1
            if r7 <= 3 goto inner
            r6 += 1
            if r6 != 4 goto outer
            exit"""
        self.changed(object_of(f=text), "loops are unrolled: 43 slots of 9")

    def test_a_loop_in_an_inlined_function(self) -> None:
        found = object_of(f="r6 = *(u32 *)(r1 + 0)\ncall g\nr0 += r6\nexit", g=self.COUNT)
        self.changed(found, "1 call is inlined, of g", "loops are unrolled: 15 slots of 8")

    def test_a_bound_that_is_not_found(self) -> None:
        bound = "a counter that begins at a constant, is changed by constants and compared with one, or with a number below one"
        text = "r6 = *(u32 *)(r1 + 0)\nr0 = 1\nloop:\nif r6 == 0 goto end\nr6 += -1\ngoto loop\nend:\nexit"
        told = "f.c:4: if r6 == 0 goto end: no bound of this loop, slots 2 to 3, is found: it needs"
        self.stops(object_of(f=text), f"{told} {bound}")
        told = f"f.c:3: goto loop: no bound of this loop, slots 1 to 1, is found: it needs {bound}"
        self.stops(object_of(f="r0 = 1\nloop:\ngoto loop\nexit"), told)

    def test_too_many_turns(self) -> None:
        text = "r0 = 0\nr6 = 0\nloop:\nr0 += r6\nr6 += 1\nif r6 != 3000 goto loop\nexit"
        told = "f.c:6: if r6 != 3000 goto loop: this loop, slots 2 to 4, is unrolled to more than 4,096 slots, which a program has at most"
        self.stops(object_of(f=text), f"{told}: fewer turns, or less in each, fit")

    def test_two_entries(self) -> None:
        text = "r0 = *(u32 *)(r1 + 0)\nif r0 > 4 goto two\none:\nr0 += 1\ntwo:\nif r0 > 9 goto one\nexit"
        told = "f.c:4: r0 += 1: this loop, slots 2 to 3, is entered at 2 places, and one with a single entry is unrolled"
        self.stops(object_of(f=text), told)
