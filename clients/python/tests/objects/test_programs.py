"""Programs of objects: which functions they are, their slots, and what is rejected."""

from __future__ import annotations

from bpfhost.helpers import the_helpers
from bpfhost.objects import CallSlot, Form, MapSlot, ObjectError, ObjectFile, load_object
from tests.objects.common import ClangTest, ObjectTest, compile_object
from tests.objects.elf_builder import ALLOC, EXECINSTR, SECTION, ElfBuilder

# What llvm-objdump shows of sections.c.
LENGTH = "6110000000000000 9500000000000000"
NONE = "b700000000000000 9500000000000000"
MARK = "6110080000000000 6700000001000000 9500000000000000"


class Programs(ClangTest):
    def test_functions_of_sections(self) -> None:
        found = self.source("sections.c")
        programs = [(each.section, each.name, each.slots) for each in found.programs]
        expected = [("socket/length", "length", LENGTH), ("socket", "none", NONE), ("socket", "mark", MARK)]
        self.assertEqual(programs, [(section, name, bytes.fromhex(slots)) for section, name, slots in expected])
        self.assertEqual(found.maps, ())
        self.assertEqual([each.map_slots for each in found.programs], [(), (), ()])

    def test_without_types_and_lines(self) -> None:
        found = self.source("sections.c", "-g0")
        self.assertEqual([each.slots for each in found.programs], [bytes.fromhex(slots) for slots in (LENGTH, NONE, MARK)])
        self.assertEqual((found.types, found.programs[0].lines), (None, ()))
        self.assertIsNone(found.programs[0].line_of(0))

    def test_path_is_the_callers(self) -> None:
        self.assertEqual(self.source("sections.c").path, str(self.scratch / "made.o"))

    def test_static_function_is_a_program(self) -> None:
        found = self.text('SEC("socket") static int f(struct __sk_buff *skb) { return 3; }')
        self.assertEqual([(each.section, each.name) for each in found.programs], [("socket", "f")])

    def test_no_program(self) -> None:
        told = self.refusal("int f(struct __sk_buff *skb) { return 1; }")
        self.assertEqual(
            told,
            "it has no program: function f is in section .text, and a program is in one of its own, "
            'as by __attribute__((section("socket")))',
        )
        self.assertEqual(self.refusal("int number = 1;"), "it has no program: no section has instructions")


class Lacking(ClangTest):
    """What the host does not have is rejected with function, section and line."""

    def lacks(self, what: str, slot: int, body: str, *flags: str, form: Form = Form.LOWERED) -> None:
        line = f'SEC("socket") int f(struct __sk_buff *skb) {{ {body} }}'
        told = self.refusal(f"int number, other = 1;\nNOINLINE int twice(int x) {{ return x * x + 1; }}\n{line}", *flags, form=form)
        self.assertEqual(told, f"function f in section socket {what}, at slot {slot} (filter.c:4: {line})")

    def test_helpers(self) -> None:
        for number, name, does in (
            (5, "ktime_get_ns", "run --time mark gives the milliseconds since the first packet: `u32 now = skb->mark;`"),
            (7, "get_prandom_u32", "count in a global variable"),
            (12, "tail_call", "call a function, which is inlined"),
            (130, "ringbuf_output", "count in a map"),
        ):
            refused = self.refusal(f'SEC("socket") int f(struct __sk_buff *skb) {{ return ((int (*)(void))(long){number})(); }}')
            self.assertIn(f"calls helper bpf_{name} ({number}), and the host has {the_helpers()}, at slot 0 (filter.c:2: ", refused)
            self.assertIn(f"; {does}", refused)

    def test_calls_of_functions(self) -> None:
        no_calls = "and calls between functions are not supported"
        self.lacks(f"calls function twice in section .text, {no_calls}", 1, "return twice(skb->len);", form=Form.AS_IS)
        self.lacks("calls function out, which the object does not define", 1, "extern int out(int); return out(skb->len);")

    def test_call_of_a_static_function(self) -> None:
        told = self.refusal(
            "static int f0(int x) { return x; } static NOINLINE int inner(int x) { return x * x; }\n"
            'SEC("socket") int f(struct __sk_buff *skb) { return inner(skb->len); }',
            form=Form.AS_IS,
        )
        self.assertIn("calls function inner in section .text", told)

    def test_call_in_the_section(self) -> None:
        told = self.refusal(
            'SEC("socket") NOINLINE int g(struct __sk_buff *skb) { return skb->len * skb->mark; }\n'
            'SEC("socket") int f(struct __sk_buff *skb) { return g(skb); }',
            form=Form.AS_IS,
        )
        self.assertIn("function f in section socket calls function g", told)

    def test_address_of_a_function(self) -> None:
        self.lacks(
            "loads the address of twice, at offset 0 of section .text, which is a section of functions",
            0,
            "int (*volatile p)(int) = twice; return (long)p;",
        )

    def test_atomics_that_fetch(self) -> None:
        for call, name in (
            ("__sync_fetch_and_add(&number, 1)", "an atomic addition with FETCH"),
            ("__sync_fetch_and_or(&number, 1)", "an atomic or with FETCH"),
            ("__sync_fetch_and_and(&number, 1)", "an atomic and with FETCH"),
            ("__sync_fetch_and_xor(&number, 1)", "an atomic exclusive or with FETCH"),
            ("__sync_lock_test_and_set(&number, 1)", "an atomic exchange (XCHG)"),
            ("__sync_val_compare_and_swap(&number, 3, 1)", "an atomic comparison with exchange (CMPXCHG)"),
        ):
            with self.subTest(name):
                text = f'int number; SEC("socket") int f(struct __sk_buff *skb) {{ return {call}; }}'
                refusal = self.refusal(text, "-mcpu=v3", form=Form.AS_IS)
                self.assertIn(f"function f in section socket has {name}, which the host does not have, at slot ", refusal)
                self.assertIn(" (filter.c:2: ", refusal)
                self.assertEqual(len(self.text(text, "-mcpu=v3").programs), 1)

    def test_legacy_packet_access(self) -> None:
        declared = 'unsigned long long load(void *skb, unsigned long long at) asm("llvm.bpf.load.half");\n'
        text = declared + 'SEC("socket") int f(struct __sk_buff *skb) { return load(skb, 12); }'
        refused = self.refusal(text, form=Form.AS_IS)
        self.assertIn("f in section socket reads the packet by a legacy load (ABS or IND), which the host does not have", refused)
        self.assertEqual(len(self.text(text).programs), 1)
        for place, number in (("-0x100000 + 9", "-0xffff7"), ("-0x200000 + 12", "-0x1ffff4")):
            refused = self.refusal(text.replace("12", place))
            self.assertIn(f"reads the packet from a header on ({number}), which the host does not know", refused)

    def test_core_relocations(self) -> None:
        told = self.refusal(
            "struct wide { int a, b; } __attribute__((preserve_access_index));\n"
            'SEC("socket") int f(struct wide *wide) { return wide->b; }'
        )
        instead = "and the host has no kernel's types: include bpfhost/filter.h, not vmlinux.h, which has the types of one kernel"
        self.assertIn(f"function f in section socket has a CO-RE relocation of type struct wide, {instead}, at slot 0 (filter.c:3", told)

    def test_core_relocations_of_the_context(self) -> None:
        """The fields are found by their names, at any offset in the object's own struct: that of vmlinux.h, a part of it, a flavor."""
        whole = "struct __sk_buff { unsigned len, pkt_type, mark, queue_mapping, protocol; }"
        part = "struct __sk_buff { unsigned short other; unsigned protocol, len; }"
        flavor = "struct __sk_buff___mine { unsigned protocol, len; }"
        for declared in (whole, part, flavor):
            name = declared.split(" {")[0]
            text = (
                f"{declared} __attribute__((preserve_access_index));\n"
                f"__attribute__((section(\"socket\"))) int f({name} *skb) {{ return skb->len + skb->protocol; }}"
            )
            loads = {bytes(found.slots[at : at + 8]) for found in self.plain(text).programs for at in range(0, len(found.slots), 8)}
            offsets = {load[2] for load in loads if load[0] == 0x61}
            self.assertEqual(offsets, {0, 16}, declared)

    def test_what_else_is_asked_of_the_context(self) -> None:
        text = (
            "struct __sk_buff {{ unsigned len, cb; }} __attribute__((preserve_access_index));\n"
            "__attribute__((section(\"socket\"))) int f(struct __sk_buff *skb) "
            "{{ return __builtin_preserve_field_info(skb->{0}, {1}); }}"
        )
        numbers = [self.plain(text.format(field, kind)).programs[0].slots[4] for field, kind in (("len", 1), ("len", 2), ("cb", 2), ("len", 3))]
        self.assertEqual(numbers, [4, 1, 0, 0])
        with self.assertRaisesRegex(ObjectError, "uses skb->hash, and the host's context .*; compute a number of the addresses and ports: `hash = "):
            self.plain(text.replace("cb;", "hash;").format("hash", 0))
        with self.assertRaisesRegex(ObjectError, "uses skb->cb, and the host's context has skb->len to skb->ifindex, at slot 0"):
            self.plain(text.format("cb", 0))

    def plain(self, text: str) -> ObjectFile:
        """The object of a text that includes nothing."""
        path = self.scratch / "plain.c"
        path.write_text(text)
        return load_object(compile_object(path, self.scratch / "plain.o"))

    def test_variables_without_a_place(self) -> None:
        self.lacks("loads the address of far, which is not defined in the object", 0, "extern int far; return far;")
        self.lacks("loads the address of number, which is common (clang -fno-common)", 0, "return number;", "-fcommon")

    def test_license_is_no_variable(self) -> None:
        told = self.refusal(
            'char words[] SEC("license") = "GPL";\nSEC("socket") int f(struct __sk_buff *skb) { return words[skb->len & 3]; }'
        )
        self.assertIn("loads the address of words, at offset 0 of section license, which is neither of maps nor .data", told)


class Calls(ClangTest):
    """Functions that programs call are read with them, each once."""

    TEXT = """
        int number;
        NOINLINE int third(int x) { return x * number; }
        static NOINLINE int second(int x) { return third(x) + third(x + 1); }
        NOINLINE int never(void) { return bpf_ktime_get_ns(); }
        SEC("socket/a") NOINLINE int first(struct __sk_buff *skb) { return second(skb->len) + 1; }
        SEC("socket/b") int other(struct __sk_buff *skb) { return first(skb) * 2 + third(3); }"""

    def test_by_their_numbers(self) -> None:
        found = self.text(self.TEXT)
        self.assertEqual([each.name for each in found.programs], ["first", "other"])
        self.assertEqual(sorted(each.name for each in found.functions), ["first", "second", "third"])
        called = {each.name: [found.functions[call.function].name for call in each.calls] for each in (*found.programs, *found.functions)}
        self.assertEqual(called, {"first": ["second"], "other": ["first", "third"], "second": ["third", "third"], "third": []})
        third = next(each for each in found.functions if each.name == "third")
        self.assertEqual([found.maps[each.map].name for each in third.map_slots], [".bss"])
        self.assertIn("return x * number;", str(third.lines[-1]))

    def test_the_slots_of_calls(self) -> None:
        for program in self.text(self.TEXT).programs:
            self.assertTrue(program.calls)
            for call in program.calls:
                self.assertEqual(program.slots[8 * call.slot : 8 * call.slot + 2], bytes([0x85, 0x10]))

    def test_what_a_called_function_lacks(self) -> None:
        told = self.refusal(
            "NOINLINE int now(int x) { return bpf_ktime_get_ns() + x; }\n"
            'SEC("socket") int f(struct __sk_buff *skb) { return now(skb->len); }'
        )
        self.assertIn(f"function now in section .text calls helper bpf_ktime_get_ns (5), and the host has {the_helpers()}, at slot ", told)


class Built(ObjectTest):
    """Functions and instructions that no compiler writes."""

    def built(self, slots: str, value: int = 0, size: int = 8, form: Form = Form.LOWERED) -> str:
        builder = ElfBuilder()
        builder.symbol("f", builder.program("socket", slots), value, size)
        return self.refusal_of(self.written(builder.to_bytes()), form)

    def test_ranges_of_functions(self) -> None:
        where = "function f in section socket"
        self.assertEqual(self.built(NONE, 0, 24), f"{where} has the bytes from 0 to 24, and the section has 16, in slots of 8")
        self.assertEqual(self.built(NONE, 4, 8), f"{where} has the bytes from 4 to 12, and the section has 16, in slots of 8")
        self.assertEqual(self.built(NONE, 0, 12), f"{where} has 12 bytes, which are no whole slots of 8")
        self.assertEqual(self.built(NONE, 8, 0), f"{where} has 0 slots, and a program has 1 to 4,096")
        self.assertEqual(self.built(NONE * 2049, 0, 16 * 2049), f"{where} has 4,098 slots, and a program has 1 to 4,096")
        self.assertIn("has the bytes from", self.built(NONE, 2**64 - 8, 2**64 - 8))

    def test_longest_program(self) -> None:
        builder = ElfBuilder()
        builder.symbol("f", builder.program("socket", NONE * 2048), 0, 16 * 2048)
        path = self.written(builder.to_bytes())
        self.assertEqual(len(load_object(path).programs[0].slots), 8 * 4096)

    def test_instructions_without_a_function(self) -> None:
        builder = ElfBuilder()
        builder.symbol("", builder.program("socket", NONE), kind=SECTION)
        self.assertEqual(
            self.refusal_of(self.written(builder.to_bytes())),
            "section socket has instructions, and no symbol of a function names them",
        )

    def test_calls(self) -> None:
        where = "function f in section socket"
        self.assertEqual(self.built("8510000000000000"), f"{where} calls byte 8 of section socket, at which no function begins, at slot 0")
        no_calls = "and calls between functions are not supported"
        self.assertEqual(
            self.built("85100000ffffffff", form=Form.AS_IS), f"{where} calls function f in section socket, {no_calls}, at slot 0"
        )
        self.assertEqual(self.built("8520000007000000"), f"{where} calls function 7 of the kernel, which the host does not have, at slot 0")
        self.assertEqual(
            self.built("8d00000000000000"), f"{where} calls a function by its address, and the host has no such calls, at slot 0"
        )
        self.assertEqual(self.built("85000000ffffffff"), f"{where} calls helper number -1, and the host has {the_helpers()}, at slot 0")

    def test_calls_with_relocations(self) -> None:
        """By a symbol of a section the distance counts from the section's first slot, and by one of a function from the function."""
        builder = ElfBuilder()
        section = builder.program("socket", "8510000001000000 8510000000000000 85100000ffffffff 9500000000000000")
        builder.symbol("f", section, 0, 32)
        text = builder.program(".text", NONE * 3)
        functions = [builder.symbol(f"g{number}", text, 16 * number, 16) for number in range(3)]
        builder.relocations(section, (0, 10, builder.symbol("", text, kind=SECTION)), (16, 10, functions[2]))
        with self.assertRaisesRegex(Exception, "calls byte 16 of section socket, at which no function begins, at slot 1"):
            load_object(self.written(builder.to_bytes()))
        builder.parts[section - 1].data = bytes.fromhex("8510000001000000 b700000000000000 85100000ffffffff 9500000000000000")
        found = load_object(self.written(builder.to_bytes()))
        self.assertEqual([each.name for each in found.functions], ["g1", "g2"])
        self.assertEqual(found.programs[0].calls, (CallSlot(0, 0), CallSlot(2, 1)))

    def test_a_relocation_of_a_call_where_none_is(self) -> None:
        builder = ElfBuilder()
        section = builder.program("socket", NONE)
        builder.relocations(section, (0, 10, builder.symbol("f", section, 0, 16)))
        told = "function f in section socket has a relocation for symbol f, and there is no call, at slot 0"
        self.assertEqual(self.refusal_of(self.written(builder.to_bytes())), told)

    def test_second_slots_are_no_instructions(self) -> None:
        builder = ElfBuilder()
        slots = "1800000000000000 8500000005000000 9500000000000000"
        builder.symbol("f", builder.program("socket", slots), 0, 24)
        self.assertEqual(load_object(self.written(builder.to_bytes())).programs[0].slots, bytes.fromhex(slots))

    def test_unknown_atomic(self) -> None:
        self.assertEqual(
            self.built("db10000002000000"),
            "function f in section socket has an atomic operation 0x2, which the host does not have, at slot 0",
        )

    def test_too_many_functions(self) -> None:
        builder = ElfBuilder()
        section = builder.program("socket", NONE)
        for number in range(513):
            builder.symbol(f"f{number}", section, 0, 16)
        self.assertEqual(
            self.refusal_of(self.written(builder.to_bytes())), "the object has 513 functions with a section, and at most 512 are read"
        )


class Relocations(ObjectTest):
    """Relocations that no compiler writes."""

    # r1 = 4 ll; exit
    WIDE = "1801000004000000 0000000000000000 9500000000000000"

    def builder(self, slots: str = WIDE) -> tuple[ElfBuilder, int, int, int]:
        """An object with a program and 16 bytes of variables: its numbers of the section, the variables and their symbol."""
        builder = ElfBuilder()
        section = builder.program("socket", slots)
        builder.symbol("f", section, 0, len(bytes.fromhex(slots)))
        data = builder.section(".data", bytes(range(16)))
        return builder, section, data, builder.symbol("", data, kind=SECTION)

    def refused(self, builder: ElfBuilder) -> str:
        return self.refusal_of(self.written(builder.to_bytes()))

    def test_a_right_one(self) -> None:
        builder, section, _data, symbol = self.builder()
        builder.relocations(section, (0, 1, symbol))
        (program,) = load_object(self.written(builder.to_bytes())).programs
        self.assertEqual(program.slots.hex(), "18210000000000000000000004000000" "9500000000000000")
        self.assertEqual(program.map_slots, (MapSlot(0, 0),))
        self.assertEqual(program.linked([0x01020304]).hex(), "18210000040302010000000004000000" "9500000000000000")

    def test_places(self) -> None:
        where = "function f in section socket has a relocation for symbol .data"
        for offset, told in (
            (4, f"{where} inside of an instruction, at slot 0"),
            (8, f"{where}, and there is no wide load, at slot 1"),
            (16, f"{where}, and there is no wide load, at slot 2"),
            (24, "a relocation for symbol .data is at offset 24 of section socket, in no function"),
            (2**64 - 8, "a relocation for symbol .data is at offset 18446744073709551608 of section socket, in no function"),
        ):
            with self.subTest(offset):
                builder, section, _data, symbol = self.builder()
                builder.relocations(section, (offset, 1, symbol))
                self.assertEqual(self.refused(builder), told)

    def test_twice_the_same(self) -> None:
        builder, section, _data, symbol = self.builder()
        builder.relocations(section, (0, 1, symbol), (0, 1, symbol))
        self.assertIn("and there is no wide load", self.refused(builder))

    def test_kinds(self) -> None:
        for number, name in ((0, "R_BPF_NONE"), (2, "R_BPF_64_ABS64"), (3, "R_BPF_64_ABS32"), (77, "of number 77")):
            with self.subTest(number):
                builder, section, _data, symbol = self.builder()
                builder.relocations(section, (0, number, symbol))
                self.assertEqual(
                    self.refused(builder),
                    f"function f in section socket has a relocation {name} for symbol .data, "
                    "which is for neither a wide load nor a call, at slot 0",
                )

    def test_symbols(self) -> None:
        builder, section, _data, _symbol = self.builder()
        builder.relocations(section, (0, 1, 99))
        self.assertEqual(self.refused(builder), "a relocation of section .relsocket names symbol 99 of 3")

    def test_outside_of_the_variables(self) -> None:
        for number, offset in (("10000000", 16), ("f0ffffff", 4294967280)):
            builder, section, _data, symbol = self.builder(f"18010000{number} 0000000000000000 9500000000000000")
            builder.relocations(section, (0, 1, symbol))
            self.assertEqual(
                self.refused(builder),
                f"function f in section socket loads an address, at offset {offset} of section .data, "
                "and the section has 16 bytes, at slot 0",
            )
        builder, section, _data, symbol = self.builder("18010000f8ffffff 00000000ffffffff 9500000000000000")
        builder.relocations(section, (0, 1, symbol))
        self.assertIn("an address, at offset -8 of section .data", self.refused(builder))

    def test_before_a_variable(self) -> None:
        builder, section, data, _symbol = self.builder("18010000f8ffffff 00000000ffffffff 9500000000000000")
        builder.relocations(section, (0, 1, builder.symbol("last", data, 12, 4, kind=1)))
        (program,) = load_object(self.written(builder.to_bytes())).programs
        self.assertEqual(program.slots.hex(), "18210000000000000000000004000000" "9500000000000000")

    def test_a_number_for_a_symbol(self) -> None:
        builder, section, _data, _symbol = self.builder()
        builder.relocations(section, (0, 1, builder.symbol("seven", 0xFFF1, 7)))
        self.assertIn("loads the address of seven, which is a number and in no section", self.refused(builder))

    def test_with_addends(self) -> None:
        builder, section, _data, symbol = self.builder()
        builder.relocations(section, (0, 1, symbol), kind=4)
        self.assertEqual(self.refused(builder), "section .relsocket has relocations with addends, which clang does not write for BPF")

    def test_of_sections_that_are_not_loaded(self) -> None:
        builder, _section, _data, symbol = self.builder()
        builder.relocations(builder.section(".debug_info", bytes(16), 0), (0, 2, symbol), (99, 3, 2))
        builder.relocations(builder.section(".text", bytes(16), ALLOC | EXECINSTR), (0, 10, symbol))
        self.assertEqual(len(load_object(self.written(builder.to_bytes())).programs), 1)
