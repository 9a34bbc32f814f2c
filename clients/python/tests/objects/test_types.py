"""Values written by their types: kinds that clang writes, kinds that it does not write yet, and damage."""

from __future__ import annotations

import json
import unittest

from bpfhost.objects import ObjectError, Types
from bpfhost.objects.btf import read_btf
from tests.objects.btf_builder import BOOL, CHAR, SIGNED, BtfBuilder
from tests.objects.common import ClangTest

# The bytes of a struct value of typed.c, as gcc lays it out on x86-64 with these numbers in its members.
VALUE = bytes.fromhex(
    "fd780100d4fe000090eefeff350000000500000000000000ffffffffffffffff6574683000000000fafbfcfdfeff0000ffffffff0000000003000000"
    "080000000f00000018000000256700fa040302010b000c0000000000785634128088ffffffffffff0000000000000000000000000000000000000000"
    "000000000000e03f0000a03f00000000"
)
SHOWN = (
    "{ .tiny = -3, .letter = 'x', .yes = true, .small = -300, .negative = -70000, .port = 53, .color = GREEN, "
    '.large = 18446744073709551615, .name = "eth0", .address = fa:fb:fc:fd:fe:ff, '
    ".grid = { { -1, 0, 3 }, { 8, 15, 24 } }, .low = 5, .middle = 100, .signed_bits = -7, .high = 8000, "
    ".either = { .word = 16909060, .bytes = 4.3.2.1 }, .first = 11, .second = 12, "
    ".node = { .next = 0xffff888012345678, .number = -1 }, .nothing = 0x0, .function = 0x0, .ratio = 0.5, .part = 1.25 }"
)
PLAIN = {
    "tiny": -3,
    "letter": "x",
    "yes": True,
    "small": -300,
    "negative": -70000,
    "port": 53,
    "color": "GREEN",
    "large": 2**64 - 1,
    "name": "eth0",
    "address": [250, 251, 252, 253, 254, 255],
    "grid": [[-1, 0, 3], [8, 15, 24]],
    "low": 5,
    "middle": 100,
    "signed_bits": -7,
    "high": 8000,
    "either": {"word": 0x01020304, "bytes": [4, 3, 2, 1]},
    "first": 11,
    "second": 12,
    "node": {"next": 0xFFFF888012345678, "number": -1},
    "nothing": 0,
    "function": 0,
    "ratio": 0.5,
    "part": 1.25,
}


class Compiled(ClangTest):
    def test_all_kinds(self) -> None:
        found = self.source("typed.c")
        (values,) = found.maps
        assert found.types is not None and values.value_type is not None and values.key_type is not None
        self.assertEqual(values.value_size, len(VALUE))
        self.assertEqual(found.types.show(values.value_type, VALUE), SHOWN)
        plain = found.types.plain(values.value_type, VALUE)
        self.assertEqual(plain, PLAIN)
        self.assertEqual(json.loads(json.dumps(plain)), PLAIN)
        self.assertEqual(found.types.name(values.value_type), "struct value")
        self.assertEqual(found.types.name(values.key_type), "__u32")

    def test_more_and_fewer_bytes(self) -> None:
        found = self.source("typed.c")
        types, value_type = found.types, found.maps[0].value_type
        assert types is not None and value_type is not None
        self.assertEqual(types.show(value_type, VALUE + b"more"), SHOWN)
        with self.assertRaisesRegex(ObjectError, "a value of type struct value has 136 bytes, and there are 135"):
            types.show(value_type, VALUE[:-1])

    def test_names(self) -> None:
        declarations = {
            "const char *a": "const char *",
            "char *const b": "char *const",
            "const volatile int c[3]": "const volatile int[3]",
            "int (*d)[4]": "int (*)[4]",
            "struct other *e[2]": "struct other *[2]",
            "enum { X } f": "enum",
            "union { int x; } g": "union",
            "void *h": "void *",
            "unsigned char i[2][5]": "unsigned char[2][5]",
            "port j": "port",
        }
        head = "struct other; typedef unsigned short port;\n"
        for declaration, expected in declarations.items():
            with self.subTest(declaration):
                found = self.text(
                    f"{head}struct {{ __uint(type, 2); __uint(key_size, 4); __uint(max_entries, 1);"
                    f' __type(value, struct {{ {declaration}; }}); }} m SEC(".maps");\n'
                    'SEC("socket") int program(struct __sk_buff *skb) { return 0; }'
                )
                assert found.types is not None
                value = found.types.btf.type(found.maps[0].value_type or 0)
                self.assertEqual(found.types.name(value.members[0].type), expected)  # type: ignore[union-attr]


class Built(unittest.TestCase):
    """Types by their records."""

    def setUp(self) -> None:
        self.builder = BtfBuilder()

    def types(self) -> Types:
        return Types(read_btf(self.builder.to_bytes()))

    def shows(self, type_id: int, data: str, text: str, plain: object) -> None:
        types = self.types()
        self.assertEqual(types.show(type_id, bytes.fromhex(data)), text)
        self.assertEqual(types.plain(type_id, bytes.fromhex(data)), plain)

    def refused(self, type_id: int, data: bytes, told: str) -> None:
        types = self.types()
        for show in (types.show, types.plain):
            with self.assertRaises(ObjectError) as caught:
                show(type_id, data)
            self.assertEqual(str(caught.exception), told)

    def test_numbers(self) -> None:
        self.shows(self.builder.integer("u8", 1), "ff", "255", 255)
        self.shows(self.builder.integer("s8", 1, SIGNED), "80", "-128", -128)
        self.shows(self.builder.integer("s64", 8, SIGNED), "feffffffffffffff", "-2", -2)
        self.shows(self.builder.integer("__int128", 16, SIGNED), "ff" * 16, "-1", -1)
        self.shows(self.builder.integer("unsigned __int128", 16), "ff" * 16, str(2**128 - 1), 2**128 - 1)
        self.shows(self.builder.integer("bits 3 to 7", 1, SIGNED, 5, 3), "f8", "-1", -1)
        self.shows(self.builder.integer("one bit", 4, 0, 1), "01000000", "1", 1)

    def test_bools(self) -> None:
        boolean = self.builder.integer("_Bool", 1, BOOL)
        self.shows(boolean, "00", "false", False)
        self.shows(boolean, "01", "true", True)
        self.shows(boolean, "02", "2", 2)

    def test_characters(self) -> None:
        char = self.builder.integer("char", 1, SIGNED)
        self.shows(char, "41", "'A'", "A")
        self.shows(char, "27", "'\\''", "'")
        self.shows(char, "0a", "10", 10)
        self.shows(char, "ff", "-1", -1)
        self.shows(self.builder.integer("letter", 1, CHAR), "42", "'B'", "B")

    def test_strings(self) -> None:
        text = self.builder.array(self.builder.integer("char", 1, SIGNED), 6)
        self.shows(text, "686900000000", '"hi"', "hi")
        self.shows(text, "000000000000", '""', "")
        self.shows(text, "616263646566", '"abcdef"', "abcdef")
        self.shows(text, "225c00000000", '"\\"\\\\"', '"\\')
        self.shows(text, "680069000000", "{ 'h', 0, 'i', 0, 0, 0 }", ["h", 0, "i", 0, 0, 0])
        self.shows(text, "0affffffff00", "{ 10, -1, -1, -1, -1, 0 }", [10, -1, -1, -1, -1, 0])

    def test_arrays(self) -> None:
        number = self.builder.integer("u16", 2)
        inner = self.builder.array(number, 2)
        self.shows(self.builder.array(inner, 2), "0100020003000400", "{ { 1, 2 }, { 3, 4 } }", [[1, 2], [3, 4]])
        self.shows(self.builder.array(number, 0), "", "{ }", [])

    def test_arrays_of_nothing(self) -> None:
        nothing = self.builder.composite("nothing", 0)
        self.shows(self.builder.array(nothing, 2**32 - 1), "", "{ }", [])

    def test_enums(self) -> None:
        plain = self.builder.enumeration("color", 4, ("RED", 0), ("BLUE", 7), ("AZURE", 7))
        self.shows(plain, "07000000", "BLUE", "BLUE")
        self.shows(plain, "08000000", "8", 8)
        self.shows(plain, "ffffffff", "4294967295", 4294967295)
        old = self.builder.enumeration("minus", 4, ("LESS", -1))
        self.shows(old, "ffffffff", "LESS", "LESS")
        signed = self.builder.enumeration("signed", 4, ("LESS", -1), ("LEAST", -(2**31)), flag=True)
        self.shows(signed, "00000080", "LEAST", "LEAST")
        self.shows(signed, "feffffff", "-2", -2)
        self.shows(self.builder.enumeration("byte", 1, ("LESS", -1), flag=True), "ff", "LESS", "LESS")

    def test_wide_enums(self) -> None:
        wide = self.builder.enum64("wide", ("HUGE", 2**63), ("ONE", 1))
        self.shows(wide, "0000000000000080", "HUGE", "HUGE")
        self.shows(wide, "0200000000000080", str(2**63 + 2), 2**63 + 2)
        signed = self.builder.enum64("signed", ("LESS", -(2**40)), flag=True)
        self.shows(signed, "0000000000ffffff", "LESS", "LESS")
        self.shows(signed, "ffffffffffffffff", "-1", -1)

    def test_bit_fields(self) -> None:
        number = self.builder.integer("int", 4, SIGNED)
        color = self.builder.enumeration("color", 4, ("RED", 0), ("BLUE", 3), flag=True)
        fields = (("a", number, 3 << 24 | 0), ("b", color, 2 << 24 | 3), ("c", number, 11 << 24 | 5), ("", number, 4 << 24 | 16))
        both = self.builder.composite("fields", 4, *fields, flag=True)
        # a is 101, b is 11, and c is 00000000010, each with its lowest bit on the right.
        self.shows(both, "5d000000", "{ .a = -3, .b = BLUE, .c = 2 }", {"a": -3, "b": "BLUE", "c": 2})

    def test_bit_fields_of_old(self) -> None:
        three = self.builder.integer("three", 4, 0, 3)
        both = self.builder.composite("old", 4, ("a", three, 0), ("b", three, 3), ("c", three, 30 - 1))
        self.shows(both, "2f0000a0", "{ .a = 7, .b = 5, .c = 5 }", {"a": 7, "b": 5, "c": 5})

    def test_bit_fields_over_bytes(self) -> None:
        number = self.builder.integer("u64", 8)
        wide = self.builder.composite("wide", 16, ("a", number, 63 << 24 | 3), ("b", number, 0), flag=True)
        data = (5 << 3).to_bytes(16, "little").hex()
        self.shows(wide, data, "{ .a = 5, .b = 40 }", {"a": 5, "b": 40})

    def test_unions_and_nameless_members(self) -> None:
        byte, word = self.builder.integer("u8", 1), self.builder.integer("u16", 2)
        union = self.builder.composite("", 2, ("word", word, 0), ("low", byte, 0), kind=5)
        struct = self.builder.composite("outer", 3, ("first", byte, 0), ("", union, 8))
        self.shows(struct, "010203", "{ .first = 1, .word = 770, .low = 2 }", {"first": 1, "word": 770, "low": 2})

    def test_floats(self) -> None:
        self.shows(self.builder.record(16, "float", 4), "0000c03f", "1.5", 1.5)
        self.shows(self.builder.record(16, "double", 8), "000000000000f87f", "nan", "nan")
        self.shows(self.builder.record(16, "double", 8), "000000000000f0ff", "-inf", "-inf")
        self.shows(self.builder.record(16, "long double", 16), "01" + "00" * 14 + "80", "0x80" + "00" * 14 + "01", "01" + "00" * 14 + "80")

    def test_other_names(self) -> None:
        number = self.builder.integer("u32", 4)
        for kind in (8, 9, 10, 11, 18):
            number = self.builder.record(kind, "name" if kind in (8, 18) else "", number)
        self.shows(number, "05000000", "5", 5)
        self.assertEqual(self.types().name(number), "restrict const volatile name")

    def test_lists_by_pointers(self) -> None:
        # Type 1 is a struct with a pointer to itself: types 1 and 2 name each other.
        self.assertEqual(self.builder.composite("node", 8, ("next", 2, 0)), 1)
        self.builder.record(2, "", 1)
        self.shows(1, "1000000000000000", "{ .next = 0x10 }", {"next": 16})
        self.assertEqual(self.types().name(2), "struct node *")

    def test_without_values(self) -> None:
        forward = self.builder.record(7, "later", 0)
        prototype = self.builder.record(13, "", 0)
        function = self.builder.record(12, "f", prototype)
        holder = self.builder.composite("holder", 4, ("f", function, 0))
        self.refused(forward, bytes(8), "the type struct later has no size")
        self.refused(0, bytes(8), "the type void has no size")
        self.refused(prototype, bytes(8), "the type function () has no size")
        self.refused(holder, bytes(8), "the type f () has no values")
        self.refused(99, bytes(8), "section .BTF has no type 99, but 0 to 4")
        self.refused(-1, bytes(8), "section .BTF has no type -1, but 0 to 4")

    def test_cycles(self) -> None:
        self.builder.record(8, "one", 2)
        self.builder.record(8, "two", 1)
        array = self.builder.array(4, 2)
        self.assertEqual(self.builder.array(array, 1), 4)
        struct = self.builder.composite("itself", 8, ("again", 5, 0))
        self.refused(1, bytes(8), "type 1 of section .BTF has no end after 32 other types")
        self.refused(array, bytes(8), "type 3 of section .BTF is nested more than 32 times")
        self.refused(struct, bytes(8), "the type struct itself has too many parts to be shown")
        types = self.types()
        self.assertEqual([types.name(1), types.name(2)], ["one", "two"])
        for type_id in (3, 4):
            self.assertRaises(ObjectError, types.name, type_id)

    def test_too_many_parts(self) -> None:
        inner = self.builder.integer("u8", 1)
        for _ in range(20):
            inner = self.builder.composite("", 1, ("a", inner, 0), ("b", inner, 0), kind=5)
        self.refused(inner, bytes(1), "the type union has too many parts to be shown")

    def test_members_outside(self) -> None:
        number = self.builder.integer("u64", 8)
        struct = self.builder.composite("short", 4, ("a", number, 0))
        bits = self.builder.composite("bits", 4, ("a", number, 7 << 24 | 60), flag=True)
        self.refused(struct, bytes(4), "a part of a value ends at byte 8, and there are 4")
        self.refused(bits, bytes(4), "a part of a value ends at byte 9, and there are 4")
        pointer = self.builder.record(2, "", 0)
        odd = self.builder.composite("odd", 16, ("a", pointer, 3))
        self.refused(odd, bytes(16), "the member a of type void * is no bit-field")


class Damage(unittest.TestCase):
    """Sections that are not valid BTF."""

    def told(self, section: bytes) -> str:
        with self.assertRaises(ObjectError) as caught:
            read_btf(section)
        return str(caught.exception)

    def words(self, section: bytes, at: int, value: int) -> bytes:
        return section[:at] + value.to_bytes(4, "little") + section[at + 4 :]

    def setUp(self) -> None:
        builder = BtfBuilder()
        builder.integer("u32", 4)
        self.good = builder.to_bytes()

    def test_heads(self) -> None:
        self.assertEqual(self.told(b""), "section .BTF has 0 bytes, and 8 bytes are to be read at offset 0")
        self.assertIn("does not begin with the number of BTF, 0xeb9f, but with 0x9feb", self.told(b"\xeb\x9f" + self.good[2:]))
        self.assertEqual(self.told(self.good[:2] + b"\2" + self.good[3:]), "section .BTF is of version 2, and 1 is known")
        self.assertEqual(
            self.told(self.words(self.good, 4, 20)), "section .BTF has a header of 20 bytes, and one has at least 24"
        )
        self.assertEqual(self.told(self.good[:20]), "section .BTF has 20 bytes, and 16 bytes are to be read at offset 8")

    def test_ranges(self) -> None:
        for at in (8, 12, 16, 20):
            for value in (2**32 - 1, 1000):
                self.assertIn("bytes are to be read at offset", self.told(self.words(self.good, at, value)))

    def test_every_cut(self) -> None:
        for size in range(len(self.good)):
            self.assertTrue(self.told(self.good[:size]))

    def test_strings(self) -> None:
        self.assertEqual(self.told(self.good[:-1] + b"x"), "the strings of section .BTF do not end with a zero byte")
        self.assertIn("the strings of section .BTF has 5 bytes", self.told(self.words(self.good, 24, 6)))
        long = BtfBuilder()
        long.integer("x" * 1025, 4)
        self.assertEqual(
            self.told(long.to_bytes()), "the string at offset 1 of the strings of section .BTF has no end, or more than 1,024 bytes"
        )

    def test_kinds_and_targets(self) -> None:
        builder = BtfBuilder()
        builder.record(20, "new", 0)
        self.assertEqual(self.told(builder.to_bytes()), "section .BTF has a type of kind 20, which is not known")
        builder = BtfBuilder()
        builder.record(2, "", 7)
        self.assertEqual(self.told(builder.to_bytes()), "type 1 of section .BTF is made of type 7, and there are 2")
        builder = BtfBuilder()
        builder.integer("odd", 3)
        self.assertEqual(self.told(builder.to_bytes()), "section .BTF has a number odd of 3 bytes with 24 bits")
        builder = BtfBuilder()
        builder.enumeration("odd", 3)
        self.assertEqual(self.told(builder.to_bytes()), "section .BTF has an enum odd of 3 bytes")
        builder = BtfBuilder()
        builder.record(4, "cut", 4, count=5)
        self.assertIn("the types of section .BTF has 12 bytes, and 60 bytes are to be read at offset 12", self.told(builder.to_bytes()))
