"""Maps of objects: those defined by BTF and by struct bpf_map_def, and sections of variables."""

from __future__ import annotations

from bpfhost import MapType
from bpfhost.objects import Form, ObjectMap, load_object
from tests.objects.common import ClangTest, ObjectTest
from tests.objects.elf_builder import ALLOC, NOBITS, OBJECT, ElfBuilder

PROGRAM = 'SEC("socket") int f(struct __sk_buff *skb) { return 0; }'


class ByBtf(ClangTest):
    def test_kinds_of_definitions(self) -> None:
        found = self.source("maps.c")
        shapes = [(each.name, each.map_type, each.key_size, each.value_size, each.max_entries) for each in found.maps]
        # In the order of their offsets in .maps: clang puts static variables after global ones.
        self.assertEqual(
            sorted(shapes),
            [
                ("flows", MapType.HASH, 16, 8, 64),
                ("sized", MapType.ARRAY, 4, 24, 3),
                ("unused", MapType.HASH, 4, 16, 1),
            ],
        )
        self.assertEqual([each.initial for each in found.maps], [None] * 3)

    def test_types(self) -> None:
        found = self.source("maps.c")
        assert found.types is not None
        names = {
            each.name: [None if of is None else found.types.name(of) for of in (each.key_type, each.value_type)] for each in found.maps
        }
        self.assertEqual(names["flows"], ["struct flow", "__u64"])
        self.assertEqual(names["sized"], [None, None])
        self.assertEqual(names["unused"], ["__u32", "struct"])

    def test_loads_of_maps(self) -> None:
        found = self.source("maps.c")
        (program,) = found.programs
        named = [found.maps[each.map].name for each in program.map_slots]
        self.assertEqual(sorted(set(named)), ["flows", "sized"])
        for each in program.map_slots:
            slots = program.slots[8 * each.slot : 8 * each.slot + 16]
            self.assertEqual((slots[0], slots[1] >> 4, slots[2:]), (0x18, 1, bytes(14)))
        linked = program.linked([10, 11, 12])
        for each in program.map_slots:
            self.assertEqual(linked[8 * each.slot + 4 : 8 * each.slot + 8], bytes([10 + each.map, 0, 0, 0]))

    def refused(self, members: str, told: str, form: Form = Form.LOWERED) -> None:
        text = f'struct {{ {members} }} m SEC(".maps");\n{PROGRAM}'
        self.assertEqual(self.refusal(text, form=form), f"map m in section .maps{told}")

    def changed(self, members: str, map_type: MapType, *told: str) -> None:
        """A map that the host does not have is replaced by one that it has, with a notice; strict reading refuses it."""
        text = f'struct {{ {members} __type(key, __u32); __type(value, __u32); __uint(max_entries, 1); }} m SEC(".maps");\n{PROGRAM}'
        found = self.text(text)
        self.assertEqual([each.map_type for each in found.maps], [map_type])
        self.assertEqual(found.changes, tuple(f"map m in section .maps: {each}" for each in told))

    def test_maps_that_are_changed(self) -> None:
        one = "since one processor runs all programs"
        self.changed("__uint(type, 6);", MapType.ARRAY, f"PERCPU_ARRAY is taken as ARRAY, {one}")
        self.changed("__uint(type, 5);", MapType.HASH, f"PERCPU_HASH is taken as HASH, {one}")
        dropped = "BPF_F_NO_PREALLOC is dropped, since a map takes all its memory when it is created"
        pinning = "pinning is dropped, since the host has no files for maps"
        self.changed("__uint(type, 1); __uint(map_flags, 1);", MapType.HASH, dropped)
        self.changed("__uint(type, 1); __uint(pinning, 1);", MapType.HASH, pinning)
        all_of_them = "__uint(type, 5); __uint(pinning, 1); __uint(map_flags, 1);"
        self.changed(all_of_them, MapType.HASH, dropped, pinning, f"PERCPU_HASH is taken as HASH, {one}")

    USES = 'SEC("socket") int f(struct __sk_buff *skb) { int key = 0; return bpf_map_lookup_elem(&m, &key) != 0; }'

    def test_other_types(self) -> None:
        rest = "__type(key, __u32); __type(value, __u32); __uint(max_entries, 1);"
        has = "and the host has only HASH (1) and ARRAY (2)"
        for form in (Form.STRICT, Form.AS_IS):
            self.refused(f"__uint(type, BPF_MAP_TYPE_PERCPU_ARRAY); {rest}", f" has type 6 (PERCPU_ARRAY), {has}", form)
            self.refused(f"__uint(type, 5); {rest}", f" has type 5 (PERCPU_HASH), {has}", form)
        for number, name, does in (
            (9, "LRU_HASH", "use HASH, and count what has no room"),
            (10, "LRU_PERCPU_HASH", "use HASH, and count what has no room"),
            (11, "LPM_TRIE", "keep the prefixes in an array, the longest first"),
            (27, "RINGBUF", "count in a map, which is read after the run"),
            (3, "PROG_ARRAY", "call a function, which is inlined"),
        ):
            used = f'struct {{ __uint(type, {number}); {rest} }} m SEC(".maps");\n{self.USES}'
            self.assertIn(f" has type {number} ({name}), {has} (filter.c:3: {self.USES}); {does}", self.refusal(used))
        self.refused(f"__uint(type, 77); {rest}", f" has type 77, {has}")
        self.refused(rest, " has no type")

    def test_other_members(self) -> None:
        rest = "__uint(type, 1); __type(key, __u32); __type(value, __u32); __uint(max_entries, 1);"
        self.refused(f"{rest} __uint(map_flags, 2);", " has map_flags 2, and the host has none")
        for form in (Form.STRICT, Form.AS_IS):
            self.refused(f"{rest} __uint(map_flags, 1);", " has map_flags 1, and the host has none", form)
            self.refused(f"{rest} __uint(pinning, 1);", " has pinning 1, and the host has none", form)
        self.refused(f"{rest} __uint(unheard_of, 1);", " has a member unheard_of, which is not known")
        self.refused(f"{rest} int map_flags;", " has a member map_flags that is no pointer, which __type declares")
        self.refused(f"{rest} int *numa_node;", " has a member numa_node that is no pointer to an array, which __uint declares")

    def test_sizes(self) -> None:
        head = "__uint(type, 1); __uint(max_entries, 1);"
        self.refused(f"{head} __type(value, int);", " has neither key nor key_size")
        self.refused(f"{head} __type(key, int);", " has neither value nor value_size")
        self.refused(f"{head} __type(key, int); __uint(key_size, 8); __type(value, int);", " has key_size 8, and its key has 4 bytes")
        self.refused(
            f"{head} __type(key, int); struct nowhere *value;", ": its value has no size: the type struct nowhere has no size"
        )
        self.refused(f"{head} __type(key, int); void *value;", ": its value has no size: the type void has no size")

    def test_limits(self) -> None:
        def of(key: int, value: int, entries: int, kind: int = 1) -> str:
            return f"__uint(type, {kind}); __uint(key_size, {key}); __uint(value_size, {value}); __uint(max_entries, {entries});"

        self.refused(of(513, 8, 1), ": a key has 513 bytes, and may have 1 to 512")
        self.refused(of(0, 8, 1), ": a key has 0 bytes, and may have 1 to 512")
        self.refused(of(4, 4097, 1), ": a value has 4,097 bytes, and may have 1 to 4,096")
        self.refused(of(4, 8, 4097), ": it has 4,097 entries, and may have 1 to 4,096")
        self.refused(of(4, 8, 0), ": it has 0 entries, and may have 1 to 4,096")
        self.refused(of(8, 8, 1, 2), ": a key has 8 bytes, and in an array it has 4")
        self.refused(of(4, 17, 4096), ": its values take 98,304 bytes, and those of a map 65,536 at most")
        self.assertEqual(self.text(f'struct {{ {of(512, 4096, 16)} }} m SEC(".maps");\n{PROGRAM}').maps[0].max_entries, 16)

    def test_all_maps_together(self) -> None:
        def many(count: int, entries: int) -> str:
            member = f"__uint(type, 1); __uint(key_size, 4); __uint(value_size, 4096); __uint(max_entries, {entries});"
            return "\n".join(f'struct {{ {member} }} m{number} SEC(".maps");' for number in range(count)) + PROGRAM

        self.assertEqual(len(self.text(many(16, 4)).maps), 16)
        self.assertEqual(self.refusal(many(17, 1)), "section .maps has 17 maps, and a tenant 16 at most")
        self.assertEqual(
            self.refusal(many(5, 16)), "the values of all maps take 327,680 bytes, and those of a tenant 262,144 at most"
        )
        self.assertEqual(
            self.refusal("int number = 1;" + many(16, 1)),
            "the object has 17 maps, its sections of variables among them, and a tenant 16 at most",
        )

    def test_maps_in_maps(self) -> None:
        told = self.refusal(
            "struct inner { __uint(type, 1); __type(key, int); __type(value, int); __uint(max_entries, 1); } inner SEC(\".maps\");\n"
            "struct { __uint(type, 12); __type(key, int); __type(value, int); __uint(max_entries, 1); struct inner *values[]; }\n"
            'outer SEC(".maps") = { .values = { &inner } };\n' + PROGRAM
        )
        self.assertEqual(told, "map outer in section .maps has the address of inner, and the host has no maps in maps")

    def test_without_types(self) -> None:
        path = self.compiled(f'struct {{ __uint(type, 1); }} m SEC(".maps");\n{PROGRAM}', "-g0")
        self.assertEqual(
            self.refusal_of(path), "section .maps has maps, and there is no section .BTF that describes them: compile with -g"
        )

    def test_what_is_no_struct(self) -> None:
        self.assertEqual(self.refusal(f'int m SEC(".maps") = 1;\n{PROGRAM}'), "map m in section .maps is no struct")


class ByStruct(ClangTest):
    def test_definitions(self) -> None:
        found = self.source("legacy.c")
        expected = {
            ObjectMap("kept", MapType.HASH, 8, 16, 5, None, None, None),
            ObjectMap("sums", MapType.ARRAY, 4, 8, 7, None, None, None),
        }
        self.assertEqual(set(found.maps), expected)
        (program,) = found.programs
        self.assertEqual([found.maps[each.map].name for each in program.map_slots], ["kept", "sums"])

    def test_without_types(self) -> None:
        self.assertEqual(set(self.source("legacy.c", "-g0").maps), set(self.source("legacy.c").maps))


class BuiltByStruct(ObjectTest):
    """Definitions of other lengths."""

    def built(self, definition: bytes, size: int | None = None) -> ElfBuilder:
        builder = ElfBuilder()
        builder.symbol("f", builder.program("socket", "b700000000000000 9500000000000000"), 0, 16)
        section = builder.section("maps", definition)
        builder.symbol("m", section, 0, len(definition) if size is None else size, OBJECT)
        return builder

    def definition(self, *more: int) -> bytes:
        return b"".join(number.to_bytes(4, "little") for number in (1, 4, 8, 2, *more))

    def test_shorter_and_longer(self) -> None:
        expected = ObjectMap("m", MapType.HASH, 4, 8, 2, None, None, None)
        for definition in (self.definition(), self.definition(0), self.definition(0, 0, 0)):
            with self.subTest(len(definition)):
                self.assertEqual(load_object(self.written(self.built(definition).to_bytes())).maps, (expected,))

    def test_refusals(self) -> None:
        where = "map m in section maps"
        for builder, told in (
            (self.built(self.definition(2)), f"{where} has map_flags 2, and the host has none"),
            (self.built(self.definition(0, 5)), f"{where} has fields after those of struct bpf_map_def that are not 0"),
            (self.built(self.definition()[:12]), f"{where} has 12 bytes, and struct bpf_map_def has at least 16"),
            (self.built(self.definition(), 20), f"{where} ends at byte 20, and the section has 16"),
        ):
            self.assertEqual(self.refusal_of(self.written(builder.to_bytes())), told)

    def test_a_flag_that_is_dropped(self) -> None:
        path = self.written(self.built(self.definition(1)).to_bytes())
        dropped = "map m in section maps: BPF_F_NO_PREALLOC is dropped, since a map takes all its memory when it is created"
        self.assertEqual(load_object(path).changes, (dropped,))
        self.assertEqual(self.refusal_of(path, Form.STRICT), "map m in section maps has map_flags 1, and the host has none")

    def test_an_address_inside_of_a_map(self) -> None:
        builder = self.built(self.definition())
        section = builder.program("socket/inside", "1801000004000000 0000000000000000 9500000000000000")
        builder.relocations(section, (0, 1, 2))
        builder.symbol("g", section, 0, 24)
        self.assertEqual(
            self.refusal_of(self.written(builder.to_bytes())),
            "function g in section socket/inside loads the address of m, at offset 4 of section maps, at which no map begins, at slot 0",
        )

    def test_without_a_symbol(self) -> None:
        builder = ElfBuilder()
        builder.symbol("f", builder.program("socket", "b700000000000000 9500000000000000"), 0, 16)
        builder.section("maps", self.definition())
        self.assertEqual(
            self.refusal_of(self.written(builder.to_bytes())), "section maps has bytes, and no symbol names a map there"
        )


class Variables(ClangTest):
    def test_sections(self) -> None:
        found = self.source("variables.c")
        assert found.types is not None
        shown = {
            each.name: (each.value_size, found.types.show(each.value_type, each.initial or b"") if each.value_type else each.initial)
            for each in found.maps
        }
        self.assertEqual(
            shown,
            {
                ".data": (20, "{ .seen = { 1, 2, 3, 4 }, .text.calls = 7 }"),
                ".rodata": (12, '{ .greeting = "hello", .least = 60 }'),
                ".bss": (16, "{ .packets = 0, .total = 0 }"),
                ".data.own": (4, "{ .own = 5 }"),
                ".bss.more": (8, "{ .zeros = 0 }"),
                ".rodata.str1.1": (13, b"zero one two\0"),
            },
        )
        for each in found.maps:
            self.assertEqual((each.map_type, each.key_size, each.max_entries, each.key_type), (MapType.ARRAY, 4, 1, None))
            self.assertEqual(len(each.initial or b""), each.value_size)

    def test_loads_of_addresses(self) -> None:
        found = self.source("variables.c")
        program = found.programs[0]
        loads = [
            (found.maps[each.map].name, program.slots[8 * each.slot + 1] >> 4, program.slots[8 * each.slot + 4 : 8 * each.slot + 16].hex())
            for each in program.map_slots
        ]
        self.assertEqual(
            sorted(set(loads)),
            [
                (".bss", 2, "00000000" "00000000" "00000000"),
                (".bss", 2, "00000000" "00000000" "08000000"),
                (".bss.more", 2, "00000000" "00000000" "00000000"),
                (".data", 2, "00000000" "00000000" "00000000"),
                (".data.own", 2, "00000000" "00000000" "00000000"),
                (".rodata", 2, "00000000" "00000000" "00000000"),
                (".rodata", 2, "00000000" "00000000" "08000000"),
            ],
        )

    def test_addresses_in_variables(self) -> None:
        told = self.refusal(f"int number; int *volatile pointer = &number;\n{PROGRAM}")
        self.assertEqual(told, "variable pointer in section .data has the address of number, and a map's value can't have one")
        told = self.refusal(f"static int g(int x) {{ return x; }} int (*volatile call)(int) = g;\n{PROGRAM}")
        self.assertEqual(told, "variable call in section .data has the address of .text, and a map's value can't have one")

    def test_too_many_bytes(self) -> None:
        self.assertEqual(
            self.refusal(f"char large[4097];\n{PROGRAM}"),
            "section .bss has 4,097 bytes of variables, and a map's value 4,096 at most",
        )
        self.assertEqual(self.text(f"char large[4096];\n{PROGRAM}").maps[0].initial, bytes(4096))

    def test_without_types(self) -> None:
        found = self.source("variables.c", "-g0")
        self.assertEqual({each.value_type for each in found.maps}, {None})
        self.assertEqual(sum(each.value_size for each in found.maps), 73)


class BuiltVariables(ObjectTest):
    """Sections of variables that no compiler writes."""

    def builder(self) -> ElfBuilder:
        builder = ElfBuilder()
        builder.symbol("f", builder.program("socket", "b700000000000000 9500000000000000"), 0, 16)
        return builder

    def test_without_bytes(self) -> None:
        builder = self.builder()
        builder.section(".bss", kind=NOBITS)
        builder.section(".data")
        builder.section(".database", b"1234")
        builder.section(".data.note", b"1234", flags=0)
        self.assertEqual(load_object(self.written(builder.to_bytes())).maps, ())

    def test_without_bytes_in_the_file(self) -> None:
        builder = self.builder()
        builder.section(".bss", kind=NOBITS, size=5)
        self.assertEqual(load_object(self.written(builder.to_bytes())).maps[0].initial, bytes(5))

    def test_huge(self) -> None:
        builder = self.builder()
        builder.section(".bss", kind=NOBITS, size=2**63)
        self.assertIn("section .bss has 9,223,372,036,854,775,808 bytes of variables", self.refusal_of(self.written(builder.to_bytes())))

    def test_huge_definitions(self) -> None:
        for name in ("maps", ".BTF"):
            builder = self.builder()
            builder.symbol("m", builder.section(name, kind=NOBITS, size=2**63), 0, 2**63, OBJECT)
            self.assertEqual(
                self.refusal_of(self.written(builder.to_bytes())),
                f"section {name} has 9,223,372,036,854,775,808 bytes, and at most 8,388,608 are read",
            )

    def test_null_sections_are_in_the_file_too(self) -> None:
        builder = self.builder()
        builder.section(".data", b"1234", kind=0, size=4000)
        self.assertIn("section .data ends at byte", self.refusal_of(self.written(builder.to_bytes())))

    def test_compressed(self) -> None:
        builder = self.builder()
        builder.section(".data", bytes(64), ALLOC | 0x800)
        self.assertEqual(self.refusal_of(self.written(builder.to_bytes())), "section .data is compressed")

    def test_many(self) -> None:
        builder = self.builder()
        for number in range(17):
            builder.section(f".data.{number}", b"1")
        self.assertEqual(
            self.refusal_of(self.written(builder.to_bytes())),
            "the object has 17 sections of variables, each a map, and a tenant has 16 maps at most",
        )
