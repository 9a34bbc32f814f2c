"""Objects on a running host: the results of their programs, and the contents of maps and variables."""

from __future__ import annotations

import struct

from bpfhost import Context, Errno, Host, InputError, Map, MapType, Refused
from bpfhost.loading import load_program
from bpfhost.objects import ObjectFile
from tests.common import LENGTH, PROGRAM
from tests.objects.common import ClangTest


class Loaded:
    """All of an object's programs and maps, as a tenant has them, by their names."""

    def __init__(self, host: Host, found: ObjectFile) -> None:
        self.tenant = host.tenant()
        self.maps: dict[str, Map] = {}
        for each in found.maps:
            made = self.tenant.map_create(each.map_type, each.key_size, each.value_size, each.max_entries)
            self.maps[each.name] = made
            if each.initial is not None:
                made[bytes(4)] = each.initial
        descriptors = [self.maps[each.name].descriptor for each in found.maps]
        self.programs = {each.name: self.tenant.prog_load(each.linked(descriptors)) for each in found.programs}

    def run(self, name: str, length: int = 0, mark: int = 0) -> int:
        """The result of a program on a packet of so many bytes."""
        return self.tenant.prog_test_run(self.programs[name], bytes(length), Context(mark=mark))

    def value(self, name: str) -> bytes:
        """The variables of a section."""
        return self.maps[name][bytes(4)]


class OnHost(ClangTest):
    def setUp(self) -> None:
        super().setUp()
        if not PROGRAM:
            self.skipTest("the variable BPFHOST names no program")
        host = Host(PROGRAM)
        self.addCleanup(host.close)
        self.host = host

    def test_sections(self) -> None:
        loaded = Loaded(self.host, self.source("sections.c"))
        self.assertEqual([loaded.run(name, 60, 21) for name in ("length", "none", "mark")], [60, 0, 42])

    def test_maps(self) -> None:
        loaded = Loaded(self.host, self.source("maps.c"))
        self.assertEqual([loaded.run("count", 100, mark) for mark in (7, 7, 8, 7)], [0, 2, 0, 3])
        flows = [(struct.pack("<I12x", mark), struct.pack("<Q", count)) for mark, count in ((7, 3), (8, 1))]
        self.assertEqual(loaded.maps["flows"].entries(), flows)
        self.assertEqual(loaded.maps["sized"][struct.pack("<I", 2)], struct.pack("<QQQ", 0, 0, 400))

    def test_maps_by_struct(self) -> None:
        loaded = Loaded(self.host, self.source("legacy.c"))
        self.assertEqual([loaded.run("sum", length, 1) for length in (10, 20)], [10, 30])
        self.assertEqual(loaded.maps["kept"].entries(), [(struct.pack("<Q", 1), struct.pack("<QQ", 20, 9))])
        self.assertEqual(loaded.maps["sums"][struct.pack("<I", 6)], struct.pack("<Q", 30))

    def test_variables(self) -> None:
        found = self.source("variables.c")
        loaded = Loaded(self.host, found)
        # seen[3] begins at 4, and each run adds the `e` of hello to it; a packet below 60 bytes gives 0.
        self.assertEqual([loaded.run("count", length) for length in (60, 59, 100)], [4 + 101, 0, 4 + 303])
        types = found.types
        assert types is not None
        shown = {each.name: types.show(each.value_type, loaded.value(each.name)) for each in found.maps if each.value_type}
        self.assertEqual(
            shown,
            {
                ".data": "{ .seen = { 1, 2, 3, 307 }, .text.calls = 7 }",
                ".rodata": '{ .greeting = "hello", .least = 60 }',
                ".bss": "{ .packets = 3, .total = 219 }",
                ".data.own": "{ .own = 8 }",
                ".bss.more": "{ .zeros = 18446744073709551613 }",
            },
        )
        self.assertEqual(loaded.run("totals"), 219)
        self.assertEqual(loaded.run("text", mark=5), ord("o") + 7)

    def test_optimizations(self) -> None:
        """The results do not depend on clang's options."""
        for flags in (("-O1",), ("-O3", "-mcpu=v3"), ("-O2", "-g0"), ("-Os",)):
            with self.subTest(flags):
                loaded = Loaded(self.host, self.source("variables.c", *flags))
                self.assertEqual([loaded.run("count", length) for length in (60, 100)], [4 + 101, 4 + 202])
                self.host.close()
                self.host = Host(PROGRAM)
                self.addCleanup(self.host.close)

    def test_a_tenant_without_room(self) -> None:
        tenant = self.host.tenant()
        for _ in range(16):
            tenant.map_create(MapType.ARRAY, 4, 8, 1)
        found = self.source("maps.c")
        with self.assertRaisesRegex(InputError, r"\Athe map flows is refused: ENOSPC \(-28\): no room for another map\Z"):
            load_program(tenant, found, found.programs[0])
        for _ in range(48):
            tenant.prog_load(LENGTH)
        found = self.source("sections.c")
        with self.assertRaises(Refused) as refused:
            load_program(tenant, found, found.programs[0])
        self.assertTrue(refused.exception.has(Errno.EMFILE))

    def test_every_limit_is_the_hosts(self) -> None:
        """An object at a limit is loaded, and the host does not refuse it."""
        size = 'struct { __uint(type, 1); __uint(key_size, 512); __uint(value_size, 4096); __uint(max_entries, 16); } m%d SEC(".maps");'
        found = self.text("\n".join(size % number for number in range(4)) + 'SEC("socket") int f(struct __sk_buff *skb) { return 5; }')
        self.assertEqual(Loaded(self.host, found).run("f"), 5)
