"""Maps as mappings, and the commands of a tenant."""

from __future__ import annotations

import os
import re
from unittest import mock

from bpfhost import Errno, Host, Map, MapType, Packets, Prog, ProgramRefused, Refused, Update
from bpfhost.inspection import Cost
from bpfhost.program import find_verifier_log
from tests.common import LENGTH, ONE, PROGRAM, HostTest

A, B, C = b"a\0\0\0", b"b\0\0\0", b"c\0\0\0"
# *(u32 *)(r10 - 4) = 0; r2 = r10; r2 += -4; r1 = map 3 ll; call 1; r0 = 0; exit.
LOOK_UP = bytes.fromhex(
    "620afcff00000000 bfa2000000000000 07020000fcffffff 1811000003000000 0000000000000000 8500000001000000 b700000000000000 9500000000000000"
)


class Hash(HostTest):
    def setUp(self) -> None:
        super().setUp()
        host = Host(PROGRAM)
        self.addCleanup(host.close)
        self.tenant = host.tenant()
        self.map: Map = self.tenant.map_create(MapType.HASH, 4, 2, 3)

    def test_get_set_delete(self) -> None:
        self.map[A] = b"1\0"
        self.map[B] = b"2\0"
        self.map[A] = b"3\0"
        self.assertEqual((self.map[A], self.map[B]), (b"3\0", b"2\0"))
        del self.map[A]
        self.assertNotIn(A, self.map)
        self.assertEqual(self.map.get(A), None)
        self.assertEqual(self.map.pop(B), b"2\0")
        self.assertEqual(len(self.map), 0)

    def test_keys_that_are_not_there(self) -> None:
        self.assertRaises(KeyError, lambda: self.map[A])
        with self.assertRaises(KeyError):
            del self.map[A]

    def test_order_is_the_hosts(self) -> None:
        for key in (B, A, C):
            self.map[key] = b"xx"
        self.map[B] = b"yy"
        self.assertEqual(list(self.map), [B, A, C])
        del self.map[B]
        self.map[B] = b"zz"
        wanted = [(A, b"xx"), (C, b"xx"), (B, b"zz")]
        self.assertEqual((list(self.map.items()), self.map.entries(), dict(self.map)), (wanted, wanted, dict(wanted)))

    def test_each_key_may_be_deleted_on_the_way(self) -> None:
        for key in (A, B, C):
            self.map[key] = b"xx"
        for key in self.map:
            del self.map[key]
        self.assertEqual(self.map.entries(), [])

    def test_sizes(self) -> None:
        for key, value in ((b"abc", b"12"), (A, b"1"), (b"abcd1", b"2"), (b"abc", b"123")):
            with self.assertRaisesRegex(ValueError, "this map has keys of 4 bytes and values of 2"):
                self.map[key] = value
        told = "this map has keys of 4 bytes, and not of 1"
        self.assertRaisesRegex(ValueError, told, self.map.get, b"x")
        self.assertRaisesRegex(ValueError, told, lambda: b"x" in self.map)
        with self.assertRaisesRegex(ValueError, told):
            del self.map[b"x"]

    def test_the_keys_are_walked_again(self) -> None:
        """Whatever changed the keys meanwhile, a second iteration finds those that exist."""
        large = self.tenant.map_create(MapType.HASH, 4, 8, 400)
        keys = [number.to_bytes(4, "little") for number in range(400)]
        for at in (399, 0, 57, 200, 58):
            for key in keys:
                large[key] = bytes(8)
            self.assertEqual((len(large), large._walk()), (400, list(large)))
            for key in keys[at:]:
                del large[key]
            self.assertEqual((len(large), large._walk(), large.entries()), (at, list(large), list(large.items())))
        large[keys[3]] = b"12345678"
        self.assertEqual(large.entries(), list(large.items()))

    def test_what_they_are_shown_as(self) -> None:
        program = self.tenant.prog_load(ONE, "one")
        host = rf"<Host {re.escape(PROGRAM)}, 1 tenant, \d+ frames sent>"
        self.assertRegex(repr(self.tenant), rf"\A<Tenant 0 of {host}>\Z")
        self.assertRegex(repr(self.map), rf"\A<Map 3:hash:4:2:3 of <Tenant 0 of {host}>>\Z")
        self.assertRegex(repr(program), rf"\A<Prog 4 one: 0 runs in 0\.000 ms, of <Tenant 0 of {host}>>\Z")

    def test_what_a_program_costs(self) -> None:
        """A look-up in the map: the most instructions and calls on a path, which verifier_log finds if it has the map."""
        program = self.tenant.prog_load(LOOK_UP, "look_up")
        if find_verifier_log(PROGRAM) is None:
            self.skipTest("there is no program verifier_log")
        self.assertEqual(program.cost([self.map]), Cost(instructions=7, calls=1))
        self.assertIsNone(program.cost(), "without the map that it loads it would be rejected")
        self.assertEqual(self.tenant.prog_load(ONE).cost(), Cost(instructions=2, calls=0))
        self.assertIsNone(Prog.of(self.tenant, program.descriptor).cost(), "its slots are not known")
        with mock.patch.dict(os.environ, VERIFIER_LOG=""):
            self.assertIsNone(program.cost([self.map]))

    def test_a_full_map(self) -> None:
        for key in (A, B, C):
            self.map[key] = b"xx"
        with self.assertRaisesRegex(Refused, "MAP_UPDATE_ELEM: E2BIG"):
            self.map[b"d\0\0\0"] = b"xx"

    def test_flags(self) -> None:
        self.tenant.map_update_elem(self.map.descriptor, A, b"12", Update.NOEXIST)
        for key, flags, errno in ((A, Update.NOEXIST, Errno.EEXIST), (B, Update.EXIST, Errno.ENOENT)):
            with self.assertRaises(Refused) as refused:
                self.tenant.map_update_elem(self.map.descriptor, key, b"34", flags)
            self.assertTrue(refused.exception.has(errno))
        self.assertEqual(self.map.entries(), [(A, b"12")])

    def test_close(self) -> None:
        self.map.close()
        self.assertRaisesRegex(Refused, "EBADF", self.map.close)
        self.assertRaisesRegex(Refused, "EBADF", lambda: A in self.map)


class Array(HostTest):
    def test_elements(self) -> None:
        with Host(PROGRAM, 2) as host:
            array = host.tenant(1).map_create(MapType.ARRAY, 4, 1, 3)
            array[(2).to_bytes(4, "little")] = b"\x09"
            self.assertEqual(array.entries(), [(bytes(4), b"\0"), (b"\1\0\0\0", b"\0"), (b"\2\0\0\0", b"\x09")])
            self.assertEqual((len(array), list(array)[-1]), (3, b"\2\0\0\0"))
            self.assertNotIn(b"\3\0\0\0", array)
            with self.assertRaisesRegex(Refused, "EINVAL"):
                del array[bytes(4)]

    def test_many_large_values(self) -> None:
        with Host(PROGRAM) as host:
            array = host.tenant().map_create(MapType.ARRAY, 4, 4096, 16)
            array[(15).to_bytes(4, "little")] = b"\xff" * 4096
            self.assertEqual([value for _, value in array.entries()], [bytes(4096)] * 15 + [b"\xff" * 4096])


class Commands(HostTest):
    def test_refused_maps(self) -> None:
        with Host(PROGRAM) as host:
            self.assertRaisesRegex(Refused, "MAP_CREATE: EINVAL", host.tenant().map_create, MapType.ARRAY, 8, 8, 1)
            self.assertRaisesRegex(Refused, "MAP_CREATE: E2BIG", host.tenant().map_create, MapType.HASH, 4, 4096, 17)

    def test_programs(self) -> None:
        with Host(PROGRAM) as host:
            tenant = host.tenant()
            one, length = tenant.prog_load(ONE), tenant.prog_load(LENGTH)
            self.assertEqual((one, length), (3, 4))
            self.assertEqual((tenant.prog_test_run(one), tenant.prog_test_run(length, bytes(65_536))), (1, 65_536))
            self.assertRaisesRegex(Refused, "PROG_TEST_RUN: E2BIG", tenant.prog_test_run, one, bytes(65_537))
            tenant.close(one)
            self.assertRaisesRegex(Refused, "EBADF", tenant.prog_test_run, one)

    def test_programs_count_their_runs(self) -> None:
        with Host(PROGRAM) as host:
            length = host.tenant().prog_load(LENGTH, "length")
            self.assertEqual((length.name, length.descriptor, length.run_cnt, length.run_time_ns), ("length", 3, 0, 0))
            self.assertEqual((length.run(b"abc"), length.run_cnt), (3, 1))
            before = length.run_time_ns
            self.assertGreater(before, 0)
            self.assertEqual([sum(results) for results in length.runs([Packets.of([b"12"] * 100)] * 2)], [200, 200])
            self.assertEqual(length.run_cnt, 201)
            self.assertGreater(length.run_time_ns, before)
            length.close()
            self.assertRaisesRegex(Refused, "EBADF", length.run)
            self.assertEqual(length.run_cnt, 201)

    def test_tenants_that_are_not_served(self) -> None:
        with Host(PROGRAM, tenants=2) as host:
            for number in (2, -1, 64):
                self.assertRaisesRegex(ValueError, f"tenant {number} is not served: this host has the tenants 0 to 1", host.tenant, number)

    def test_a_program_that_is_refused(self) -> None:
        # r0 = r5; exit (docs/VERIFIER.md, reason 20)
        with Host(PROGRAM) as host, self.assertRaises(ProgramRefused) as refused:
            host.tenant().prog_load(bytes.fromhex("bf50000000000000 9500000000000000"))
        self.assertEqual((refused.exception.slot, refused.exception.reason, refused.exception.status), (0, 20, -13))
        self.assertIn("an unreadable register is read", str(refused.exception))
