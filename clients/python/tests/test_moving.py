"""A host that moves to a new run of the program, and threads that share one."""

from __future__ import annotations

import threading
from collections.abc import Callable
from unittest import mock

from bpfhost import Host, HostError, Map, MapType, Packets, Tenant, assemble, frames
from tests.common import LENGTH, ONE, PROGRAM, HostTest

# Counts its runs in the first eight bytes of the one value of the map of descriptor 3, and returns the count.
COUNT = "r1 = map_value 3 + 0 ll\nr0 = *(u64 *)(r1 + 0)\nr0 += 1\n*(u64 *)(r1 + 0) = r0\nexit\n"


class GoesOn(HostTest):
    """Hosts whose runs take fewer frames than usual: the client moves as often as needed."""

    def host(self, most: int, tenants: int = 1) -> Host:
        """A host whose runs take so many frames."""
        self.enterContext(mock.patch.object(Host, "most_frames", most))
        return self.enterContext(Host(PROGRAM, tenants))

    def test_a_counter_counts_on(self) -> None:
        host = self.host(1000)
        tenant = host.tenant()
        counter = tenant.map_create(MapType.ARRAY, 4, 8, 1)
        program = tenant.prog_load(assemble(PROGRAM, COUNT))
        first = host._stream
        pieces = [Packets.of([b""] * 300)] * 20
        results = [result for results in tenant.prog_test_runs(program, pieces) for result in results]
        self.assertEqual(results, list(range(1, 6001)))
        self.assertEqual(int.from_bytes(counter[bytes(4)], "little"), 6000)
        self.assertIsNot(host._stream, first)
        self.assertLess(host._sent, 1000)

    def test_one_frame_at_a_time(self) -> None:
        tenant = self.host(100).tenant()
        tenant.map_create(MapType.ARRAY, 4, 8, 1)
        program = tenant.prog_load(assemble(PROGRAM, COUNT))
        self.assertEqual([tenant.prog_test_run(program) for _ in range(500)], list(range(1, 501)))

    def test_all_that_tenants_have(self) -> None:
        """Descriptors with gaps, maps of both kinds with their order, programs below their maps: the same before and after."""
        host = self.host(3000, tenants=3)
        for number in range(3):
            tenant = host.tenant(number)
            dropped = [tenant.prog_load(ONE) for _ in range(4)]
            words = tenant.map_create(MapType.HASH, 2, 3, 50)
            for index in (5, 3, 9, 7, 1, 3):
                words[bytes([index, number])] = bytes([index] * 3)
            del words[bytes([9, number])]
            words[bytes([9, number])] = b"new"
            array = tenant.map_create(MapType.ARRAY, 4, 5, 6)
            array[bytes([4, 0, 0, 0])] = b"\1\2\3\4" + bytes([number])
            tenant.close(dropped[1])
            tenant.prog_load(assemble(PROGRAM, f"r1 = map_fd {words.descriptor} ll\nr0 = {number}\nexit\n"))
            tenant.close(dropped[0])
        before = [self.seen(host.tenant(number)) for number in range(3)]
        first = host._stream
        for _ in host.ask_all(frames.close(2, 66) for _ in range(9000)):
            pass
        self.assertIsNot(host._stream, first)
        self.assertEqual([self.seen(host.tenant(number)) for number in range(3)], before)
        self.assertEqual(host.tenant(1).prog_load(ONE), 3)

    def seen(self, tenant: Tenant) -> list[object]:
        """What frames show of each descriptor of a tenant."""
        told: list[object] = []
        for descriptor in range(3, 15):
            run = tenant.host.ask(frames.prog_test_run(tenant.number, descriptor))
            first = tenant.host.ask(frames.map_get_next_key(tenant.number, descriptor))
            told.append((run.status, run.payload, first.status, len(first.payload)))
            if first.status == 0:
                kind = MapType.HASH if len(first.payload) == 2 else MapType.ARRAY
                told.append(Map(tenant, descriptor, mock.Mock(map_type=kind, max_entries=6)).entries())
        return told

    def test_a_map_that_can_not_be_read(self) -> None:
        """A program keeps a map whose descriptor is closed: all frames of the run can be used, and the next one raises an error with the
        reason.
        """
        host = self.host(60)
        tenant = host.tenant()
        counter = tenant.map_create(MapType.ARRAY, 4, 8, 1)
        program = tenant.prog_load(assemble(PROGRAM, COUNT))
        counter.close()
        self.assertEqual(host.frames_left, 57)
        self.assertEqual([tenant.prog_test_run(program) for _ in range(57)], list(range(1, 58)))
        told = "takes 60 frames in one run, and was sent 60; .* the program 4 of tenant 0 keeps the map 3, which is closed"
        self.assertRaisesRegex(HostError, told, tenant.prog_test_run, program)
        self.assertEqual(host.frames_left, 0)

    def test_the_limit_is_that_of_the_program(self) -> None:
        """docs/PROTOCOL.md, "Limits"."""
        self.assertEqual(Host.most_frames, 16_777_216)


class Threads(HostTest):
    def together(self, *calls: Callable[[], object]) -> None:
        """Makes calls at the same time, each in a thread, and raises what one of them raises."""
        faults: list[BaseException] = []

        def caught(call: Callable[[], object]) -> None:
            try:
                call()
            except BaseException as fault:
                faults.append(fault)

        threads = [threading.Thread(target=caught, args=(call,)) for call in calls]
        for thread in threads:
            thread.start()
        for thread in threads:
            thread.join()
        if faults:
            raise faults[0]

    def test_one_tenant_of_many_threads(self) -> None:
        with mock.patch.object(Host, "most_frames", 4000), Host(PROGRAM) as host:
            tenant = host.tenant()
            words = tenant.map_create(MapType.HASH, 4, 8, 64)
            program = tenant.prog_load(LENGTH)

            def ask(of: int) -> None:
                key = of.to_bytes(4, "little")
                for count in range(300):
                    words[key] = count.to_bytes(8, "little")
                    self.assertEqual(words[key], count.to_bytes(8, "little"))
                    self.assertEqual(tenant.prog_test_run(program, bytes(of)), of)

            def run(of: int) -> None:
                pieces = [Packets.of([bytes(of)] * 40)] * 20
                self.assertEqual([set(results) for results in tenant.prog_test_runs(program, pieces)], [{of}] * 20)

            def look(of: int) -> None:
                for _ in range(5):
                    self.assertEqual({reply.status for reply in host.ask_all([frames.close(0, 60 + of)] * 100)}, {-9})

            self.together(*[lambda at=at: ask(at) for at in range(4)], *[lambda at=at: run(at) for at in (5, 6)], lambda: look(1))

    def test_an_iterator_that_is_left_alone(self) -> None:
        with Host(PROGRAM) as host:
            tenant = host.tenant()
            program = tenant.prog_load(LENGTH)
            runs = tenant.prog_test_runs(program, [Packets.of([b"abc"] * 10)] * 3)
            self.assertEqual(next(runs), (3,) * 10)
            self.assertEqual(tenant.prog_test_run(program, b"12345"), 5)
            self.assertEqual(list(runs), [(3,) * 10] * 2)


class Interrupted(HostTest):
    def test_a_reply_that_was_left_in_its_middle(self) -> None:
        """A later caller gets the error, and no other frame's reply."""
        host = Host(PROGRAM)
        self.addCleanup(host.kill)
        with mock.patch.object(host._stream, "read_reply", side_effect=KeyboardInterrupt), self.assertRaises(KeyboardInterrupt):
            host.ask(frames.close(0, 3))
        self.assertRaisesRegex(HostError, "can't be used any more: an interruption", host.ask, frames.close(0, 3))
