"""A snapshot restores a tenant's state: later replies are as before, and as those of a host that serves only this tenant."""

from __future__ import annotations

import random
import signal
from collections.abc import AsyncIterator

from bpfhost import Host, MapType, assemble, frames
from bpfhost.shards.calls import Call, NoCall, item_of
from bpfhost.shards.copied import Asked, Copy
from bpfhost.shards.errors import CopyDiffers, MemoryRefused, StateRefused
from bpfhost.shards.names import FRAMES
from bpfhost.shards.serving import Serving, answered
from bpfhost.shards.system import MACHINE
from bpfhost.slots import named_maps, renamed_maps
from bpfhost.state import at_once, split, state_frames, with_tenant
from bpfhost.tenancy import Tenancy, status_of
from tests.common import PROGRAM, SECONDS, HostTest, TimedTest
from tests.shards.common import CREATE, LOOK_UP, call_of, all_steps
from tests.shards.streams import Stream, is_without_descriptor, slots_of

SERVINGS, TENANTS, LENGTH = 5, 64, 200


class Played:
    """The calls of one tenant on one host since its last snapshot, with their replies."""

    def __init__(self, serving: Serving, tenant: int) -> None:
        self.serving, self.tenant = serving, tenant
        self.before, self.asked = b"", list[Asked]()

    def play(self, frames: list[bytes]) -> list[bytes]:
        """Plays frames as a call, and returns the replies."""
        ((written, _),) = self.serving.play([call_of(b"1-0", self.tenant, frames)])
        replies = split(written.value)
        self.asked += zip(frames, replies, strict=True)
        return replies

    def snapshot(self) -> bytes:
        """The frames of a snapshot; what is played from then on comes after it."""
        self.before = all_steps(self.serving.state(self.tenant, self._last, self._since))
        self.asked = []
        return self.before

    async def _last(self) -> bytes:
        return self.before

    async def _since(self) -> AsyncIterator[list[Asked]]:
        yield self.asked

    def restore(self, stream: bytes) -> None:
        """Makes the state of a snapshot."""
        at_once(self.serving.make(self.tenant, stream))
        self.before, self.asked = stream, []

    def leave(self) -> bytes:
        """Takes a snapshot, after which the tenant is a new one."""
        state = self.snapshot()
        self.serving.empty(self.tenant)
        self.before = b""
        return state


class Told:
    """A stream of frames, and the replies of a host that serves only this stream."""

    def __init__(self, seed: int | str, many: int) -> None:
        with Host(PROGRAM) as host:
            stream = Stream(PROGRAM, seed)
            self.frames, self.replies = stream.play(host, many)
        self.without_descriptor = is_without_descriptor(stream.tenancy)
        self.at = 0

    def call(self, many: int) -> tuple[list[bytes], list[bytes]]:
        """The next frames, and the expected replies."""
        start, self.at = self.at, min(self.at + many, len(self.frames))
        return self.frames[start : self.at], self.replies[start : self.at]

    def done(self) -> bool:
        return self.at == len(self.frames)


Tenants = dict[int, Played]


def tenants(host: Serving) -> Tenants:
    """All tenants of a host."""
    return {tenant: Played(host, tenant) for tenant in range(TENANTS)}


class SnapshotTest(HostTest):
    """A test of snapshots of hosts of one form."""

    def serving(self) -> Serving:
        """A new host."""
        return Serving(PROGRAM, MACHINE)


class Snapshots(SnapshotTest):
    def play(self, hosts: list[Tenants], streams: dict[int, Told], draw: random.Random, until: int = LENGTH) -> None:
        """Plays random streams, up to so many frames each, on all of the hosts; each has the replies of a separate host."""
        while going := [tenant for tenant, one in streams.items() if one.at < min(until, len(one.frames))]:
            tenant = draw.choice(going)
            asked, wanted = streams[tenant].call(min(draw.randrange(1, 40), until - streams[tenant].at))
            for host in hosts:
                self.assertEqual(host[tenant].play(asked), wanted)

    def test_hundreds_of_streams(self) -> None:
        without = 0
        for number in range(SERVINGS):
            # Each host has the time limit of a test.
            signal.alarm(SECONDS)
            draw = random.Random(number)
            streams = {tenant: Told(f"{number} {tenant}", LENGTH) for tenant in range(TENANTS)}
            without += sum(one.without_descriptor for one in streams.values())
            with self.serving() as one, self.serving() as other:
                first, second = tenants(one), tenants(other)
                self.play([first], streams, draw, LENGTH // 3)
                for played in first.values():
                    played.snapshot()
                self.play([first], streams, draw, 2 * LENGTH // 3)
                # Some have maps without descriptors since before the first one.
                for tenant, played in first.items():
                    second[tenant].restore(played.snapshot())
                self.play([first, second], streams, draw)
                for tenant, played in first.items():
                    self.assertEqual(played.snapshot(), second[tenant].snapshot())
        self.assertGreater(without, 100)

    def test_what_does_not_change(self) -> None:
        with self.serving() as host:
            ((_, changed),) = host.play([call_of(b"1-0", 3, [CREATE])])
            self.assertTrue(changed)
            ((_, changed),) = host.play([call_of(b"2-0", 3, [LOOK_UP])])
            self.assertFalse(changed)

    def test_moves(self) -> None:
        draw = random.Random(1)
        with self.serving() as one, self.serving() as other:
            first, second = tenants(one), tenants(other)
            for number in range(3):
                streams = {tenant: Told(f"move {number} {tenant}", 150) for tenant in range(16)}
                self.play([first], streams, draw, 100)
                if number == 1:
                    for tenant in range(16):
                        first[tenant].snapshot()
                for tenant in range(0, 16, 2):
                    second[tenant + 1].restore(first[tenant].leave())
                moved = {tenant + 1: streams.pop(tenant) for tenant in range(0, 16, 2)}
                self.play([second], moved, draw)
                self.play([first], streams, draw)
                # The next user of a tenant's number finds it empty, on both.
                for host in (first, second):
                    for tenant in range(16):
                        host[tenant].leave()
            self.assertEqual([status_of(first[tenant].play([CREATE])[0]) for tenant in range(16)], [3] * 16)


class WrongFrames(TimedTest):
    def test_frames_that_are_too_short_change_nothing(self) -> None:
        for length in range(8):
            self.assertFalse(Tenancy().note(bytes(length), 0))

    def test_more_is_made_than_there_are_descriptors(self) -> None:
        statuses = [status_of(reply) for _, reply in answered(frames.map_create(0, MapType.HASH, 4, 8, 1) * 65)]
        self.assertEqual(statuses, [*range(3, 67), -1])


class MapsWithoutDescriptors(HostTest):
    """Maps that only programs keep."""

    def play(self, asked: list[bytes]) -> tuple[Tenancy, list[Asked]]:
        tenancy, played = Tenancy(), []
        with Host(PROGRAM) as host:
            for frame in asked:
                reply = host.ask(frame)
                tenancy.note(frame, reply.status)
                played.append((frame, reply.to_bytes()))
        return tenancy, played

    def restored(self, tenancy: Tenancy, played: list[Asked]) -> Host:
        """A host with the state that these frames lead to, made of a snapshot of it."""
        with Copy(MACHINE.host(PROGRAM, 1)) as copy:
            at_once(copy.play(played))
            made = list(state_frames(tenancy, at_once(copy.pairs(tenancy))))
        host = Host(PROGRAM)
        for frame in made:
            host.ask(frame).done()
        return host

    def test_each_of_three_maps_at_one_descriptor(self) -> None:
        put, read = (slots_of(PROGRAM, name) for name in ("put", "read"))
        asked, key = [], bytes([2, 0, 0, 0])
        for value in range(3):
            asked += [
                frames.map_create(0, MapType.HASH, 4, 8, 4),
                frames.map_update_elem(0, 3, key, value.to_bytes(8, "little")),
                frames.prog_load(0, read),
                frames.prog_load(0, put),
                frames.close(0, 3),
            ]
        asked.append(frames.prog_test_run(0, 5, key))
        tenancy, played = self.play(asked)
        self.assertEqual([on.descriptor for on in tenancy.live()], [3, 3, 3])
        with self.restored(tenancy, played) as host:
            found = [host.ask(frames.prog_test_run(0, program.descriptor, key)).result() for program in tenancy.programs()[::2]]
            self.assertEqual(found, [7, 1, 2])
            self.assertEqual(host.ask(frames.map_lookup_elem(0, 3, key)).status, -9)

    def test_all_limits_at_once(self) -> None:
        read = slots_of(PROGRAM, "read")
        asked = []
        for number in range(16):
            descriptor = 3 + 2 * number
            asked += [
                frames.map_create(0, MapType.ARRAY, 4, 8, 2048),
                frames.map_update_elem(0, descriptor, bytes(4), bytes([number] * 8)),
                frames.prog_load(0, renamed_maps(read, {3: descriptor})),
                frames.close(0, descriptor),
                frames.prog_load(0, slots_of(PROGRAM, "length")),
            ]
        asked += [frames.prog_load(0, slots_of(PROGRAM, "length"))] * 40
        tenancy, played = self.play(asked)
        self.assertEqual((len(tenancy.live()), len(tenancy.open), tenancy.lowest_free()), (16, 64, -1))
        with self.restored(tenancy, played) as host:
            for number, program in enumerate(one for one in tenancy.programs() if one.maps):
                self.assertEqual(host.ask(frames.prog_test_run(0, program.descriptor)).result(), number * 0x01010101)
            self.assertEqual(host.ask(frames.map_create(0, MapType.ARRAY, 4, 8, 1)).status, -24)
            host.ask(frames.close(0, 66)).done()
            self.assertEqual(host.ask(frames.map_create(0, MapType.ARRAY, 4, 8, 1)).status, -28)

    def test_a_copy_that_differs_is_told(self) -> None:
        asked = [frames.map_create(0, MapType.ARRAY, 4, 8, 1), frames.prog_load(0, slots_of(PROGRAM, "add")), frames.prog_test_run(0, 4)]
        _, played = self.play(asked)
        played[2] = played[2][0], played[2][1][:-4] + bytes(4)
        with Copy(MACHINE.host(PROGRAM, 1)) as copy, self.assertRaisesRegex(CopyDiffers, "the copy of a tenant answers"):
            at_once(copy.play(played))


class Names(HostTest):
    """The maps that a program's slots name."""

    def test_wide_loads(self) -> None:
        text = "r2 = 1234605616436508552 ll\nr1 = map_fd 3 ll\nr3 = map_value 4 + 24 ll\nr4 = map_fd 3 ll\nr0 = 24\nexit\n"
        slots = assemble(PROGRAM, text)
        self.assertEqual(named_maps(slots), [3, 4, 3])
        renamed = text.replace("map_fd 3", "map_fd 66").replace("map_value 4", "map_value 5")
        self.assertEqual(renamed_maps(slots, {3: 66, 4: 5}), assemble(PROGRAM, renamed))


class Entries(HostTest):
    def test_what_is_no_call_is_told(self) -> None:
        frame = frames.close(0, 3)
        wrong = {
            "no whole frame": {FRAMES: frame[:-1]},
            "1 to 512 frames": {FRAMES: b""},
            "and not 0 of 0": {b"other": frame},
            "and not 513": {FRAMES: frame * 513},
            "names tenant 0": {FRAMES: with_tenant(frame, 2)},
            "has a head": {FRAMES: b"\3\0\0\0\0\0\0"},
        }
        with Serving(PROGRAM, MACHINE) as host:
            for sentence, fields in wrong.items():
                item = item_of(1, (b"1-0", fields))
                assert isinstance(item, NoCall)
                ((one, changed),) = host.play([item])
                self.assertEqual((one.name, changed), (b"e", False))
                self.assertIn(sentence, one.value.decode())
            right = item_of(1, (b"2-0", {FRAMES: frame}))
            assert isinstance(right, Call)
            ((one, _),) = host.play([right])
            self.assertEqual(one.value.hex(), "08000000" "0000" "0001" "f7ffffff")

    def test_memory_refused_is_not_written(self) -> None:
        refuses = "while read(4):\n    read(28 - 4)\n    os.write(1, bytes.fromhex('08000000000000 00f4ffffff'))\n"
        with Serving(self.pretender(refuses), MACHINE) as host:
            with self.assertRaisesRegex(MemoryRefused, "memory was refused to entry 5-0"):
                list(host.play([call_of(b"5-0", 0, [CREATE])]))


class RefusedStates(SnapshotTest):
    """States that a build does not restore as another one did."""

    # A program that no build accepts takes the place of one that a stricter build refuses.
    REFUSED = frames.prog_load(0, bytes(8))
    ONE = frames.prog_load(0, bytes.fromhex("b700000001000000 9500000000000000"))

    def test_the_tenant_is_empty_then(self) -> None:
        with self.serving() as host:
            with self.assertRaisesRegex(StateRefused, "the state of tenant 5 can't be made: the host answers -[0-9]+ to frame 1 of it"):
                at_once(host.make(5, CREATE + self.REFUSED + self.ONE))
            self.assertEqual(host.tenancies[5].open, {})
            at_once(host.make(5, CREATE + self.ONE))

    def test_what_is_refused_is_closed(self) -> None:
        with self.serving() as host:
            at_once(host.make(5, CREATE + self.REFUSED + self.ONE + self.REFUSED, closes_refused=True))
            played = Played(host, 5)
            runs = [frames.prog_test_run(0, number) for number in (3, 4, 5, 6)]
            self.assertEqual([status_of(reply) for reply in played.play(runs)], [-22, -9, 0, -9])
            self.assertEqual([status_of(reply) for reply in played.play([LOOK_UP, self.ONE])], [-2, 4])
