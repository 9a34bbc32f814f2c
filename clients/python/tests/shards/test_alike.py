"""Frames that are alike are handled together, with the same replies as one by one."""

from __future__ import annotations

import random
import unittest
from collections.abc import Callable, Iterator
from typing import Any

from bpfhost import Errno, Host, MapType, frames
from bpfhost.alike import is_short, looked_at, packed, size_of_alike, size_of_packet, statuses_are_zero, unpacked
from bpfhost.errors import ReplyError
from bpfhost.replies import Reply
from bpfhost.shards.calls import MOST_ALIKE, MOST_FRAMES, Call, NoCall, count_of, item_of
from bpfhost.shards.errors import MemoryRefused
from bpfhost.shards.names import RUNS
from bpfhost.shards.serving import Serving, _so_many
from bpfhost.state import split
from bpfhost.shards.system import MACHINE
from bpfhost.stream import Stream
from tests.common import PROGRAM, HostTest
from tests.shards.common import CREATE, LOOK_UP, call_of, put
from tests.shards.streams import slots_of


class Alike(HostTest):
    def test_answers(self) -> None:
        """Calls of three tenants, of frames that are done and that are refused, next to calls of other frames."""
        draw = random.Random(1)
        begins = [CREATE, frames.prog_load(0, slots_of(PROGRAM, "add")), put(1)]
        kinds: list[Callable[[], list[bytes]]] = [
            lambda: [frames.prog_test_run(0, 4, draw.randbytes(64)) for _ in range(50)],
            lambda: [frames.prog_test_run(0, draw.choice((4, 3)), bytes(64)) for _ in range(50)],
            lambda: [frames.prog_test_run(0, 9, bytes(64)) for _ in range(50)],
            lambda: [frames.map_update_elem(0, 3, draw.randbytes(4), bytes(8)) for _ in range(30)],
            lambda: [frames.map_delete_elem(0, 3, draw.randbytes(4)) for _ in range(30)],
            lambda: [LOOK_UP] * 20,
            lambda: [frames.prog_test_run(0, 4, bytes(64))] * 3,
        ]
        with Serving(PROGRAM, MACHINE) as serving:
            alone = [Host(PROGRAM) for _ in range(3)]
            for turn in range(30):
                calls, wanted = list[Call](), list[bytes]()
                for tenant in draw.choices(range(3), k=5):
                    asked = begins if turn == 0 and tenant not in [call.tenant for call in calls] else draw.choice(kinds)()
                    calls.append(call_of(b"%d-0" % turn, tenant, asked, packs=turn % 2 == 1))
                    wanted.append(b"".join(alone[tenant].ask_bytes(asked)))
                self.assertEqual([written.value for written, _ in serving.play(calls)], wanted)
            for host in alone:
                host.close()

    def test_memory_that_is_refused(self) -> None:
        class Refuses:
            room = 1 << 20

            def send(self, stream: bytearray, many: int) -> None:
                replies = [Reply(5, 2, 0).to_bytes()] * 9 + [Reply(5, 2, -Errno.ENOMEM).to_bytes()]
                self.replies = b"".join(replies)

            def read(self, _most: int) -> bytes:
                return self.replies

            def read_many(self, count: int) -> list[bytes]:
                return split(self.replies)[:count]

            def unread(self, _rest: bytes) -> None: ...
            def kill(self) -> None: ...


            def pipelined(self, send: Any, receive: Any, batches: Any) -> Iterator[bytes]:
                for batch in batches:
                    send(batch)
                    yield receive(batch)

        with Serving(PROGRAM, MACHINE) as serving:
            serving._host.kill()
            serving._host = Refuses()  # type: ignore[assignment]
            with self.assertRaises(MemoryRefused):
                list(serving.play([call_of(b"1-0", 5, [put(1)] * 10)]))

    def test_replies_in_pieces(self) -> None:
        replies = [Reply(0, 5, 0, bytes([number, 0, 0, 0])).to_bytes() for number in range(20)] + [Reply(0, 5, -9).to_bytes()] * 20
        draw = random.Random(2)
        for _ in range(200):
            stream = b"".join(draw.choices(replies, k=30))
            rest = [stream]

            class Pieces(Stream):
                _program = "the host"

                def __init__(self) -> None: ...

                def read(self, _most: int) -> bytes:
                    at = draw.randrange(1, 60)
                    read, rest[0] = rest[0][:at], rest[0][at:]
                    return read

                def unread(self, back: bytes) -> None:
                    rest[0] = back + rest[0]

            some = _so_many(Pieces(), 20)  # type: ignore[arg-type]
            self.assertEqual((split(some + rest[0]), len(split(some))), (split(stream), 20))
        rest = [b"\xff\xff\xff\xff" * 10]
        with self.assertRaisesRegex(ReplyError, "with which no reply begins"):
            _so_many(Pieces(), 1)  # type: ignore[arg-type]


class Sizes(unittest.TestCase):
    def test_what_is_alike(self) -> None:
        run = frames.prog_test_run(0, 4, bytes(64))
        other = frames.prog_test_run(0, 5, b"\1" * 64)
        self.assertEqual(size_of_alike(run * 7), 0)
        self.assertEqual(size_of_alike(run * 8), len(run))
        for many in (8, 50):
            self.assertEqual(size_of_alike((run + other) * many), len(run))
        for stream in (b"", b"\0" * 64, run * 8 + b"\0", run * 8 + frames.close(0, 3), run * 8 + run[:-1], CREATE + run * 8):
            self.assertEqual(size_of_alike(stream), 0)
        # Another tenant, or another command of the same length, is not alike.
        for at in range(8):
            for many in (20, 200):
                changed = bytearray(run * many)
                changed[11 * len(run) + at] ^= 1
                self.assertEqual(size_of_alike(changed), 0, at)

    def test_what_is_split(self) -> None:
        """Frames of one length are split at their ends, however many they are."""
        draw = random.Random(6)
        for many in (8, 256, 257, 600):
            each = [frames.prog_test_run(0, 4, draw.randbytes(3)) for _ in range(many)]
            self.assertEqual(split(b"".join(each)), each)

    def test_what_is_packed(self) -> None:
        """Test runs are packed if they differ only in their packets, and unpacked to the same bytes."""
        draw = random.Random(5)
        for size, many in ((1, 8), (64, 144), (200, 1000)):
            runs = b"".join(frames.prog_test_run(0, 4, draw.randbytes(size)) for _ in range(many))
            short = packed(runs, 52 + size)
            self.assertEqual((len(short), size_of_packet(short), unpacked(short)), (52 + size * many, size, runs))
            self.assertEqual(looked_at(runs), (52 + size, short))
            call = item_of(7, (b"1-0", {RUNS: short}))
            assert isinstance(call, Call)
            self.assertEqual((call.count, call.alike, call.stream, call.size, call.is_short), (many, 52 + size, runs, len(short), True))
        other = frames.prog_test_run(0, 5, bytes(64)) + frames.prog_test_run(0, 4, bytes(64)) * 8
        marked = frames.prog_test_run(0, 4, bytes(64), frames.Context(mark=1)) + frames.prog_test_run(0, 4, bytes(64)) * 8
        for stream in (other, marked, frames.prog_test_run(0, 4) * 9, put(1) * 9, CREATE + put(1)):
            self.assertEqual((packed(stream, size_of_alike(stream)), looked_at(stream)), (b"", (size_of_alike(stream), b"")))
        self.assertEqual(looked_at(frames.prog_test_run(0, 4, bytes(64)) * 7), (0, b""))

    def test_what_is_packed_wrongly(self) -> None:
        """Entries that this package does not write are no calls."""
        right = packed(frames.prog_test_run(0, 4, bytes(64)) * 8, 116)
        wrongs = [b"", right[:51], right[:52], right + b"1", bytes(52) + bytes(64), right[:4] + b"\1" + right[5:], right[:6] + b"\5" + right[7:]]
        many = [right + bytes(64 * MOST_ALIKE), packed(frames.prog_test_run(0, 4, bytes(1000)) * 8, 1052) + bytes(1000 * 300)]
        for wrong in (*wrongs, *many):
            item = item_of(7, (b"1-0", {RUNS: wrong}))
            assert isinstance(item, NoCall), wrong
            self.assertEqual((item.size, item.why[:8]), (len(wrong), "no call:"))

    def test_counts(self) -> None:
        run = frames.prog_test_run(0, 4, bytes(64))
        self.assertEqual((count_of(run * 1000), count_of(run * 2)), ((1000, len(run)), (2, 0)))
        short = frames.prog_test_run(0, 4)
        self.assertEqual(count_of(short * MOST_ALIKE)[0], MOST_ALIKE)
        self.assertEqual(count_of(LOOK_UP * MOST_FRAMES)[0], MOST_FRAMES)
        # Calls with long replies, and those that are not alike, are split into smaller ones.
        mixed = (short + frames.prog_test_run(0, 4, b"1")) * 257
        for wrong in (short * (MOST_ALIKE + 1), run * 2400, LOOK_UP * (MOST_FRAMES + 1), mixed, frames.prog_test_run(1, 4, bytes(64)) * 8, frames.frame(0, 1, bytes(40_000)) * 8):
            with self.assertRaises(ValueError):
                count_of(wrong)
        self.assertTrue(is_short(run) and is_short(put(1)) and not is_short(LOOK_UP) and not is_short(CREATE))
        reply = Reply(3, 5, 0, bytes(4)).to_bytes()
        self.assertTrue(statuses_are_zero(reply * 9, 16))
        self.assertFalse(statuses_are_zero(reply * 9 + Reply(3, 5, -9, bytes(4)).to_bytes(), 16))
        self.assertEqual(frames.map_create(0, MapType.HASH, 4, 8, 16), CREATE)
