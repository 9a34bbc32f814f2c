"""Calls of one customer do not delay another: each has its turn, and long work is done in steps."""

from __future__ import annotations

import asyncio
import socket
import threading
import time
from collections.abc import Callable, Iterator, Sequence
from typing import Any, cast

from bpfhost import MapType, frames
from bpfhost.library import Library
from bpfhost.shards import Settings, ShardKeys, Worker
from bpfhost.shards.connection import Redis
from bpfhost.shards.names import MOST_WAITING
from bpfhost.shards.serving import Serving
from bpfhost.shards.link import RedisLink, Word
from bpfhost.shards.system import MACHINE, System, Work
from bpfhost.shards.reading import TURN_FRAMES, share_of
from bpfhost.state import Steps
from tests.common import PROGRAM, HostTest
from tests.shards.blocking_redis import directory_of, shard_of
from tests.shards.common import CREATE, LOOK_UP, SECONDS, ShardTest, call_of, put, no_history, shown
from tests.shards.streams import slots_of

# A step sends the host at most so many frames (the end of one part and the begin of another), and sends Redis so many bytes.
STEP_FRAMES, STEP_BYTES = 820, 300_000


def full_maps() -> Iterator[bytes]:
    """Frames that fill eight maps of 4,096 keys."""
    for number in range(8):
        yield frames.map_create(0, MapType.HASH, 8, 8, 4096)
        for key in range(4096):
            yield frames.map_update_elem(0, 3 + number, key.to_bytes(8, "little"), bytes(8))


class InSteps(HostTest):
    """The steps in which the state of a customer with full maps is read and made."""

    library: Library | None = None
    # Its parts, if the library saves it; otherwise as many steps at least.
    parts = 100

    def steps_of(self, serving: Serving, steps: Work[bytes] | Steps[None]) -> tuple[object, list[int], list[float]]:
        """The result, and for each step the number of frames that it sends, and its processor time."""
        asked, took = list[int](), list[float]()
        while True:
            before, began = serving.asked, time.thread_time()
            try:
                steps.send(None)
            except StopIteration as end:
                return end.value, asked, took
            finally:
                asked.append(serving.asked - before)
                took.append(time.thread_time() - began)

    def test_full_maps(self) -> None:
        with Serving(PROGRAM, MACHINE, library=self.library) as serving:
            for _ in serving.play([call_of(b"1-0", 0, list(full_maps()))]):
                pass
            state, asked, took = self.steps_of(serving, serving.state(0, nothing, no_history))
            assert isinstance(state, bytes)
            self.assertGreaterEqual(len(asked), self.parts)
            self.assertLessEqual(max(asked), STEP_FRAMES)
            _, asked, took_to_make = self.steps_of(serving, serving.make(1, state))
            self.assertGreater(len(asked), 50)
            self.assertLessEqual(max(asked), STEP_FRAMES)
            for each in (took, took_to_make):
                self.assertLess(max(each), sum(each) / 3)


async def nothing() -> bytes:
    """No frames."""
    return b""


class Counting(System):
    """A machine that notes the largest command that Redis receives, and its largest reply."""

    def __init__(self) -> None:
        self.largest = 0

    def link(self, kind: type[RedisLink], words: dict[str, Any]) -> RedisLink:
        return cast(RedisLink, _CountingLink(self, super().link(kind, words)))


class _CountingLink:
    def __init__(self, counting: Counting, link: RedisLink) -> None:
        self._counting, self._link, self.cut = counting, link, link.cut

    @property
    def is_over(self) -> bool:
        return self._link.is_over

    def begin(self, words: Sequence[Word], seconds: float) -> asyncio.Future[Any]:
        reply = self._link.begin(words, seconds)
        self._note(sum(len(word) for word in words if isinstance(word, bytes)))
        reply.add_done_callback(self._came)
        return reply

    def _came(self, reply: asyncio.Future[Any]) -> None:
        if not reply.cancelled() and not reply.exception() and isinstance(reply.result(), bytes):
            self._note(len(reply.result()))

    def _note(self, size: int) -> None:
        self._counting.largest = max(self._counting.largest, size)


class Waits(ShardTest):
    def longest(self, work: Callable[[], object]) -> tuple[float, int]:
        """The longest wait of another customer for a look-up meanwhile, as a part of the time of the work, and the number of its look-ups."""
        other = self.client.customer("other")
        if other.resume() == 0:
            other.ask(CREATE).done()
            other.ask(put(1)).done()
        worker = threading.Thread(target=work)
        worker.start()
        start = time.monotonic()
        waits = []
        while worker.is_alive():
            began = time.monotonic()
            other.ask(LOOK_UP).done()
            waits.append(time.monotonic() - began)
        worker.join()
        return max(waits) / (time.monotonic() - start), len(waits)


class Stalls(Waits):
    def test_a_customer_in_bulk(self) -> None:
        """400 calls of 512 frames, of which one customer may have some waiting; another one's look-up has its turn."""
        self.shard(0)
        bulk = self.client.customer("bulk", 100)
        bulk.ask(CREATE).done()

        def work() -> None:
            for ticket in [bulk.post(put(3) * 512) for _ in range(400)][-1:]:
                bulk.wait(ticket)

        longest, many = self.longest(work)
        self.assertLess(longest, 1 / 3)
        self.assertGreater(many, 20)
        redis, keys = shard_of(self.client, 0)
        self.assertLessEqual(int(redis.hget(keys.waiting, 0) or 0), MOST_WAITING)

    def test_a_turn(self) -> None:
        call = call_of(b"1-0", 0, [LOOK_UP] * 100)
        self.assertEqual(len(share_of([call] * 60)), TURN_FRAMES // 100)
        large = call_of(b"1-0", 0, [LOOK_UP] * 512)
        self.assertEqual(share_of([large, call]), [large])

    def test_a_slow_link(self) -> None:
        """A reply of 2 MB over 300 kB a second takes longer than the lease, which is raised at the same time."""
        slow = SlowLink(f"{self.scratch}/s", 300_000)
        self.addCleanup(slow.close)
        worker = Worker(Redis(slow.url), ShardKeys(0), PROGRAM, Settings(1.0), lambda _: None)
        stopped, errors = threading.Event(), list[Exception]()

        def run() -> None:
            try:
                worker.run(stopped.is_set)
            except Exception as error:
                errors.append(error)

        thread = threading.Thread(target=run)
        thread.start()
        self.addCleanup(thread.join)
        self.addCleanup(stopped.set)
        self.until(lambda: 0 in self.client.directory.beats())
        customer = self.client.customer("acme", 60)
        made = [frames.map_create(0, MapType.HASH, 4, 4096, 16), frames.map_update_elem(0, 3, b"key1", bytes(4096))]
        self.assertEqual([reply.status for reply in customer.ask_all(made)], [3, 0])
        began = time.monotonic()
        self.assertEqual(len(customer.wait(customer.post(LOOK_UP * 500))), 500)
        self.assertGreater(time.monotonic() - began, 3)
        self.assertEqual(errors, [])
        self.assertRegex(shown(self.client), "shard 0: 1 customers, 0 KiB of calls wait, served by ")


class SnapshotStalls(Waits):
    """How long another customer waits meanwhile."""

    library: Library | None = None

    def worker_with_snapshots(self, machine: System) -> None:
        """Shard 0 is served by a worker that makes a snapshot each thirty entries."""
        stopped = threading.Event()
        redis = Redis(self.server.url, machine)
        worker = Worker(redis, ShardKeys(0), PROGRAM, Settings(SECONDS, snapshot_entries=30), lambda _: None, None, self.library)
        thread = threading.Thread(target=worker.run, args=(stopped.is_set,))
        thread.start()
        self.addCleanup(thread.join)
        self.addCleanup(stopped.set)
        self.until(lambda: 0 in self.client.directory.beats())

    def test_a_customer_with_full_maps(self) -> None:
        """No command of the worker is so large that it blocks Redis."""
        counting = Counting()
        self.worker_with_snapshots(counting)
        full = self.client.customer("full", 100)

        def work() -> None:
            for reply in full.ask_all(full_maps()):
                reply.done() if reply.status < 0 else None
            for value in range(100):
                full.ask(frames.map_update_elem(0, 3, bytes(8), value.to_bytes(8, "little"))).done()

        longest, _ = self.longest(work)
        self.assertLess(longest, 1 / 3)
        keys = ShardKeys(0)
        self.assertGreater(len(directory_of(self.client).hkeys(keys.pieces)), 4)
        self.assertLess(counting.largest, STEP_BYTES)

    def test_maps_that_only_programs_have(self) -> None:
        """Their values are saved, or read by playing only their customer's own frames again."""
        self.worker_with_snapshots(MACHINE)
        customers = [self.client.customer(f"closed-{number}", 100) for number in range(10)]
        load = frames.prog_load(0, slots_of(PROGRAM, "add"))
        begin = [frames.map_create(0, MapType.ARRAY, 4, 8, 1), load, frames.close(0, 3)]
        run = frames.prog_test_run(0, 4)

        def work() -> None:
            for customer in customers:
                statuses = [reply.status for reply in customer.ask_all(begin + [run] * 300)]
                self.assertEqual(statuses, [3, 4, 0] + [0] * 300)
            for _ in range(40):
                for customer in customers:
                    customer.ask(run).done()

        longest, _ = self.longest(work)
        self.assertLess(longest, 1 / 3)
        self.assertGreater(len(directory_of(self.client).hkeys(ShardKeys(0).snapshots)), 10)


class SlowLink:
    """A port that forwards to a Unix socket, each connection with so many bytes a second towards it."""

    def __init__(self, to: str, speed: int) -> None:
        self._to, self._speed = to, speed
        self._listens = socket.create_server(("127.0.0.1", 0))
        self.url = f"redis://127.0.0.1:{self._listens.getsockname()[1]}"
        threading.Thread(target=self._accept, daemon=True).start()

    def close(self) -> None:
        """Takes no more connections."""
        self._listens.close()

    def _accept(self) -> None:
        while True:
            try:
                here, _ = self._listens.accept()
            except OSError:
                return
            here.setsockopt(socket.SOL_SOCKET, socket.SO_RCVBUF, 1 << 16)
            there = socket.socket(socket.AF_UNIX)
            there.connect(self._to)
            threading.Thread(target=self._pump, args=(here, there, self._speed), daemon=True).start()
            threading.Thread(target=self._pump, args=(there, here, 0), daemon=True).start()

    @staticmethod
    def _pump(here: socket.socket, there: socket.socket, speed: int) -> None:
        try:
            while data := here.recv(1 << 14):
                there.sendall(data)
                if speed:
                    time.sleep(len(data) / speed)
        except OSError:
            pass
        for one in (here, there):
            try:
                one.shutdown(socket.SHUT_RDWR)
            except OSError:
                pass
            one.close()
