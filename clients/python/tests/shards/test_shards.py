"""Customers send calls, and their shards reply once to each, also if a worker, a client or Redis ended in between."""

from __future__ import annotations

import json
import signal
import time
from collections.abc import Awaitable, Callable, Sequence
from typing import Any
from unittest import mock

from bpfhost import Errno, Host, MapType, Packets, Refused, frames
from bpfhost.shards import (
    Client,
    LeaseHeld,
    LeaseLost,
    NoReply,
    NotDone,
    NotTaken,
    RedisError,
    ReplyGone,
    SessionPassed,
    SetAside,
    Settings,
    ShardError,
    ShardKeys,
    manifest as manifests,
    move,
    names,
    operating,
    remove,
    scripts,
)
from bpfhost.shards import connection
from bpfhost.shards.cluster import Line
from bpfhost.shards.connection import Script, demand_durable
from bpfhost.shards.log import Log
from bpfhost.shards.errors import Away
from bpfhost.shards.names import FRAMES, after, before, order
from bpfhost.shards.tickets import served_at
from tests.common import LENGTH, PROGRAM
from tests.shards.blocking_redis import connect, shard_of
from tests.shards.common import CREATE, LOOK_UP, SECONDS, ShardTest, WorkerThread, counted, put, did
from tests.shards.gateways import UNCOUNTED
from tests.shards.streams import Stream

class Asking(ShardTest):
    def test_a_tenant(self) -> None:
        self.shard(0)
        tenant = self.client.customer("acme").tenant()
        counts = tenant.map_create(MapType.HASH, 4, 8, 16)
        counts[b"key1"] = (7).to_bytes(8, "little")
        self.assertEqual(dict(counts.items()), {b"key1": (7).to_bytes(8, "little")})
        length = tenant.prog_load(LENGTH)
        self.assertEqual(tenant.prog_test_run(length, b"abc"), 3)
        self.assertEqual(list(tenant.prog_test_runs(length, [Packets.of([b"", b"a"]), Packets.of([b"bc"])])), [(0, 1), (2,)])
        with self.assertRaises(Refused) as refused:
            tenant.close(9)
        self.assertTrue(refused.exception.has(Errno.EBADF))

    def test_customers_are_told_what_they_are_told_alone(self) -> None:
        for shard in range(3):
            self.shard(shard, Settings(SECONDS, snapshot_entries=10))
        for number in range(9):
            with Host(PROGRAM) as host:
                asked, wanted = Stream(PROGRAM, number).play(host, 400)
            customer = self.client.customer(f"customer-{number}")
            tickets = [customer.post(b"".join(asked[at : at + 20])) for at in range(0, 400, 20)]
            self.assertEqual([reply for ticket in tickets for reply in customer.wait(ticket)], wanted)
        self.assertEqual(self.client.directory.loads(), {0: 3, 1: 3, 2: 3})
        self.assertEqual(len({(seat.shard, seat.tenant) for seat in self.client.directory.customers().values()}), 9)

    def test_many_frames(self) -> None:
        self.shard(0)
        customer = self.client.customer("acme")
        customer.ask(CREATE).done()
        asked = [frame for value in range(2000) for frame in (put(value), LOOK_UP)]
        values = [reply.payload for reply in customer.ask_all(asked)][1::2]
        self.assertEqual(values, [value.to_bytes(8, "little") for value in range(2000)])

    def test_frames_that_go_together(self) -> None:
        """Frames that are sent before one is waited for are one call, and each sender has its own replies, in order."""
        self.shard(0)
        customer = self.client.customer("acme")
        parts = [customer.send(CREATE)] + [customer.send(put(value) + LOOK_UP) for value in range(200)]
        told = [customer.receive(part) for part in parts]
        self.assertEqual([len(one) for one in told], [1] + [2] * 200)
        self.assertEqual([one[1][12:] for one in told[1:]], [value.to_bytes(8, "little") for value in range(200)])
        redis, keys = shard_of(self.client, 0)
        self.assertEqual(redis.xlen(keys.frames(0)), 1)
        # A call between them keeps its place, and what has no room in a call begins the next one.
        first, second = customer.send(put(7)), customer.ask(LOOK_UP)
        self.assertEqual((customer.receive(first)[0][8:], second.payload), (bytes(4), (7).to_bytes(8, "little")))
        parts = [customer.send(LOOK_UP * 300) for _ in range(3)]
        self.assertEqual([len(customer.receive(part)) for part in parts], [300] * 3)
        self.assertEqual(redis.xlen(keys.frames(0)), 6)
        # A call has more frames if they are alike and have short replies.
        parts = [customer.send(put(value) * 300) for value in range(3)] + [customer.send(LOOK_UP)]
        self.assertEqual([len(customer.receive(part)) for part in parts], [300] * 3 + [1])
        self.assertEqual(redis.xlen(keys.frames(0)), 8)

    def test_frames_that_are_not_taken(self) -> None:
        customer = self.client.customer("acme", seconds=0.2)
        parts = [customer.send(CREATE) for _ in range(2)]
        for part in parts:
            with self.assertRaises(NotTaken):
                customer.receive(part)
        self.shard(0)
        self.assertEqual(customer.receive(customer.send(CREATE))[0][8:], bytes([3, 0, 0, 0]))

    def test_wrong_calls(self) -> None:
        self.shard(0)
        customer = self.client.customer("acme")
        for wrong in (b"", b"\1", CREATE[:-1], frames.close(1, 3), CREATE * 513, frames.frame(0, 1, bytes(300_000))):
            with self.assertRaises(ValueError):
                customer.post(wrong)
        for name in ("", "a b", "a\nb", "a" * 256):
            with self.assertRaisesRegex(ValueError, "a customer's name has 1 to 255 printable characters"):
                self.client.customer(name)
        # The largest frame, and one that the host refuses for its length.
        self.assertEqual(customer.ask(frames.frame(0, 1, bytes(131_068))).status, -Errno.EBADF)
        self.assertEqual(customer.ask(frames.frame(0, 1, bytes(131_069))).status, -Errno.E2BIG)

    def test_no_shard_and_no_room(self) -> None:
        with self.assertRaisesRegex(NotTaken, "no worker has begun yet"):
            self.client.customer("acme").ask(CREATE)
        self.empty_shard(0)
        for number in range(64):
            self.client.directory.place(f"customer-{number}")
        with self.assertRaisesRegex(NotTaken, "customer more: no shard has room: the least loaded one has 64 customers"):
            self.client.customer("more").ask(CREATE)


class Calls(ShardTest):
    """A call is taken once, even if its reply is lost."""

    def test_a_number_of_a_session_is_taken_once(self) -> None:
        redis, keys = self.empty_shard(0)
        seat = self.client.directory.place("acme")
        used = [keys.seats, keys.frames(0), keys.sessions(1), keys.waiting, keys.lease]

        def ask(
            number: int, of: bytes = seat.owned_by("acme"), most: int = 10_000, session: str = "one", given_up: int = 0
        ) -> list[bytes]:
            words = [session, number, given_up, of, 0, 0, CREATE, 1000, most, 2, FRAMES]
            return list(redis.run(scripts.ASK, used, words))

        self.assertEqual(ask(1), [b"seat"])
        self.assertEqual(redis.run(scripts.CLAIM, [keys.seats], [0, 1, seat.owned_by("acme")]), 1)
        first = ask(1)
        self.assertEqual([ask(1), ask(1)], [first, first])
        self.assertNotEqual(ask(2), first)
        self.assertEqual(ask(1), [b"passed", b"2"])
        self.assertEqual((redis.xlen(keys.frames(0)), redis.hgetall(keys.waiting)), (2, {b"0": b"2000"}))
        # A seat that is the customer's no more, and one who has enough waiting, take nothing; what was taken stays known.
        others = [ask(3, b"7 name:acme"), ask(3, b"1 name:other"), ask(3, most=2999)]
        self.assertEqual(others, [[b"seat"], [b"seat"], [b"full"]])
        # A call that was given up is not taken later; one that was taken is not given up.
        gives = [keys.sessions(1), keys.lease]
        for _ in range(2):
            self.assertEqual(redis.run(scripts.GIVE_UP, gives, ["one", 3, 0]), [b"given up"])
        self.assertEqual([ask(3), ask(1), ask(2)[0]], [[b"given up", b"1"], [b"passed", b"2"], b"taken"])
        third = ask(3, given_up=1)
        self.assertEqual((third[0], ask(3), redis.run(scripts.GIVE_UP, gives, ["one", 3, 1])), (b"taken", third, third))
        self.assertEqual(redis.run(scripts.GIVE_UP, gives, ["one", 2, 0]), [b"passed", b"3"])
        self.assertEqual((ask(1, session="two")[0], ask(1, session="three")), (b"taken", [b"sessions"]))
        self.assertEqual(redis.run(scripts.CLAIM, [keys.seats], [0, 9, b"9 name:other"]), 1)
        self.assertEqual(redis.run(scripts.CLAIM, [keys.seats], [0, 1, seat.owned_by("acme")]), 0)
        self.assertEqual(ask(3), third)

    def test_a_record_of_an_earlier_version(self) -> None:
        """The record of a session was words with spaces between them: it is read, and written as JSON when it changes."""
        redis, keys = self.empty_shard(0)
        owner = self.client.directory.place("acme").owned_by("acme")
        self.assertEqual(redis.run(scripts.CLAIM, [keys.seats], [0, 1, owner]), 1)
        for session, record in (("one", b"2 1 7000 0 5 4-1"), ("two", b"0 3 7000 -")):
            redis.hset(keys.sessions(1), session, record)
            self.assertEqual(served_at(record), 7.0)
        ask, gives, resume = [keys.seats, keys.frames(0), keys.sessions(1), keys.waiting, keys.lease], [keys.sessions(1), keys.lease], ["one", 1, 0, owner, 2]
        asked = [redis.run(scripts.ASK, ask, ["one", number, 0, owner, 0, 0, CREATE, 1000, 9999, 2, FRAMES]) for number in (1, 2, 3)]
        self.assertEqual(asked, [[b"passed", b"2"], [b"taken", b"0", b"5", b"4-1"], [b"given up", b"1"]])
        self.assertEqual(redis.run(scripts.GIVE_UP, gives, ["two", 1, 3]), [b"given up"])
        redis.hset(keys.lease, "served", 9000)
        used = [keys.seats, *gives]
        self.assertEqual(redis.run(scripts.RESUME, used, resume), [b"resumed", b"2", b"1000000", b"0", b"5", b"4-1"])
        self.assertEqual(redis.run(scripts.RESUME, used, ["two", 4, *resume[2:]]), [b"resumed", b"0", b"1000000"])
        records = {name: json.loads(record) for name, record in redis.hgetall(keys.sessions(1)).items()}
        both = {"given_up": "1000000", "served": "9000"}
        self.assertEqual(records, {b"one": {**both, "number": "2", "shard": "0", "tenant": "5", "entry": "4-1"}, b"two": {**both, "number": "0"}})
        self.assertEqual(served_at(redis.hget(keys.sessions(1), "one") or b""), 9.0)

    def test_an_answer_that_is_lost(self) -> None:
        self.shard(0)
        customer = self.client.customer("acme")
        customer.ask(CREATE)
        right = connection.Redis.begin
        lost: list[object] = []

        async def lose(reply: Awaitable[object]) -> object:
            lost.append(await reply)
            raise Away("cut")

        def loses(redis: connection.Redis, line: Line, words: Sequence[object], wait: float = 0.0) -> Awaitable[object]:
            reply = right(redis, line, words, wait)
            return lose(reply) if scripts.ASK.name in words and len(lost) < 3 else reply

        with mock.patch.object(connection.Redis, "begin", loses):
            self.assertEqual(customer.ask(frames.map_update_elem(0, 3, b"key1", bytes(8), 1)).status, 0)
        self.assertEqual(len(lost), 3)
        self.assertEqual(shard_of(self.client, 0)[0].xlen(ShardKeys(0).frames(0)), 2)

    def test_a_call_that_is_not_taken_is_not_sent_later(self) -> None:
        customer = self.client.customer("acme")
        with self.assertRaises(NotTaken):
            customer.post(CREATE)
        self.shard(0)
        self.assertEqual(customer.ask(CREATE).status, 3)

    def test_a_call_that_comes_late(self) -> None:
        """A call that was given up is refused when a delayed command with it reaches the server after all."""
        redis, keys = self.empty_shard(0)
        customer = self.client.customer("acme", seconds=0.1)
        right, late = connection.Redis.begin, list[Sequence[object]]()

        async def delays(server: connection.Redis, line: Line, words: Sequence[object], wait: float = 0.0) -> object:
            if scripts.ASK.name in words and not late:
                late.append(words)
                raise Away("cut")
            return await right(server, line, words, wait)

        with mock.patch.object(connection.Redis, "begin", delays), mock.patch.object(names, "MOST_WAITING", 1):
            redis.hset(keys.waiting, 0, 1)
            with self.assertRaisesRegex(NotTaken, "customer acme has as many calls waiting as one may have"):
                customer.post(CREATE)
            redis.hset(keys.waiting, 0, 0)
            self.assertEqual(redis.call(*late[0])[0], b"given up")
        self.assertEqual(redis.xlen(keys.frames(0)), 0)

    def test_a_worker_that_comes_later(self) -> None:
        self.empty_shard(0)
        customer = self.client.customer("acme")
        ticket = customer.post(CREATE)
        with self.assertRaisesRegex(NoReply, "shard 0 has not answered entry .*: does its worker run") as told:
            customer.wait(ticket, 0.1)
        self.assertIs(told.exception.ticket, ticket)
        self.shard(0)
        self.assertEqual(customer.wait(ticket)[0][8:], bytes([3, 0, 0, 0]))

    def test_the_deadline_holds(self) -> None:
        self.empty_shard(0)
        customer = self.client.customer("acme")
        ticket = customer.post(CREATE)
        # A server that takes connections and says nothing.
        assert self.server.process is not None
        self.server.process.send_signal(signal.SIGSTOP)
        self.addCleanup(self.server.process.send_signal, signal.SIGCONT)
        calls: tuple[Callable[[], object], ...] = (lambda: customer.wait(ticket, 0.5), lambda: customer.post(CREATE, 0.5))
        right, given = Line.begin, list[float]()

        def begin(line: Line, words: Sequence[object], seconds: float, *more: Any) -> Awaitable[object]:
            given.append(seconds)
            return right(line, words, seconds, *more)

        for call in calls:
            with self.subTest(), mock.patch.object(Line, "begin", begin), self.assertRaises(NoReply):
                call()
        # No command may take longer than what is left of the call's time.
        self.assertTrue(given)
        self.assertLessEqual(max(given), 0.5)

    def test_a_redis_that_comes_later(self) -> None:
        self.shard(0)
        customer = self.client.customer("acme", seconds=0.3)
        customer.ask(CREATE)
        self.server.kill()
        with self.assertRaisesRegex(NoReply, "not known whether a call of customer acme was taken: Redis can't be reached") as told:
            customer.ask(put(1))
        self.server.start()
        customer.seconds = 30
        # The exception has the call, which is sent again when it is waited for.
        assert told.exception.ticket is not None
        self.assertEqual([reply[8:] for reply in customer.wait(told.exception.ticket)], [bytes(4)])
        self.assertEqual(customer.ask(LOOK_UP).payload, (1).to_bytes(8, "little"))

    def test_more_than_one_may_have_waiting(self) -> None:
        self.empty_shard(0)
        customer, other = self.client.customer("acme", seconds=0.1), self.client.customer("other")
        with mock.patch.object(names, "MOST_WAITING", 1 << 20):
            with self.assertRaisesRegex(NotTaken, "customer acme has as many calls waiting as one may have: the worker of shard 0 is behind"):
                for _ in range(65):
                    customer.post(frames.frame(0, 1, bytes(100_000)))
            # The waiting calls of one customer leave the limit of another unchanged.
            ticket = other.post(CREATE)
        self.shard(0, Settings(SECONDS, snapshot_bytes=1 << 20))
        redis, keys = shard_of(self.client, 0)
        self.assertEqual(other.wait(ticket)[0][8:], bytes([3, 0, 0, 0]))
        self.until(lambda: redis.hget(keys.waiting, 0) == b"0")
        customer.seconds = 30
        self.assertEqual(customer.ask(CREATE).status, 3)

    def test_replies_that_nobody_read(self) -> None:
        self.shard(0, Settings(SECONDS, snapshot_entries=1, reply_seconds=0.0))
        customer = self.client.customer("acme")
        ticket = customer.post(CREATE)
        redis, keys = shard_of(self.client, 0)
        for value in range(20):
            customer.wait(customer.post(put(value)))
        self.until(lambda: redis.dropped_id(keys.replies(0)) >= (ticket.entry or b""))
        for _ in range(2):
            with self.assertRaisesRegex(ReplyGone, "nobody read them in time"):
                customer.wait(ticket)

    def test_replies_of_too_many_bytes(self) -> None:
        """If all tenants have too many bytes of replies, drops the oldest that are in a snapshot; also those of an earlier worker."""
        settings = Settings(SECONDS, snapshot_entries=1, reply_bytes=40_000)
        worker = self.shard(0, settings)
        redis, keys = shard_of(self.client, 0)
        customers = [self.client.customer(name) for name in ("acme", "other")]
        for customer in customers:
            customer.ask(CREATE)
            customer.ask(put(1))
        for turn in range(20):
            if turn == 10:
                worker.stop()
                worker = self.shard(0, settings)
            for customer in customers:
                self.assertEqual(len(customer.wait(customer.post(LOOK_UP * 100))), 100)

        def kept() -> int:
            entries = [one for tenant in (0, 1) for one in redis.xrange(keys.replies(tenant), b"0-1", b"+", 1000)]
            return sum(len(fields[b"r"]) for _, fields in entries)

        # 80,000 bytes of replies, of which at most 40,000 stay, and what is newer than the snapshot before the last one.
        self.until(lambda: kept() < 50_000)
        self.assertGreater(kept(), 10_000)
        self.assertLess(sum(log.kept_size() for log in worker.worker.logs), 80_000)
        self.assertTrue(redis.hget(keys.marks, 0))

    def test_what_one_customer_may_hold(self) -> None:
        """The replies of one that has too many are dropped, the oldest first, and no other one's."""
        self.shard(0, Settings(SECONDS, snapshot_entries=1, reply_bytes_of_customer=10_000))
        redis, keys = shard_of(self.client, 0)
        other, greedy = self.client.customer("other"), self.client.customer("greedy")
        unread = other.post(CREATE)
        tickets = [greedy.post(CREATE)]
        for value in range(40):
            other.wait(other.post(put(value)))
            tickets.append(greedy.post(LOOK_UP * 100))
            greedy.wait(tickets[-1])
        seats = {name: self.client.directory.place(name).tenant for name in ("other", "greedy")}
        self.until(lambda: redis.dropped_id(keys.replies(seats["greedy"])) >= (tickets[-20].entry or b""))
        with self.assertRaisesRegex(ReplyGone, "nobody read them in time"):
            greedy.wait(tickets[0])
        self.assertEqual(len(other.wait(unread)), 1)
        self.assertEqual(redis.xlen(keys.replies(seats["other"])), 41)

    def test_calls_that_were_dropped_undone(self) -> None:
        redis, keys = self.empty_shard(0)
        customer = self.client.customer("acme")
        tickets = [customer.post(CREATE) for _ in range(3)]
        redis.call("XTRIM", keys.frames(0), "MINID", tickets[2].entry)
        self.shard(0)
        for ticket in tickets[:2]:
            with self.assertRaisesRegex(NotDone, "was dropped from its stream before it was done: its frames were not done"):
                customer.wait(ticket)
        self.assertEqual(customer.wait(tickets[2])[0][8:], bytes([3, 0, 0, 0]))
        self.until(lambda: redis.hget(keys.waiting, 0) == b"0")

    def test_a_session_that_the_next_process_goes_on_with(self) -> None:
        for shard in (0, 1):
            self.shard(shard)
        first = self.client.customer("acme", session="counts")
        self.assertEqual((first.resume(), first.last()), (0, None))
        first.ask(CREATE).done()
        first.post(put(1))
        # As if the process had died here, and the customer was moved meanwhile.
        for _ in range(2):
            with Client(self.server.url) as client:
                second = client.customer("acme", session="counts")
                self.assertEqual(second.resume(), 2)
                last = second.last()
                assert last is not None
                self.assertEqual(second.wait(last), [bytes.fromhex("08000000 0000 0200 00000000")])
            move(self.client, "acme")
        third = self.client.customer("acme", session="counts")
        self.assertEqual(third.resume(), 2)
        self.assertEqual(third.ask(LOOK_UP).payload, (1).to_bytes(8, "little"))
        self.assertEqual(self.client.customer("acme", session="counts").resume(), 3)
        with self.assertRaisesRegex(SessionPassed, "another process goes on with session counts of customer acme"):
            third.ask(LOOK_UP)
        with self.assertRaisesRegex(ShardError, "call 1 of customer acme was passed by call 3 of its session"):
            self.client.customer("acme", session="counts").ask(LOOK_UP)

    def test_a_session_that_counts_frames(self) -> None:
        """Calls that an earlier process has in progress are not taken, also if the next one has other calls."""
        redis, keys = self.empty_shard(0)
        first = self.client.customer("acme", session="frames")
        first.post(CREATE + put(1), by=2)
        right, late = Script.__call__, list[tuple[object, ...]]()

        async def delays(script: Script, *arguments: object) -> object:
            if script is scripts.ASK and not late:
                late.append(arguments)
                raise ShardError("it is on its way")
            return await right(script, *arguments)  # type: ignore[arg-type]

        with mock.patch.object(Script, "__call__", delays), self.assertRaisesRegex(ShardError, "on its way"):
            first.post(put(2) * 5, by=5)
        second = self.client.customer("acme", session="frames")
        self.assertEqual(second.resume(), 2)
        ticket = second.post(put(3), by=1)
        self.assertEqual((ticket.number, self.client.loop.run(scripts.ASK(*late[0]))[0]), (3, b"given up"))  # type: ignore[arg-type]
        self.assertEqual((redis.xlen(keys.frames(0)), second.resume()), (2, 3))
        # A process that has read an old count gets the new one.
        seat = self.client.directory.seat("acme")
        assert seat is not None
        used, words = [keys.seats, keys.sessions(1), keys.lease], ["frames", 0, 0, seat.owned_by("acme"), 1]
        self.assertEqual(redis.run(scripts.RESUME, used, words), [b"passed", b"2000000"])
        self.assertEqual(redis.run(scripts.RESUME, used, ["other", *words[1:]]), [b"sessions"])
        self.assertEqual(redis.run(scripts.RESUME, used, [*words[:3], b"7 name:acme", 1]), [b"seat"])


class Workers(ShardTest):
    def test_a_second_worker_is_refused(self) -> None:
        first = self.shard(0)
        second = WorkerThread(self.server.url, 0)
        second.join()
        self.assertIsInstance(second.error, LeaseHeld)
        self.assertRegex(str(second.error), "^shard 0 is served by another worker, .* process [0-9]+, who raises its lease$")
        self.assertEqual(self.client.customer("acme").ask(CREATE).status, 3)
        self.assertIsNone(first.error)

    def test_a_lease_whose_holder_is_gone(self) -> None:
        redis, keys = shard_of(self.client, 0)
        for field, value in (("token", "token elsewhere process 7"), ("count", "5"), ("milliseconds", "700")):
            redis.hset(keys.lease, field, value)
        began = time.monotonic()
        worker = self.shard(0, Settings(0.5))
        self.assertIsNone(worker.error)
        self.assertGreater(time.monotonic() - began, 0.7)

    def test_a_lease_that_is_gone(self) -> None:
        worker = self.shard(0)
        customer = self.client.customer("acme")
        customer.ask(CREATE)
        redis, keys = shard_of(self.client, 0)
        redis.hset(keys.lease, "token", "token elsewhere process 7")
        customer.post(put(1))
        worker.join()
        self.assertIsInstance(worker.error, LeaseLost)
        self.assertIn("it is now elsewhere process 7's", str(worker.error))
        # Nothing of it was written, and the next worker does it.
        self.assertEqual(redis.xlen(keys.replies(0)), 1)
        redis.hdel(keys.lease, "token")
        self.shard(0)
        self.assertEqual(customer.ask(LOOK_UP).payload, (1).to_bytes(8, "little"))

    def test_a_worker_that_is_stopped_while_it_waits(self) -> None:
        redis, keys = shard_of(self.client, 0)
        # The lease that it waits for lasts an hour.
        for field, value in (("token", "token elsewhere process 7"), ("count", "5"), ("milliseconds", "3600000")):
            redis.hset(keys.lease, field, value)
        worker = WorkerThread(self.server.url, 0)
        time.sleep(0.2)
        worker.stop()
        self.assertIsNone(worker.error)

    def test_a_worker_that_starts_before_its_redis(self) -> None:
        self.server.kill()
        worker = WorkerThread(self.server.url, 0)
        self.addCleanup(worker.stop)
        self.until(lambda: bool(worker.told))
        self.assertRegex(worker.told[0], "^shard 0 waits: Redis can't be reached: .+")
        self.server.start()
        worker.wait()
        self.assertEqual(self.client.customer("acme").ask(CREATE).status, 3)
        # It also waits for one that goes away later.
        self.server.kill()
        time.sleep(1)
        self.server.start()
        self.assertEqual(self.client.customer("acme").ask(CREATE).status, 4)
        self.assertIsNone(worker.error)

    def test_what_was_answered_is_played_again(self) -> None:
        first = self.shard(0, Settings(SECONDS, snapshot_entries=100))
        customer = self.client.customer("acme")
        customer.ask(CREATE)
        for value in range(350):
            customer.ask(put(value))
        first.stop()
        redis, keys = shard_of(self.client, 0)
        # The entries since the snapshot before the last one are there.
        self.assertLess(redis.xlen(keys.frames(0)), 250)
        self.assertEqual(redis.xlen(keys.replies(0)), 351)
        second = self.shard(0)
        self.assertEqual(customer.ask(LOOK_UP).payload, (349).to_bytes(8, "little"))
        self.assertIsNone(second.error)

    def test_a_reply_that_was_another_one(self) -> None:
        """Only the tenant is set aside; its customer gets an error, others go on, and an operator decides."""
        redis, keys = self.empty_shard(0)
        ticket = self.client.customer("acme").post(CREATE)
        redis.call("XADD", keys.replies(0), ticket.entry, "r", bytes.fromhex("0800000000000000 04000000"))
        self.shard(0)
        customer, other = self.client.customer("acme"), self.client.customer("other")
        self.assertEqual(other.ask(CREATE).status, 3)
        wanted = "is answered 080000000000000003000000 when it is played again, and was answered 080000000000000004000000"
        with self.assertRaisesRegex(SetAside, f"customer acme is set aside until an operator has looked: .* {wanted}"):
            customer.ask(LOOK_UP)
        self.assertIn(wanted, did(self.client, operating.say, "acme", "retry", 20))
        with self.assertRaises(SetAside):
            customer.ask(LOOK_UP)
        did(self.client, operating.say, "acme", "skip", 20)
        self.assertEqual(customer.ask(LOOK_UP).status, -Errno.ENOENT)

    def test_an_entry_that_is_missing(self) -> None:
        redis, keys = self.empty_shard(0)
        ticket = self.client.customer("acme").post(CREATE)
        redis.call("XADD", keys.replies(0), after(ticket.entry or b""), "r", b"")
        worker = self.shard(0)
        self.assertEqual(self.client.customer("other").ask(CREATE).status, 3)
        with self.assertRaises(SetAside):
            self.client.customer("acme").ask(CREATE)
        self.assertIsNone(worker.error)

    def test_entries_of_others(self) -> None:
        worker = self.shard(0)
        redis, keys = shard_of(self.client, 0)
        for tenant in (0, 1):
            for fields in (("x", "y"), ("f", b"\1\2\3"), ("leave", "7")):
                redis.call("XADD", keys.frames(tenant), "*", *fields)
        for name in ("arrives", "leaves", "name:", "7", "closed:"):
            self.assertEqual(self.client.customer(name).ask(CREATE).status, 3)
        self.assertIsNone(worker.error)

    def test_arrivals_of_others(self) -> None:
        """An entry that says of an arrival what no move writes is set aside, by each worker; an operator skips it, and its customer goes on."""
        worker = self.shard(0)
        redis, keys = shard_of(self.client, 0)
        customer = self.client.customer("acme")
        self.assertEqual(customer.ask(CREATE).status, 3)
        for manifest in (b"\1\2", b"{}", b"[" * 100_000):
            redis.call("XADD", keys.frames(0), "*", "arrive", manifest)
            for _ in range(2):
                with self.assertRaisesRegex(SetAside, "customer acme is set aside .*: what arrives is no state: "):
                    customer.ask(LOOK_UP)
                self.assertEqual(self.client.customer("other").ask(CREATE).status >= 3, True)
                self.assertIsNone(worker.error)
                worker.stop()
                worker = self.shard(0)
            did(self.client, operating.say, "acme", "skip", 20)
            self.assertEqual(customer.ask(put(1)).status, 0)
        self.assertIsNone(worker.error)

    def test_a_host_that_was_asked_often(self) -> None:
        worker = self.shard(0, Settings(SECONDS, most_asked=100))
        customer = self.client.customer("acme")
        customer.ask(CREATE)
        for value in range(80):
            self.assertEqual([reply.status for reply in customer.ask_all([put(value), LOOK_UP])], [0, 0])
        self.assertIsNone(worker.error)
        if not UNCOUNTED:
            self.assertGreater(counted(worker.worker.metrics, "bpfhost_worker_hosts_total"), 1)

    def test_a_snapshot_in_pieces(self) -> None:
        """More bytes than a script is given at once, of tenants that come and go."""
        redis, keys = shard_of(self.client, 0)
        with mock.patch.object(manifests, "PIECE", 100):
            first = self.shard(0, Settings(SECONDS, snapshot_entries=12))
            for number in range(8):
                customer = self.client.customer(f"customer-{number}")
                self.assertEqual([reply.status for reply in customer.ask_all([CREATE, put(number)])], [3, 0])
                self.assertEqual([reply.status for reply in customer.ask_all([CREATE, put(number)])], [4, 0])
            for number in (0, 3):
                remove(self.client, f"customer-{number}")
            for _ in range(30):
                self.client.customer("customer-7").ask(LOOK_UP)
            first.stop()
            # Each piece is one that a snapshot has.
            self.assertGreater(len(redis.hkeys(keys.pieces)), 1)
            second = self.shard(0)
            found = {name for log in second.worker.logs for one in self.client.loop.run(Log(redis.aio, keys, log.tenant).manifests()) for name in one.names()}
            self.assertEqual({name.decode() for name in redis.hkeys(keys.pieces)} - found, set())
            for number in (1, 2, 4, 5, 6, 7):
                self.assertEqual(self.client.customer(f"customer-{number}").ask(LOOK_UP).payload, number.to_bytes(8, "little"))

    def test_a_snapshot_that_comes_late(self) -> None:
        redis, keys = self.empty_shard(0)
        redis.hset(keys.lease, "token", "token")

        def keep(this: str, last: str) -> object:
            return redis.run(scripts.KEEP_SNAPSHOT, [keys.lease, keys.snapshots], ["token", 0, this, last])

        self.assertEqual([keep("one", ""), keep("two", "one"), keep("two", "one")], [1, 1, 1])
        with self.assertRaisesRegex(RedisError, "the last snapshot of tenant 0 is another one"):
            keep("one", "")
        self.assertEqual(redis.hgetall(keys.snapshots), {b"0": b"two", b"0:before": b"one"})

    def test_a_redis_that_may_lose(self) -> None:
        redis = connect(self.server.url)
        redis.loop.run(demand_durable(redis.aio))
        redis.call("CONFIG", "SET", "appendfsync", "everysec")
        with self.assertRaisesRegex(RedisError, "Redis has appendfsync everysec, and a shard's log needs always"):
            redis.loop.run(demand_durable(redis.aio))
        worker = WorkerThread(self.server.url, 0)
        worker.join()
        self.assertIsInstance(worker.error, RedisError)
        with self.assertRaisesRegex(RedisError, "appendfsync everysec"):
            worker.wait()

    def test_a_redis_that_loads_its_files(self) -> None:
        """A worker waits for it, and prints a notice: meanwhile Redis reports that it has no log."""
        server = self.server.process
        assert server is not None
        right, loads = connection.told_by, [True]

        async def told_by(redis: connection.Redis, section: str) -> dict[str, str]:
            return {"loading": "1", "aof_enabled": "0"} if section == "persistence" and loads[0] else await right(redis, section)

        with mock.patch.object(connection, "told_by", told_by):
            worker = WorkerThread(self.server.url, 0)
            self.addCleanup(worker.stop)
            self.until(lambda: worker.told == ["shard 0 waits: Redis loads its files"])
            loads[0] = False
            worker.wait()
        self.assertEqual(self.client.customer("acme").ask(CREATE).status, 3)


class Ids(ShardTest):
    def test_numbers_of_shards(self) -> None:
        for number in (-1, 1 << 31):
            told = f"a shard's number is 0 to 2147483647, and not {number}"
            self.assertRaisesRegex(ShardError, told, self.client.directory.register, number, b"name")
        self.assertEqual(self.client.directory.loads(), {})

    def test_order(self) -> None:
        self.assertEqual(before(b"5-0"), b"4-18446744073709551615")
        self.assertEqual(after(b"4-18446744073709551615"), b"5-0")
        self.assertEqual((before(b"5-3"), after(b"5-3")), (b"5-2", b"5-4"))
        self.assertLess(order(b"9-10"), order(b"10-9"))
