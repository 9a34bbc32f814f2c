"""The service in the simulator: one customer's trouble is nobody else's. All times are those of the simulator's clock."""

from __future__ import annotations

import asyncio
import gc
import importlib.util
import unittest
from collections.abc import Callable, Coroutine
from dataclasses import replace
from typing import Any

from bpfhost import MapType, frames
from bpfhost.shards.gateway.connection import Connection
from bpfhost.shards.gateway.limits import MEBI, GatewayLimits
from bpfhost.shards.gateway.protocol import Why, ack
from tests.common import TimedTest
from tests.shards.common import CREATE, LOOK_UP, put

_WHY = None if importlib.util.find_spec("lupa") else "python3-lupa is missing"
if _WHY is None:
    from tests.shards.simulator.service import LEASE, Caller, Ended, Service, customers, quietly

# A map with a value of 4,096 bytes, and a look-up of it.
LARGE = frames.map_create(0, MapType.HASH, 4, 4096, 4) + frames.map_update_elem(0, 3, b"key1", bytes(4096))
# How much later another customer's call may be.
LATER = 0.1


@unittest.skipIf(_WHY is not None, _WHY or "")
class ServiceTest(TimedTest):
    def service(self, text: str, shards: int = 1, limits: GatewayLimits = GatewayLimits(), gateways: int = 1) -> Service:
        """A service whose shards are served."""
        made = Service(self.scratch, shards, limits, text, gateways)
        self.addCleanup(made.end)
        made.world.run(5.0)
        return made

    def longest(self, service: Service, caller: Caller, seconds: float) -> float:
        """The longest of look-ups that a customer does one after another for so many seconds."""
        found = list[float]()

        async def look_up() -> None:
            until = service.world.now + seconds
            while service.world.now < until:
                began = service.world.now
                await caller.ask(LOOK_UP)
                found.append(service.world.now - began)
                await asyncio.sleep(0.1)

        service.do(look_up)
        return max(found)

    def called(self, service: Service, name: str, made: bytes = CREATE + put(1), gateway: int = 0) -> Caller:
        """A connection of a customer that has made a map."""
        caller = service.connect(gateway=gateway)

        async def begin() -> None:
            await caller.greet(name)
            await caller.ask(made, 2)

        service.do(begin)
        return caller

    def beside(self, service: Service, work: Callable[[], Coroutine[Any, Any, object]]) -> None:
        """Begins something of others, which goes on."""
        service.world.start(service.customers, quietly(work()))


class OthersTrouble(ServiceTest):
    """What is wrong with a shard, or with customers that stay within their limits, delays nobody else."""

    def test_a_shard_whose_worker_is_dead(self) -> None:
        names = [f"c{number}" for number in range(18)]
        service = self.service(customers(*names), shards=2)
        callers = {name: self.called(service, name, LARGE) for name in names}
        on_zero = [name for name in names if self.shard_of(service, name) == 0]
        alone = self.longest(service, callers[on_zero[0]], 5.0)
        service.world.kill(service.workers[1][0])
        for name in names:
            if name not in on_zero:
                for _ in range(8):
                    self.beside(service, lambda name=name: self.flood(service, name))  # type: ignore[misc]
        self.assertLessEqual(self.longest(service, callers[on_zero[0]], 20.0), alone + LATER)

    def shard_of(self, service: Service, name: str) -> int:
        """The shard that has a customer."""
        seats = service.network.server("redis://directory").store.keys[b"bpfhost:{directory}:customers"]
        return int(seats[name.encode()].split()[0])

    async def flood(self, service: Service, name: str) -> None:
        """Asks for the longest replies, and reads none of them."""
        caller = service.connect()
        await caller.greet(name)
        caller.end.pause_reading()
        for _ in range(4):
            caller.end.write(LOOK_UP * 64)
            await asyncio.sleep(0.1)

    def test_customers_that_never_read(self) -> None:
        """Sixteen of them, with all connections that they may have; what they do not read is bounded, and given back."""
        names = [f"c{number}" for number in range(17)]
        limits = replace(GatewayLimits(), bytes_of_customer=MEBI, bytes_of_shard=4 * MEBI)
        service = self.service(customers(*names), limits=limits)
        caller = self.called(service, names[0])
        for name in names[1:]:
            self.called(service, name, LARGE).end.abort()
        alone = self.longest(service, caller, 5.0)
        for name in names[1:]:
            for _ in range(8):
                self.beside(service, lambda name=name: self.flood(service, name))  # type: ignore[misc]
        self.assertLessEqual(self.longest(service, caller, 35.0), alone + LATER)
        self.assertLessEqual(service.gateway.unread.total(), 4 * MEBI)
        service.world.run(service.world.now + 60)
        self.assertEqual((service.gateway.unread.total(), len(service.gateway.connections)), (0, 1))

    def test_a_session_that_is_taken_over_again_and_again(self) -> None:
        """All connections count until they are closed, and their memory comes back."""
        service = self.service(customers("acme", "other"))
        for name in ("acme", "other"):
            self.called(service, name, LARGE).end.abort()
        most = held = taken = 0
        ends = []
        for _ in range(132):
            caller = service.connect()
            ends.append(caller.others)

            async def take_over() -> None:
                nonlocal taken
                try:
                    taken = (await caller.greet("acme", "one", taken))["taken"]
                except Ended as ended:
                    self.assertEqual(ended.why, Why.AGAIN)
                    return
                caller.end.pause_reading()
                caller.end.write(ack(taken) + LOOK_UP * 512)
                await asyncio.sleep(0.3)

            service.do(take_over)
            most, held = max(most, sum(not end.is_closed for end in ends)), max(held, sum(end.get_write_buffer_size() for end in ends))
        self.assertLessEqual(most, 8)
        self.assertLessEqual(held, service.gateway.limits.bytes_of_customer)
        service.world.run(service.world.now + 60)
        self.assertEqual((len(service.gateway.connections), service.gateway.unread.total()), (0, 0))
        ends.clear()
        del caller
        gc.collect()
        # Nothing has what a connection had.
        self.assertEqual([one for one in gc.get_objects() if isinstance(one, Connection)], [])


class Limits(ServiceTest):
    def test_one_rate_for_all_connections(self) -> None:
        """Also after another rate came with another file: for old connections and new ones together."""
        service = self.service(customers("acme", more="frames = 2000\n"))
        callers = [self.called(service, "acme")]
        service.file.write_text(customers("acme", more="frames = 200\n"))
        service.world.loop.call_soon(service.gateway.reload)
        service.world.run(service.world.now + 0.1)
        callers += [self.called(service, "acme") for _ in range(2)]
        answered = [0]

        async def ask(caller: Caller) -> None:
            while True:
                await caller.ask(LOOK_UP * 20, 20)
                answered[0] += 20

        for caller in callers:
            self.beside(service, lambda caller=caller: ask(caller))  # type: ignore[misc]
        service.world.run(service.world.now + 2.0)
        before = answered[0]
        service.world.run(service.world.now + 20.0)
        self.assertAlmostEqual(answered[0] - before, 200 * 20, delta=120)

    def test_one_rate_at_two_gateways(self) -> None:
        """Two gateways share a customer's rate while it sends to both; the one that is left has all of it."""
        service = self.service(customers("acme", more="frames = 200\n"), gateways=2)
        answered = [0, 0]

        async def ask(caller: Caller, at: int) -> None:
            while True:
                await caller.ask(LOOK_UP * 10, 10)
                answered[at] += 10

        def rates(seconds: float) -> list[float]:
            before = list(answered)
            service.world.run(service.world.now + seconds)
            return [(now - then) / seconds for now, then in zip(answered, before)]

        callers = [self.called(service, "acme", gateway=at % 2) for at in range(4)]
        for at in (0, 1, 3):
            self.beside(service, lambda at=at: ask(callers[at], at % 2))  # type: ignore[misc]
        service.world.run(service.world.now + 4)
        for rate in rates(30):
            self.assertAlmostEqual(rate, 100, delta=10)
        callers[0].end.abort()
        service.world.run(service.world.now + 5)
        self.assertAlmostEqual(rates(30)[1], 200, delta=20)

    def test_connections_at_two_gateways(self) -> None:
        """They count together; those of a gateway that is gone do not."""
        service = self.service(customers("acme", more="connections = 3\n"), gateways=2)
        for gateway in (0, 1, 0):
            self.called(service, "acme", gateway=gateway)
            service.world.run(service.world.now + 2)

        async def refused() -> None:
            for gateway in (0, 1):
                with self.assertRaisesRegex(Ended, "customer acme has 3 connections, and may have no more"):
                    await service.connect(gateway=gateway).greet("acme")

        service.do(refused)
        service.network.server("redis://directory").store.keys[b"bpfhost:{directory}:gateways"][b"gone"] = b'[1, {"acme": 3}, ["acme"]]'
        service.world.run(service.world.now + 2)
        self.assertEqual([one.sharing.connections["acme"] for one in service.gateways], [4, 5])
        service.world.run(service.world.now + 70)
        self.assertEqual([one.sharing.connections["acme"] for one in service.gateways], [1, 2])
        self.assertNotIn(b"gone", service.network.server("redis://directory").store.keys[b"bpfhost:{directory}:gateways"])

    def test_a_customer_that_is_not_in_the_file_any_more(self) -> None:
        """It is revoked within a second; so is one whose token is another one now. Others go on."""
        service = self.service(customers("acme", "old", "other"))
        gone = {name: self.called(service, name) for name in ("acme", "old")}
        kept = self.called(service, "other")
        service.file.write_text(customers("other") + customers("new").replace("[customers.new]", "[customers.old]"))
        service.world.loop.call_soon(service.gateway.reload)

        async def ends() -> None:
            began = service.world.now
            for caller in gone.values():
                with self.assertRaises(Ended) as ended:
                    await caller.frame()
                self.assertEqual((ended.exception.why, str(ended.exception)), (Why.WHO, "the customer is not known by this token or certificate any more"))
            self.assertLess(service.world.now - began, 1.0)
            await kept.ask(LOOK_UP)
            with self.assertRaises(Ended):
                await service.connect().greet("acme")

        service.do(ends)

    def test_a_slow_rate(self) -> None:
        """A customer that reads its replies is never refused for its rate, however low that is: it is slowed."""
        for rate in (0.5, 10, 100, 101):
            service = self.service(customers("acme", more=f"frames = {rate}\n"))
            many = int(rate * 30)
            callers = [service.connect() for _ in range(8)]

            async def ask(caller: Caller) -> None:
                await caller.greet("acme")
                await caller.ask(CREATE * many, many)

            async def ask_all() -> None:
                began = service.world.now
                await asyncio.gather(*(ask(caller) for caller in callers))
                self.assertAlmostEqual(service.world.now - began, 8 * 30, delta=20)

            with self.subTest(rate):
                service.do(ask_all, 2000)

    def test_connections_that_say_nothing(self) -> None:
        """A thousand a second from one address, for ten seconds: a customer from another one is greeted at once."""
        service = self.service(customers("acme"))
        made = list[Caller]()

        async def come() -> None:
            for _ in range(10_000):
                made.append(service.connect("10.6.6.6"))
                await asyncio.sleep(0.001)

        self.beside(service, come)
        waits = list[float]()

        async def greeted() -> None:
            for number in range(20):
                await asyncio.sleep(0.4)
                began = service.world.now
                caller = service.connect(f"10.0.0.{number}")
                await caller.greet("acme")
                waits.append(service.world.now - began)
                caller.end.abort()
                self.assertLessEqual(sum(not one.others.is_closed for one in made), 32)

        service.do(greeted)
        self.assertLess(max(waits), LATER)
        service.world.run(service.world.now + 10)
        self.assertEqual(sum(not one.others.is_closed for one in made), 0)
        self.assertEqual(len(service.gateway.addresses.unknown), 0)

    def test_connections_to_redis(self) -> None:
        """A minute after the last of 160 customers has gone, there are few."""
        names = [f"c{number}" for number in range(60)]
        service = self.service(customers(*names), limits=replace(GatewayLimits(), new_of_address=1e6, unknown_of_address=1000, unknown=1000))
        callers = [service.connect() for _ in range(160)]

        async def ask(caller: Caller, name: str) -> None:
            await caller.greet(name)
            for _ in range(5):
                await caller.ask(CREATE)

        async def ask_all() -> None:
            await asyncio.gather(*(ask(caller, names[number % 60]) for number, caller in enumerate(callers)))

        service.do(ask_all)
        self.assertGreater(len(service.gateway.client.redis.nodes.lines), 16)
        for caller in callers:
            caller.end.abort()
        service.world.run(service.world.now + 61)
        self.assertLessEqual(len(service.gateway.client.redis.nodes.lines), 16)

    def test_who_is_refused(self) -> None:
        """Tokens that nobody has are logged with the address that they come from, and not more often than now and then."""
        service = self.service(customers("acme"))

        async def guess() -> None:
            for _ in range(50):
                with self.assertRaises(Ended):
                    await service.connect("10.6.6.6").greet("guess")
                await asyncio.sleep(0.1)

        service.do(guess)
        service.world.run(service.world.now + 10)
        service.do(guess)
        sentence = "the gateway refuses a connection from 10.6.6.6: no customer has this token"
        self.assertEqual(service.told[:2], [sentence, f"{sentence}, and 49 times since that was said last"])


class Health(ServiceTest):
    def test_a_redis_that_is_gone(self) -> None:
        """A worker is not well any more when its lease has run out, and reports the age of the last raise that succeeded."""
        service = self.service("")
        worker = service.workers[0][1]
        self.assertTrue(worker.health()[0])
        service.network.server("redis://directory").away_until = service.world.now + 40
        service.world.run(service.world.now + LEASE)
        is_well, said = worker.health()
        self.assertEqual((is_well, said["serves"]), (False, True))
        service.world.run(service.world.now + 30)
        self.assertGreater(float(str(worker.health()[1]["lease_age"])), 30)
        service.world.run(service.world.now + 10)
        self.assertTrue(worker.health()[0])


if __name__ == "__main__":
    unittest.main()
