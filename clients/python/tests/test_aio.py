"""The host for asyncio: the same replies as the blocking one, many calls at once, and errors for their own callers."""

from __future__ import annotations

import asyncio
import unittest
from unittest import mock

from bpfhost import Host, HostError, MapType, Packets, Refused, assemble, frames
from bpfhost.aio import AsyncHost
from tests.common import LENGTH, PROGRAM, HostTest
from tests.test_host import EXCHANGE


class Async(HostTest, unittest.IsolatedAsyncioTestCase):
    async def asyncSetUp(self) -> None:
        # It would log every step that takes long on a busy machine.
        asyncio.get_running_loop().set_debug(False)

    async def test_the_exchange_of_the_protocol(self) -> None:
        async with AsyncHost(PROGRAM, 2) as host:
            told = [(await host.ask(frame)).to_bytes() for frame, _ in EXCHANGE]
        self.assertEqual(told, [bytes.fromhex(wanted) for _, wanted in EXCHANGE])

    async def test_many_calls_at_once(self) -> None:
        with mock.patch.object(Host, "most_frames", 3000):
            async with AsyncHost(PROGRAM) as host:
                program = await host.tenant().prog_load(LENGTH, "length")
                results = await asyncio.gather(*(program.run(bytes(length)) for length in range(2000)))
                self.assertEqual(results, list(range(2000)))
                self.assertEqual(await program.runs(Packets.of([b"abc"] * 3000)), [3] * 3000)
                self.assertEqual(await program.runs([b"a", b""]), [1, 0])

    async def test_maps(self) -> None:
        async with AsyncHost(PROGRAM, 2) as host:
            words = await host.tenant(1).map_create(MapType.HASH, 4, 2, 8)
            await asyncio.gather(*(words.put(bytes([at] * 4), bytes([at] * 2)) for at in range(8)))
            self.assertEqual((await words.get(b"\3" * 4), await words.get(b"none")), (b"\3\3", None))
            self.assertEqual((await words.delete(b"\3" * 4), await words.delete(b"\3" * 4)), (True, False))
            self.assertEqual([value[0] for _, value in await words.entries()], [0, 1, 2, 4, 5, 6, 7])
            with self.assertRaisesRegex(ValueError, "keys of 4 bytes, and not of 1"):
                await words.get(b"x")
            with self.assertRaisesRegex(ValueError, "values of 2 bytes, and not of 1"):
                await words.put(b"none", b"x")
            await words.close()
            with self.assertRaisesRegex(Refused, "EBADF"):
                await words.get(b"none")

    async def test_errors(self) -> None:
        async with AsyncHost(PROGRAM) as host:
            tenant = host.tenant()
            told = await asyncio.gather(tenant.close(9), tenant.prog_load(LENGTH), tenant.close(10), return_exceptions=True)
            self.assertEqual([type(each).__name__ for each in told], ["Refused", "AsyncProg", "Refused"])
            with self.assertRaisesRegex(ValueError, "are not a whole frame"):
                await host.ask(b"abc")
            self.assertRaisesRegex(ValueError, "tenant 1 is not served", host.tenant, 1)
        with self.assertRaisesRegex(HostError, "was ended before"):
            await host.ask(frames.close(0, 3))

    async def test_a_host_that_ends(self) -> None:
        host = AsyncHost(self.pretender("read(12); print('read fault', file=sys.stderr); sys.exit(3)"))
        told = await asyncio.gather(*(host.ask(frames.close(0, 3)) for _ in range(5)), return_exceptions=True)
        self.assertIn("ended with status 3: read fault", str(told[0]))
        self.assertEqual({type(each) for each in told}, {HostError})
        await host.close(is_killed=True)

    async def test_a_call_that_is_cancelled(self) -> None:
        async with AsyncHost(PROGRAM) as host:
            program = await host.tenant().prog_load(assemble(PROGRAM, "r0 = 7\nexit\n"))
            waits = asyncio.create_task(program.run())
            await asyncio.sleep(0)
            waits.cancel()
            self.assertEqual(await program.run(), 7)
            self.assertTrue(waits.cancelled())
