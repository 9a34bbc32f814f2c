"""The event loop of a synchronous client: what it reads at once delays nothing else."""

from __future__ import annotations

import asyncio
import socket
import threading
import unittest

from bpfhost.shards.blocking import Loop


class Rounds(unittest.TestCase):
    def test_what_comes_meanwhile(self) -> None:
        """Two connections at the same time, a timer, and a call of another thread, while a connection has more to read each time."""
        loop, came, thread = Loop(), list[str](), threading.Thread(target=lambda: loop.run(another()))

        async def another() -> None:
            came.append("another thread")

        async def work() -> None:
            running = asyncio.get_running_loop()
            busy, other = socket.socketpair(), socket.socketpair()

            def read() -> None:
                busy[0].recv(1)
                busy[1].send(b"1")

            running.add_reader(busy[0], read)
            running.add_reader(other[0], lambda: came.append(f"{other[0].recv(1)!r}"))
            timer = running.create_future()
            running.call_later(0.02, timer.set_result, None)
            busy[1].send(b"1")
            other[1].send(b"2")
            thread.start()
            await timer
            while len(came) < 2:
                await asyncio.sleep(0)
            for mine in (busy, other):
                running.remove_reader(mine[0])
                for one in mine:
                    one.close()

        loop.run(work())
        thread.join()
        self.assertEqual(sorted(came), ["another thread", "b'2'"])


if __name__ == "__main__":
    unittest.main()
