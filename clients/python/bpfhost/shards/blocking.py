"""The client of shards for callers without asyncio: the same calls, each of which returns when it is done, on an event loop of its own."""

from __future__ import annotations

import asyncio
import functools
import threading
from collections.abc import Callable, Coroutine, Iterable, Iterator
from contextlib import AbstractContextManager
from typing import Any, Concatenate, Generic, ParamSpec, TypeVar, cast

from bpfhost import frames as make
from bpfhost.frames import NO_CONTEXT, Context
from bpfhost.host import Host
from bpfhost.packets import Packets
from bpfhost.parts import in_parts
from bpfhost.replies import Reply, read_replies
from bpfhost.shards import directory, moving
from bpfhost.shards.calls import LONGEST_CALL, MOST_FRAMES
from bpfhost.shards.client import SECONDS, AsyncClient, AsyncCustomer
from bpfhost.shards.loop import RoundsLoop
from bpfhost.shards.names import PREFIX
from bpfhost.shards.system import MACHINE, Answer, System, Work
from bpfhost.shards.tickets import Part, Ticket
from bpfhost.tenant import Tenant

Given = ParamSpec("Given")
Inner = TypeVar("Inner")


class Loop:
    """An event loop that runs only while somebody waits for something. Threads may share it: one of those that wait runs it for all."""

    def __init__(self) -> None:
        self._loop = RoundsLoop()
        # Held by the thread that runs it; how many others wait.
        self._runs, self._others = threading.Lock(), 0
        self._changed = threading.Condition()

    def run(self, work: Work[Answer]) -> Answer:
        """The result of work."""
        if self._runs.acquire(blocking=False):
            return self._run(work)
        task = asyncio.run_coroutine_threadsafe(work, self._loop)
        task.add_done_callback(self._note)
        with self._changed:
            self._others += 1
            while not (has := self._runs.acquire(blocking=False)) and not task.done():
                self._changed.wait()
            self._others -= 1
        return self._run(_result(asyncio.wrap_future(task, loop=self._loop))) if has else task.result()

    def _run(self, work: Work[Answer]) -> Answer:
        """Takes the steps of work itself, and lets the loop run until the work may go on: a task would cost as much as a call of Redis."""
        loop = self._loop
        asyncio._set_running_loop(loop)
        try:
            while True:
                waits = work.send(None)
                if waits is None:
                    # It only lets others go on: so the next round waits for nothing.
                    loop.call_soon(bool)
                    loop.run_round()
                while waits and not waits.done():
                    loop.run_round()
        except StopIteration as ended:
            return ended.value  # type: ignore[no-any-return]
        finally:
            work.close()
            asyncio._set_running_loop(None)
            self._runs.release()
            if self._others:
                self._note(None)

    def _note(self, _task: object) -> None:
        with self._changed:
            self._changed.notify_all()

    def __del__(self) -> None:
        self._loop.close()


async def _result(waits: asyncio.Future[Answer]) -> Answer:
    return await waits


class Blocking(Generic[Inner]):
    """What has the calls of something for asyncio (`aio`), and waits for each."""

    def __init__(self, aio: Inner, loop: Loop) -> None:
        self.aio, self.loop = aio, loop


def waits(
    method: Callable[Concatenate[Inner, Given], Coroutine[Any, Any, Answer]]
) -> Callable[Concatenate[Blocking[Inner], Given], Answer]:
    @functools.wraps(method)
    def call(self: Blocking[Inner], /, *args: Given.args, **words: Given.kwargs) -> Answer:
        return self.loop.run(method(self.aio, *args, **words))

    return call


class Directory(Blocking[directory.Directory]):
    """The directory (`directory.Directory`)."""

    register = waits(directory.Directory.register)
    incarnation = waits(directory.Directory.incarnation)
    beat = waits(directory.Directory.beat)
    withdraw = waits(directory.Directory.withdraw)
    beats = waits(directory.Directory.beats)
    drain = waits(directory.Directory.drain)
    drained = waits(directory.Directory.drained)
    remove_shard = waits(directory.Directory.remove_shard)
    server = waits(directory.Directory.server)
    loads = waits(directory.Directory.loads)
    place = waits(directory.Directory.place)
    seat = waits(directory.Directory.seat)
    customers = waits(directory.Directory.customers)
    moves = waits(directory.Directory.moves)
    begin_move = waits(directory.Directory.begin_move)
    end_move = waits(directory.Directory.end_move)
    turn_move = waits(directory.Directory.turn_move)


class Client(Blocking[AsyncClient], AbstractContextManager["Client"]):
    """A client that knows the directory and the shards. It is a context manager, which closes its connections."""

    close = waits(AsyncClient.close)

    def __init__(self, url: str | None = None, prefix: str = PREFIX, system: System = MACHINE) -> None:
        """The directory's Redis, by its URL (`Redis`)."""
        super().__init__(AsyncClient(url, prefix, system), Loop())
        self.directory = Directory(self.aio.directory, self.loop)

    def __exit__(self, *_error: object) -> None:
        self.close()

    def customer(self, name: str, seconds: float = SECONDS, session: str | None = None) -> Customer:
        """A customer by its name, which waits for so many seconds at most.

        The next process can continue a session with a name (`Customer.resume`); from then on calls of the previous process are refused.
        """
        return Customer(self.aio.customer(name, seconds, session), self.loop)


class Asking:
    """What is asked as a host is: frames are sent by `ask_bytes`, which yields the bytes of each reply in order."""

    def ask_bytes(self, frames: Iterable[bytes]) -> Iterator[bytes]:
        raise NotImplementedError

    def ask(self, frame: bytes) -> Reply:
        """Sends a frame and waits for its reply."""
        return next(self.ask_all([frame]))

    def ask_all(self, frames: Iterable[bytes]) -> Iterator[Reply]:
        """Sends frames, many at once, and yields their replies in order."""
        for reply in self.ask_bytes(frames):
            yield from read_replies(reply)

    def tenant(self) -> Tenant:
        """The commands by their names, and maps as mappings."""
        return CustomersTenant(cast(Host, self), 0)


class Customer(Asking, Blocking[AsyncCustomer]):
    """Sends the calls of one customer (`AsyncCustomer`); only one thread may use it."""

    resume = waits(AsyncCustomer.resume)
    last = waits(AsyncCustomer.last)
    post = waits(AsyncCustomer.post)
    flush = waits(AsyncCustomer.flush)
    settle = waits(AsyncCustomer.settle)

    def __init__(self, aio: AsyncCustomer, loop: Loop) -> None:
        super().__init__(aio, loop)
        self.name, self.session = aio.name, aio.session

    @property
    def seconds(self) -> float:
        """For how long a call waits."""
        return self.aio.seconds

    @seconds.setter
    def seconds(self, seconds: float) -> None:
        self.aio.seconds = seconds

    def ask_bytes(self, frames: Iterable[bytes]) -> Iterator[bytes]:
        """Sends frames, many at once, and yields their replies in order, each as the bytes that the host wrote."""
        for call in in_parts(frames, len, LONGEST_CALL, MOST_FRAMES):
            yield from self.loop.run(self.aio.ask_call(b"".join(call)))

    def send(self, stream: bytes) -> Part:
        """Adds frames to others in one call (`AsyncCustomer.send`)."""
        return self.aio.gather(stream) or self.loop.run(self.aio.send(stream))

    def receive(self, part: Part, seconds: float | None = None) -> list[bytes]:
        """Waits for the replies to frames that were sent (`AsyncCustomer.receive`)."""
        if part.call.ticket and part.call.ticket.answered:
            return part.call.ticket.replies[part.first : part.end]
        return self.loop.run(self.aio.receive(part, seconds))

    def wait(self, ticket: Ticket, seconds: float | None = None) -> list[bytes]:
        """Waits for the replies to a call, one for each frame (`AsyncCustomer.wait_bytes`)."""
        return ticket.replies if ticket.answered else self.loop.run(self.aio.wait(ticket, seconds))


class CustomersTenant(Tenant):
    """A tenant whose host is one of the shards' hosts."""

    def prog_test_runs(self, descriptor: int, pieces: Iterable[Packets], context: Context = NO_CONTEXT) -> Iterator[tuple[int, ...]]:
        """Runs a program on many packets, and returns the results in order."""
        for piece in pieces:
            replies = self.host.ask_all(make.prog_test_run(0, descriptor, packet, context) for packet in piece)
            yield tuple(reply.result() for reply in replies if not reply.done())


move = waits(moving.move)
remove = waits(moving.remove)
abort_move = waits(moving.abort_move)
