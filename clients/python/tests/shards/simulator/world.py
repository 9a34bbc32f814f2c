"""A world with one clock and one event loop, on which all processes run; only a seed decides what they do.

A process is the tasks that it has begun. It can be killed: then nothing of it runs any more; or paused, for a while.
"""

from __future__ import annotations

import asyncio
import collections
import contextvars
import heapq
import random
from collections.abc import Callable, Coroutine
from typing import Any

# The process that runs.
_RUNS: contextvars.ContextVar[Process | None] = contextvars.ContextVar("process", default=None)


class Process:
    """Tasks that are killed and paused together."""

    def __init__(self, name: str) -> None:
        self.name = name
        self.is_killed = False
        self.paused_until = 0.0


# The context of no process.
_NOBODY = contextvars.Context()


class Loop(asyncio.BaseEventLoop):
    """An event loop without files, whose clock is the world's: it goes on when nothing is left to do."""

    # What is to be done now, and later; and how much of that was cancelled.
    _ready: collections.deque[Any]
    _scheduled: list[Any]
    _timer_cancelled_count: int
    _stopping: bool

    def __init__(self) -> None:
        super().__init__()
        self.now = 0.0
        # What killed processes would have done next.
        self.left: list[Any] = []

    def time(self) -> float:
        return self.now

    def _write_to_self(self) -> None:
        """Nobody calls from another thread."""

    def call_soon(self, callback: Any, *args: Any, context: contextvars.Context | None = None) -> asyncio.Handle:
        handle = asyncio.Handle(callback, args, self, context)
        self._ready.append(handle)
        return handle

    def call_at(self, when: float, callback: Any, *args: Any, context: contextvars.Context | None = None) -> asyncio.TimerHandle:
        handle = asyncio.TimerHandle(when, callback, args, self, context)
        heapq.heappush(self._scheduled, handle)
        # The library counts what is cancelled of this.
        handle._scheduled = True  # type: ignore[attr-defined]
        return handle

    def _run_once(self) -> None:
        """Does what is to be done now, in the order of the library's loops. If that is nothing, the clock goes on to the next time."""
        ready, timers = self._ready, self._scheduled
        # Of what comes at the same time, the heap decides what is first, and it is made anew as often as by the library.
        if len(timers) > 100 and self._timer_cancelled_count / len(timers) > 0.5:
            timers = self._scheduled = [one for one in timers if not one._cancelled]
            heapq.heapify(timers)
            self._timer_cancelled_count = 0
        while timers and timers[0]._cancelled:
            heapq.heappop(timers)
            self._timer_cancelled_count -= 1
        if not ready and not self._stopping:
            if not timers:
                raise RuntimeError("the world waits for ever")
            self.now += max(0.0, timers[0]._when - self.now)
        # A time that comes later by less than this comes at the same time.
        end = self.now + 1e-9
        while timers and timers[0]._when < end:
            handle = heapq.heappop(timers)
            handle._scheduled = False
            ready.append(handle)
        for _ in range(len(ready)):
            self._do(ready.popleft())

    def _do(self, handle: Any) -> None:
        """Does what is next, unless its process is killed or paused."""
        process = handle._context.get(_RUNS)
        if handle._cancelled:
            return
        if process and process.is_killed:
            self.left.append(handle)
        elif process and self.now < process.paused_until:
            self.call_at(process.paused_until, self._do, handle, context=_NOBODY)
        else:
            handle._run()


class World:
    """The clock, the loop and the processes."""

    def __init__(self, seed: int | str) -> None:
        self.draw, self.loop = random.Random(seed), Loop()
        self._tasks: set[asyncio.Task[None]] = set()
        self._processes: set[Process] = set()
        self._error: BaseException | None = None
        self._named = 0
        # The events, by their times.
        self.told: list[str] = []
        # What a task does not end with is an error of the test, which `run` raises.
        self.loop.set_exception_handler(lambda _loop, said: self._fail(said.get("exception") or RuntimeError(said["message"])))

    @property
    def now(self) -> float:
        """The time."""
        return self.loop.now

    def tell(self, sentence: str) -> None:
        """Notes an event."""
        self.told.append(f"{self.now:10.3f} {sentence}")

    def fresh(self) -> str:
        """A name that was never returned before."""
        self._named += 1
        return f"{self._named:08x}"

    def _fail(self, error: BaseException) -> None:
        self._error = self._error or error

    def start(self, process: Process, work: Coroutine[Any, Any, None]) -> asyncio.Task[None]:
        """Begins work of a process. Its error is one of the test."""
        self._processes.add(process)
        context = contextvars.copy_context()
        context.run(_RUNS.set, process)
        task = self.loop.create_task(work, context=context)
        self._tasks.add(task)
        task.add_done_callback(self._ended, context=contextvars.copy_context())
        return task

    def _ended(self, task: asyncio.Task[None]) -> None:
        self._tasks.discard(task)
        if not task.cancelled() and (error := task.exception()):
            self._fail(error)

    def later(self, seconds: float, run: Callable[[], object]) -> None:
        """Does something after so many seconds, whatever becomes of the process that runs."""
        context = contextvars.copy_context()
        context.run(_RUNS.set, None)
        self.loop.call_later(seconds, run, context=context)

    def has_ended(self, process: Process, task: asyncio.Task[None]) -> bool:
        """Whether work has ended, or its process was killed."""
        return task.done() or process.is_killed

    def run(self, until: float) -> None:
        """Lets all run up to a time; an unexpected error is raised here."""

        async def wait() -> None:
            while self.now < until and self._error is None:
                await asyncio.sleep(min(0.05, until - self.now))

        self.loop.run_until_complete(wait())
        if self._error is not None:
            raise self._error

    def kill(self, process: Process) -> None:
        """Kills a process: nothing of it runs any more."""
        process.is_killed = True

    def end(self) -> None:
        """Ends all: what killed processes have left ends too, now that nobody looks at it."""
        self.loop.set_exception_handler(lambda _loop, _said: None)
        tasks = asyncio.all_tasks(self.loop)
        for task in tasks:
            task.cancel()
        for handle in self.loop.left:
            handle._context.run(_RUNS.set, None)
            self.loop._ready.append(handle)
        for process in self._processes:
            process.is_killed, process.paused_until = False, 0.0
        if tasks:
            self.loop.run_until_complete(asyncio.wait(tasks, timeout=1000.0))
        self.loop.close()
