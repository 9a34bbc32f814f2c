"""Work that a worker does in steps between two turns: a coroutine that pauses at `step`, and whose caller lets it go on."""

from __future__ import annotations

import types
from collections.abc import Generator
from typing import Any, TypeVar, cast

from bpfhost.shards.system import Work
from bpfhost.state import Steps

Done = TypeVar("Done")
_PAUSE = object()


@types.coroutine
def step() -> Generator[object, None, None]:
    """Pauses: the caller of `advance` goes on. Only for a coroutine that runs by `advance` or `at_once`."""
    yield _PAUSE


async def in_steps(steps: Steps[Done]) -> Done:
    """Does steps of a host, with a pause after each."""
    while True:
        try:
            next(steps)
        except StopIteration as end:
            return cast(Done, end.value)
        await step()


@types.coroutine
def advance(work: Work[Done]) -> Generator[Any, Any, tuple[Done] | None]:
    """Lets work go on to its next step, and waits meanwhile as the work does; returns its result if it has ended."""
    send, value = work.send, None
    while True:
        try:
            waits = send(value)
        except StopIteration as end:
            return (end.value,)
        if waits is _PAUSE:
            return None
        send = work.send
        try:
            value = yield waits
        except BaseException as error:
            send, value = work.throw, error


async def at_once(work: Work[Done]) -> Done:
    """Does all steps of work."""
    while (done := await advance(work)) is None:
        pass
    return done[0]
