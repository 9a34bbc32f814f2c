"""Handles Ctrl-C as a request to stop: the current step is finished, and no further step begins."""

from __future__ import annotations

import signal
import threading
from collections.abc import Iterator
from types import FrameType, TracebackType
from typing import TypeVar

Item = TypeVar("Item")

_SIGNALS = (signal.SIGINT, signal.SIGTERM)


class Stopping:
    """Takes SIGINT and SIGTERM while it is entered, in the main thread; a second one ends the process as usual."""

    def __init__(self) -> None:
        # The signal that asked to stop.
        self.signal: int | None = None
        self._waits = False
        self._before: dict[int, object] = {}

    def __enter__(self) -> Stopping:
        if threading.current_thread() is threading.main_thread():
            self._before = {number: signal.signal(number, self._asked) for number in _SIGNALS}
        return self

    def __exit__(self, _kind: type[BaseException] | None, _error: BaseException | None, _trace: TracebackType | None) -> None:
        for number, handler in self._before.items():
            signal.signal(number, handler)  # type: ignore[arg-type]

    def _asked(self, number: int, _frame: FrameType | None) -> None:
        if self.signal is not None:
            raise KeyboardInterrupt
        self.signal = number
        if self._waits:
            raise KeyboardInterrupt

    def items(self, items: Iterator[Item]) -> Iterator[Item]:
        """The items, up to the end or up to a request to stop, also one that comes while the next item is waited for."""
        while self.signal is None:
            self._waits = True
            try:
                item = next(items)
            except StopIteration:
                return
            except KeyboardInterrupt:
                if self.signal is None:
                    raise
                return
            finally:
                self._waits = False
            yield item
