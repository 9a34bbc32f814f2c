"""An event loop that asks the system for what has come less often: not between the steps of what is already there."""

from __future__ import annotations

import asyncio
import select
import selectors
from typing import Any

# It asks at least after so many rounds of callbacks.
_MOST_ROUNDS = 8


class _Selector(selectors.EpollSelector):
    """A selector that does not ask the system while the loop has something to do, but for each eighth time."""

    rounds = 0

    def select(self, timeout: float | None = None) -> list[tuple[selectors.SelectorKey, int]]:
        if timeout is not None and timeout <= 0 and self.rounds < _MOST_ROUNDS:
            self.rounds += 1
            return []
        self.rounds = 0
        return super().select(timeout)

    def reader(self: Any, timeout: float | None) -> Any:
        """What reads from a connection, if something comes on it within so many seconds, and nothing else comes; or None."""
        # These names, and those that the loop uses, are not public in the library.
        found = self._selector.poll(timeout, 2)
        return self._fd_to_key[found[0][0]].data[0] if len(found) == 1 and found[0][1] == select.EPOLLIN else None


class RoundsLoop(asyncio.SelectorEventLoop):
    """Such a loop: a call of Redis takes four rounds, and now one question to the system in place of four.

    A caller that needs only one result runs it round by round: `run_forever` would need a further round to end.
    """

    def __init__(self) -> None:
        super().__init__(_Selector())

    def run_round(self: Any) -> None:
        """One round: waits until there is something to do, and does it. If only one connection has something, it is read at once."""
        wait = self._scheduled[0].when() - self.time() if self._scheduled else None
        if not self._ready and (wait is None or wait > 0) and (reader := self._selector.reader(wait)):
            reader._run()
        else:
            self._run_once()
