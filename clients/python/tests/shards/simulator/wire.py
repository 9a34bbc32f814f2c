"""Connections between a customer and a gateway in the simulator: bytes come a little later, and wait while the other side does not read."""

from __future__ import annotations

import asyncio
from typing import Any

_HIGH, _LIMIT = 1 << 16, 1 << 16
_SECONDS = 0.0005


class End(asyncio.Transport):
    """One end of a connection: what is written to it is received at the other end."""

    def __init__(self, loop: asyncio.AbstractEventLoop) -> None:
        super().__init__()
        self._loop, self.reader = loop, asyncio.StreamReader(limit=_LIMIT, loop=loop)
        self._protocol = asyncio.StreamReaderProtocol(self.reader, loop=loop)
        self.writer = asyncio.StreamWriter(self, self._protocol, self.reader, loop)
        self.other: End = self
        self._sent, self._high = bytearray(), _HIGH
        self._is_paused = self._reads_not = self._ends = False
        self.is_closed = False

    def get_extra_info(self, name: str, default: Any = None) -> Any:
        return default

    # Sending.

    def set_write_buffer_limits(self, high: int | None = None, low: int | None = None) -> None:
        self._high = _HIGH if high is None else high

    def get_write_buffer_size(self) -> int:
        return len(self._sent)

    def write(self, data: Any) -> None:
        if self.is_closing():
            return
        self._sent += data
        if len(self._sent) > self._high and not self._is_paused:
            self._is_paused = True
            self._protocol.pause_writing()
        self._loop.call_later(_SECONDS, self._deliver)

    def can_write_eof(self) -> bool:
        return True

    def write_eof(self) -> None:
        self._ends = True
        self._loop.call_later(_SECONDS, self._deliver)

    def _deliver(self) -> None:
        """Gives the other end what was sent, if it reads."""
        if self.other._reads_not or self.other.is_closed:
            return
        if self._sent:
            data = bytes(self._sent)
            self._sent.clear()
            self.other._protocol.data_received(data)
        if self._is_paused:
            self._is_paused = False
            self._protocol.resume_writing()
        if self._ends and not self.other.reader.at_eof():
            self.other._protocol.eof_received()

    # Receiving.

    def pause_reading(self) -> None:
        self._reads_not = True

    def resume_reading(self) -> None:
        self._reads_not = False
        self._loop.call_later(_SECONDS, self.other._deliver)

    # The end.

    def is_closing(self) -> bool:
        return self.is_closed or self._ends

    def close(self) -> None:
        self.abort()

    def abort(self) -> None:
        if self.is_closed:
            return
        self.is_closed = True
        self._sent.clear()
        self._loop.call_soon(self._protocol.connection_lost, None)
        if not self.other.is_closed:
            self._loop.call_later(_SECONDS, self.other._lost)

    def _lost(self) -> None:
        if not self.is_closed:
            self.is_closed = True
            self._sent.clear()
            self._protocol.connection_lost(ConnectionResetError("the other end has closed it"))


def connected(loop: asyncio.AbstractEventLoop) -> tuple[End, End]:
    """The two ends of a new connection."""
    ends = End(loop), End(loop)
    for one, other in (ends, ends[::-1]):
        one.other = other
        one._protocol.connection_made(one)
    return ends
