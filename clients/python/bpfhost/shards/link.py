"""A connection to a Redis, of the library redis (of Debian: python3-redis). hiredis parses the replies (python3-hiredis)."""

from __future__ import annotations

import asyncio
import functools
import math
import re
import socket
from collections.abc import Callable, Iterable, Sequence
from typing import Any, cast

from bpfhost.optional import optional_module
from bpfhost.shards.errors import Away, Moved, NoScript, NotAllowed, OutOfMemory, RedisError

# An argument of a Redis command: bytes, a text or a number.
Word = object

# A read of the system allocates nothing: for the 256 KiB that asyncio asks for by itself it would map memory each time.
_SECONDS_TO_CONNECT, _READ_AT_ONCE = 5.0, 1 << 16
# A connection over a network that is gone ends by itself: if probes, or what was sent, are not acknowledged for some seconds. The types of
# the standard library do not know all of the names.
_OF_SOCKET = {"SO_KEEPALIVE": 1, "TCP_KEEPIDLE": 4, "TCP_KEEPINTVL": 2, "TCP_KEEPCNT": 3, "TCP_USER_TIMEOUT": 10_000}
_SILENT = "it does not answer in time"
# What Redis's errors begin with, and what is raised. With those of the second kind a server, or its cluster, can't run a command now, and
# has run nothing of it.
_ERRORS: tuple[tuple[str, type[RedisError], str], ...] = (
    ("NOSCRIPT", NoScript, "Redis does not have the script yet"),
    ("MOVED ", Moved, "another node of the cluster has the slot: {rest}"),
    (r"(NOREPLICAS|UNBLOCKED|CLUSTERDOWN|MASTERDOWN|TRYAGAIN|ASK|LOADING|READONLY)\b", Away, "Redis can't do it just now: {said}"),
    ("NOAUTH|WRONGPASS|.* .*AUTH", RedisError, "Redis does not know this user, or not by this password: {rest}"),
    ("NOPERM|.*user executing the script can't", NotAllowed, "Redis refuses a command or a script to this user: {said}"),
    (".*user_script:1: unexpected symbol near '#'", RedisError, "Redis is older than version 7.0, and knows no flags of scripts: {said}"),
    (".*OOM|.*allow-oom", OutOfMemory, "Redis has no memory: {said}"),
    ("", RedisError, "Redis refuses a command: {said}"),
)


def _error(said: str) -> RedisError:
    """An error that Redis replies."""
    kind, sentence = next((kind, sentence) for begins, kind, sentence in _ERRORS if re.match(begins, said))
    return kind(sentence.format(said=said.removeprefix("ERR "), rest=said.partition(" ")[2]))


def packed(words: Sequence[Word]) -> bytes:
    """A command as the server reads it. A worker's command names many streams, for which the library's own encoder takes four times as long."""
    # What is mostly sent again: the name of a script with its keys, and all of XREAD except the ids.
    same = 3 + words[2] if words[0] == "EVALSHA" else 3 + len(words) // 2 if words[0] == "XREAD" else 0  # type: ignore[operator]
    return b"".join([b"*%d\r\n" % len(words), _kept(tuple(words[:same])), _joined(words[same:])])


def _joined(words: Sequence[Word]) -> bytes:
    return b"".join([b"$%d\r\n%b\r\n" % (len(word), word) if isinstance(word, bytes) else _part(word) for word in words])


_kept = functools.lru_cache(512)(_joined)


@functools.lru_cache(4096)
def _part(word: Word) -> bytes:
    """A text or a whole number as the server reads it: both are sent again and again."""
    return _joined([str(word).encode()])


class RedisLink(asyncio.BufferedProtocol):
    """What a class of connections of the library is mixed with: bytes go straight to hiredis, and each reply to who waits for it, in order.

    It connects at once. After its end it is over, and another one has to be made.
    """

    transport: asyncio.Transport | None = None
    # When the first reply is due, as far as it is looked at then.
    _timer: asyncio.TimerHandle | None = None
    _due = math.inf
    # Whether it has ended; whether the history that its server reports was looked at (`cluster`).
    is_over = is_checked = False

    def __init__(self, **words: Any) -> None:
        """The arguments are those of the library's class."""
        super().__init__(**words)
        self._replies = optional_module("hiredis").Reader(protocolError=RedisError, replyError=_error)
        self._read = memoryview(bytearray(_READ_AT_ONCE))
        # Who waits, and until when.
        self._waiting: list[tuple[asyncio.Future[Any], float]] = []
        # What is written before the library has logged in is sent then.
        self._unsent: list[bytes] = []
        self._write: Callable[[bytes], object] = self._unsent.append
        self._loop = asyncio.get_running_loop()
        self._opening = asyncio.create_task(self._log_in())

    def begin(self, words: Sequence[Word], seconds: float) -> asyncio.Future[Any]:
        """Sends a command. Its reply comes within so many seconds, or the connection ends, and so no reply comes for another command."""
        reply, until = self._loop.create_future(), self._loop.time() + seconds
        self._waiting.append((reply, until))
        self._write(packed(words))
        if until < self._due:
            self._look()
        return reply

    async def _log_in(self: Any) -> None:
        try:
            async with asyncio.timeout(_SECONDS_TO_CONNECT):
                if path := getattr(self, "path", None):
                    self.transport, _ = await self._loop.create_unix_connection(lambda: self, path)
                else:
                    tls = self.ssl_context and self.ssl_context.get()
                    self.transport, _ = await self._loop.create_connection(lambda: self, self.host, self.port, ssl=tls)
                    for name, value in _OF_SOCKET.items():
                        level = socket.IPPROTO_TCP if name.startswith("TCP") else socket.SOL_SOCKET
                        self.transport.get_extra_info("socket").setsockopt(level, getattr(socket, name), value)
                await self.on_connect()
            self._write = self.transport.write
            self._write(b"".join(self._unsent))
        except Exception as error:
            self.cut(error)

    async def send_packed_command(self, command: Iterable[bytes], **_options: object) -> None:
        """Sends what the library sends to log in."""
        cast(asyncio.Transport, self.transport).write(b"".join(command))

    async def read_response(self, **_options: object) -> Any:
        """The reply to that, which comes before all others."""
        reply = self._loop.create_future()
        self._waiting.insert(0, (reply, math.inf))
        return await reply

    def _look(self) -> None:
        """Ends the connection if a reply is overdue, and looks again when the next one is."""
        if self._timer:
            self._timer.cancel()
        self._due = due = min((until for reply, until in self._waiting if not reply.done()), default=math.inf)
        self._timer = self._loop.call_at(due, self._look) if due < math.inf else None
        if due <= self._loop.time():
            self.cut(TimeoutError())

    def cut(self, error: Exception = OSError("the connection was cut")) -> None:
        """Ends the connection: no more replies come to what was sent."""
        self.is_over = True
        self._opening.cancel()
        if self.transport:
            self.transport.abort()
        for reply, _ in self._waiting:
            if not reply.done():
                reply.set_exception(error if isinstance(error, RedisError) else Away(f"Redis can't be reached: {str(error) or _SILENT}"))
                # Perhaps nobody waits any more.
                reply.exception()

    # What the event loop calls.

    def get_buffer(self, sizehint: int) -> memoryview:
        # With TLS, asyncio fills parts of it one after another: a part of a bytearray would be a copy.
        return self._read

    def buffer_updated(self, nbytes: int) -> None:
        try:
            self._replies.feed(self._read, 0, nbytes)
            while (reply := self._replies.gets()) is not False:
                waits, _ = self._waiting.pop(0)
                if not waits.done():
                    (waits.set_exception if isinstance(reply, RedisError) else waits.set_result)(reply)
        except (RedisError, IndexError):
            self.cut(OSError("what answers is no Redis"))

    def connection_lost(self, error: Exception | None) -> None:
        self.cut(error or OSError("the connection was ended"))
