"""A customer that connects by gateways: it sends frames to a gateway, which returns the replies.

If a connection breaks, or its gateway ends, the next connection continues: its gateway reports how many frames were taken and sends the
missing replies, and the customer sends the frames again that were not taken. So each frame is done once. This module needs no package.
"""

from __future__ import annotations

import collections
import contextlib
import socket
import ssl
import time
import uuid
from collections.abc import Iterable, Iterator, Sequence
from dataclasses import dataclass, field
from pathlib import Path
from typing import Any

from bpfhost.shards.calls import LONGEST_CALL, MOST_FRAMES, whole_frames
from bpfhost.shards.blocking import Asking
from bpfhost.shards.client import NAMELESS, SECONDS
from bpfhost.shards.errors import NoReply, NotDone, ReplyGone, SessionPassed, SetAside, ShardError
from bpfhost.shards.gateway.protocol import GATEWAY, Why, Word, ack, hello, read_told
from bpfhost.parts import in_parts

_READ_AT_ONCE = 1 << 18
_PAUSE, _LONGEST_PAUSE, _SECONDS_TO_CONNECT = 0.02, 0.5, 5.0
# Reasons for the end of a connection after which the next one continues.
_AGAIN = (Why.AGAIN, Why.ENDS, Why.SLOW, Why.BEHIND)
_ERRORS = {Why.ASIDE: SetAside, Why.GONE: ReplyGone, Why.NOT_DONE: NotDone, Why.PASSED: SessionPassed}


class GatewayRefuses(ShardError):
    """A gateway refuses the customer, or what it sends."""


@dataclass(frozen=True)
class CustomerTls:
    """The certificates that the customer trusts, as a file or the system's; and its own certificate and key, if it has one."""

    authority: Path | None = None
    certificate: Path | None = None
    key: Path | None = None

    def context(self) -> ssl.SSLContext:
        """The context for TLS."""
        context = ssl.create_default_context(cafile=self.authority)
        if self.certificate:
            context.load_cert_chain(self.certificate, self.key)
        return context


@dataclass
class Posted:
    """Frames that were sent together, and their replies so far; or the reason why there are none."""

    frames: list[bytes]
    replies: list[bytes] = field(default_factory=list)
    error: ShardError | None = None

    def is_answered(self) -> bool:
        """Whether all replies have come."""
        return len(self.replies) == len(self.frames)


class _Broken(Exception):
    """The connection has ended; the text is the reason."""


class GatewayCustomer(Asking, contextlib.AbstractContextManager["GatewayCustomer"]):
    """Sends the calls of one customer; only one thread may use it. It is a context manager, which closes its connection."""

    def __init__(
        self, addresses: Sequence[str], token: str | None = None, session: str | None = None, tls: CustomerTls | None = None,
        seconds: float = SECONDS,
    ) -> None:
        """Gateways, as `host:port` or `unix:PATH`, one of which is used.

        With `tls`, connections use TLS, except on a Unix socket. The next process can continue a session that has a name (`resume`).
        """
        if not addresses or session is not None and (not session or session.startswith(NAMELESS)):
            raise ValueError("a customer knows a gateway, and a session's name is not empty")
        self._addresses, self._token, self.seconds = list(addresses), token, seconds
        self._session = session or NAMELESS + uuid.uuid4().hex
        self._tls = tls.context() if tls else None
        self._socket: socket.socket | None = None
        self._came = bytearray()
        # How many frames were taken, and how many have replies; what was posted and has no replies yet, and how many of its frames were
        # sent.
        self.taken = self._answered = self._acked = 0
        self._open: collections.deque[Posted] = collections.deque()
        self._unanswered = self._size = 0
        self._out = bytearray()

    def __exit__(self, *_error: object) -> None:
        self.close()

    def close(self) -> None:
        """Ends the connection."""
        if self._socket:
            self._socket.close()
        self._socket = None

    # As a host is asked.

    def ask_bytes(self, frames: Iterable[bytes]) -> Iterator[bytes]:
        """Sends frames, many at once, and yields their replies in order, each as the bytes that the host wrote."""
        before: Posted | None = None
        for part in in_parts(frames, len, LONGEST_CALL // 2, MOST_FRAMES // 2):
            posted = self.post(b"".join(part))
            if before:
                yield from self.wait(before)
            before = posted
        if before:
            yield from self.wait(before)

    # Many at once.

    def resume(self, answered: int = 0) -> int:
        """Continues a session of which this process has so many replies from before; returns how many of its frames were taken.

        The frames that are posted next follow these. The missing replies come first; `missing` returns them.
        """
        self._answered = self._acked = answered
        self._connected(time.monotonic() + self.seconds)
        return self.taken

    def missing(self) -> list[bytes]:
        """After `resume`, the replies to frames that were taken and have none yet."""
        posted = Posted([b""] * (self.taken - self._answered))
        self._note(posted)
        return self.wait(posted)

    def post(self, stream: bytes) -> Posted:
        """Sends frames, without waiting for their replies unless more frames would be in progress than a gateway holds."""
        posted = Posted(whole_frames(stream))
        deadline = time.monotonic() + self.seconds
        while self._open and (self._unanswered + len(posted.frames) > MOST_FRAMES or self._size + len(stream) > LONGEST_CALL):
            self._receive(deadline)
        self._connected(deadline)
        self._note(posted)
        self._out += stream
        with contextlib.suppress(_Broken):
            self._flush()
        return posted

    def wait(self, posted: Posted) -> list[bytes]:
        """Waits for the replies to frames.

        Raises NoReply if none come in time: then it can be called again. Raises SetAside if an operator has to decide, and NotDone or
        ReplyGone if there will be no replies.
        """
        deadline = time.monotonic() + self.seconds
        while not posted.is_answered():
            self._receive(deadline)
        if posted.error:
            raise posted.error
        return posted.replies

    def _note(self, posted: Posted) -> None:
        if posted.frames:
            self._open.append(posted)
            self._unanswered += len(posted.frames)
            self._size += sum(map(len, posted.frames))

    # A connection.

    def _connected(self, deadline: float) -> None:
        """Makes a connection if there is none, and continues the session on it."""
        pause, why = _PAUSE, "no gateway answers"
        while self._socket is None:
            try:
                self._connect(deadline)
                return
            except (_Broken, OSError) as error:
                why = str(error)
                self.close()
            self._addresses.append(self._addresses.pop(0))
            if time.monotonic() + pause > deadline:
                raise NoReply(f"a customer can't go on: {why}")
            time.sleep(pause)
            pause = min(2 * pause, _LONGEST_PAUSE)

    def _connect(self, deadline: float) -> None:
        address = self._addresses[0]
        seconds = min(_SECONDS_TO_CONNECT, max(0.1, deadline - time.monotonic()))
        if address.startswith("unix:"):
            made = socket.socket(socket.AF_UNIX, socket.SOCK_STREAM)
            made.settimeout(seconds)
            self._socket = made
            made.connect(address[len("unix:") :])
        else:
            host, _, port = address.rpartition(":")
            self._socket = made = socket.create_connection((host.strip("[]"), int(port)), seconds)
            made.setsockopt(socket.IPPROTO_TCP, socket.TCP_NODELAY, 1)
            if self._tls:
                self._socket = self._tls.wrap_socket(made, server_hostname=host.strip("[]"))
        self._came.clear()
        self._out = bytearray(hello(self._token, self._session, self._answered))
        self._flush()
        told = self._told(self._read_frame(deadline))
        self.taken, self._acked = int(told["taken"]), self._answered
        # What was not taken is sent again.
        sent = [frame for posted in self._open for frame in posted.frames[len(posted.replies) :]]
        self._out += b"".join(sent[self.taken - self._answered :])
        self._flush()

    def _flush(self) -> None:
        """Sends what has to be sent; raises _Broken if it can't be sent."""
        if self._socket is None or not self._out:
            return
        # What was not sent is sent anew on the next connection.
        out, self._out = self._out, bytearray()
        try:
            self._socket.sendall(out)
        except OSError as error:
            self.close()
            raise _Broken(f"a gateway can't be reached: {error}") from None

    def _read_frame(self, deadline: float) -> bytes:
        """The next frame of the gateway; raises _Broken if none comes."""
        assert self._socket
        while (size := _whole(self._came)) is None:
            self._socket.settimeout(max(0.01, min(deadline - time.monotonic(), self.seconds)))
            try:
                data = self._socket.recv(_READ_AT_ONCE)
            except OSError as error:
                raise _Broken(f"a gateway does not answer: {error}") from None
            if not data:
                raise _Broken("a gateway has ended the connection")
            self._came += data
        frame = bytes(self._came[:size])
        del self._came[:size]
        return frame

    def _told(self, frame: bytes) -> Any:
        """The gateway's own message; raises _Broken if the next connection can continue, and the error otherwise."""
        word, why, told = read_told(frame)
        if word == Word.HELLO:
            return told
        if word == Word.NO_REPLIES:
            error = _ERRORS.get(why, NotDone)(str(told["why"]))  # type: ignore[arg-type]
            for _ in range(int(told["frames"])):
                self._answer(b"", error)
            return told
        self.close()
        if why in _AGAIN:
            raise _Broken(str(told["why"]))
        raise (_ERRORS.get(why) or GatewayRefuses)(str(told["why"]))  # type: ignore[arg-type]

    # Replies.

    def _receive(self, deadline: float) -> None:
        """Takes what comes, at least one reply; if the connection breaks, continues with the next one."""
        self._connected(deadline)
        try:
            if self._answered > self._acked and not self._came:
                self._out += ack(self._answered)
                self._acked = self._answered
            self._flush()
            while True:
                frame = self._read_frame(deadline)
                if frame[4] | frame[5] << 8 == GATEWAY:
                    self._told(frame)
                else:
                    self._answer(frame, None)
                if _whole(self._came) is None:
                    return
        except _Broken as broken:
            self.close()
            if time.monotonic() > deadline:
                raise NoReply(f"a customer waits for a reply: {broken}") from None

    def _answer(self, reply: bytes, error: ShardError | None) -> None:
        posted = self._open[0]
        self._size -= len(posted.frames[len(posted.replies)])
        posted.replies.append(reply)
        posted.error = posted.error or error
        self._answered += 1
        self._unanswered -= 1
        if posted.is_answered():
            self._open.popleft()


def _whole(held: bytearray) -> int | None:
    """The length of the first frame, if it is whole."""
    size = 4 + int.from_bytes(held[:4], "little") if len(held) >= 4 else 0
    return size if size and len(held) >= size else None
