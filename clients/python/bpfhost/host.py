"""A running `bpfhost serve`: sends frames and reads replies, one at a time or many at once."""

from __future__ import annotations

import threading
from collections import deque
from collections.abc import Callable, Iterable, Iterator
from dataclasses import dataclass
from types import TracebackType
from typing import TypeVar, cast

from bpfhost.errors import HostError, ReplyError
from bpfhost.moving import MOST_TO_READ, Ledger, made_anew
from bpfhost.numbers import MOST_FRAMES, MOST_TENANTS, REPLY_HEAD, Command
from bpfhost.program import Program, find_program
from bpfhost.replies import Reply
from bpfhost.stream import LONGEST_REPLY, READ_AT_ONCE, SENT_AT_ONCE, Stream
from bpfhost.tenant import Tenant

__all__ = ["LONGEST_REPLY", "READ_AT_ONCE", "Host"]

Batch = TypeVar("Batch")
Answer = TypeVar("Answer")


@dataclass(eq=False)
class _Turn:
    """A batch of frames that was sent: the function that reads its replies, and its result once they are read."""

    receive: Callable[[], object]
    answer: object = None
    error: Exception | None = None
    is_read: bool = False


class Host:
    """A running `bpfhost serve`, as a context manager that ends the program on exit.

    Threads may share a host, its tenants, their maps and programs: each caller gets the replies to its own frames. A call that takes
    several frames, as `Map.entries`, may see what other threads did between two of them. An iterator belongs to one thread.

    One run of the program takes 16,777,216 frames. Before they are used up, the tenants move to a new run, with the same maps and programs
    under the same descriptors. That is not possible while a program keeps a map whose descriptor is closed: then the first frame over the
    limit raises HostError, and `frames_left` returns how many are left.

    A HostError is raised if the program does not start, exits before it has replied, or exits with a status other than 0; its text has what
    the program wrote to standard error. A ReplyError is raised for bytes that are not a reply. After either, the host can't be used.
    """

    # How many frames one run of the program takes; the tests set a lower number.
    most_frames = MOST_FRAMES

    def __init__(self, program: Program | None = None, tenants: int = 1) -> None:
        """Starts the program for 1 to 64 tenants; without a path, `find_program` finds it."""
        if not 1 <= tenants <= MOST_TENANTS:
            raise ValueError(f"a host serves 1 to {MOST_TENANTS} tenants, not {tenants}")
        self.program = find_program(program)
        self.tenants = tenants
        self._lock = threading.RLock()
        self._stream = Stream(self.program, tenants)
        self._turns: deque[_Turn] = deque()
        self._ledger = Ledger(tenants)
        self._sent = 0
        self._wide = 0
        self._seconds = 0.0
        self._has_room(self._stream.room())

    def _has_room(self, room: int) -> None:
        # The most bytes of replies that may wait unread.
        self.room = room
        # The most batches that may wait for their replies while one more is sent.
        self._ahead = 1 if room // 2 >= LONGEST_REPLY else 0

    def __enter__(self) -> Host:
        return self

    def __exit__(self, kind: type[BaseException] | None, _value: BaseException | None, _trace: TracebackType | None) -> None:
        if kind is None:
            self.close()
        else:
            self.kill()

    def __repr__(self) -> str:
        state = "closed" if self._stream.is_closed else f"{self._sent:,} frames sent"
        return f"<Host {self.program}, {self.tenants} tenant{'s' if self.tenants > 1 else ''}, {state}>"

    def tenant(self, number: int = 0) -> Tenant:
        """The tenant of this number. Raises ValueError if the host does not serve it."""
        if not 0 <= number < self.tenants:
            raise ValueError(f"tenant {number} is not served: this host has the tenants 0 to {self.tenants - 1}")
        return Tenant(self, number)

    def ask(self, frame: bytes) -> Reply:
        """Sends a whole frame and waits for its reply."""
        return self.ended(self.begun(self._send_all, self._replies_to, [_whole(frame)]))[0]

    def ask_all(self, frames: Iterable[bytes]) -> Iterator[Reply]:
        """Sends many whole frames at once and yields their replies in order.

        Frames are taken from the iterable some time before their replies are yielded.
        """
        for replies in self.pipelined(self._send_all, self._replies_to, _batches(frames, self.room // 2)):
            yield from replies

    def ask_bytes(self, frames: Iterable[bytes]) -> Iterator[bytes]:
        """The same as `ask_all`, but yields each reply as the bytes that the host wrote."""
        for replies in self.pipelined(self._send_all, self._bytes_of_replies, _batches(frames, self.room // 2)):
            yield from replies

    def widen(self, size: int = 1 << 20) -> None:
        """Allows more bytes of replies to wait unread, if the system permits it, so that more frames are sent at once."""
        with self._lock:
            self._wide = size
            self._stream.widen(size)
            self._has_room(self._stream.room())

    @property
    def frames_left(self) -> int:
        """How many frames this run of the program still takes; no limit applies while the tenants can move to a new run."""
        return max(0, self.most_frames - self._sent)

    def processor_time(self) -> float:
        """The seconds of processor time that the program has used for all frames so far, or 0 if the system does not have that number."""
        return self._seconds + self._stream.processor_time()

    def pipelined(
        self, send: Callable[[Batch], None], receive: Callable[[Batch], Answer], batches: Iterable[Batch]
    ) -> Iterator[Answer]:
        """Sends each batch before it reads the replies to the batch before.

        The replies to a batch have at most `room // 2` bytes, unless it is a single frame. If a reply is a refusal, a batch can't be made,
        or the caller stops iterating, the next caller first reads all replies that are still due, and so gets the reply to its own frame.
        """
        mine: deque[_Turn] = deque()
        for batch in batches:
            mine.append(self._begin(send, receive, batch))
            if len(mine) > self._ahead:
                yield cast(Answer, self._end(mine.popleft()))
        while mine:
            yield cast(Answer, self._end(mine.popleft()))

    def begun(self, send: Callable[[Batch], None], receive: Callable[[Batch], Answer], batch: Batch) -> Callable[[], Answer]:
        """Sends one batch and returns the object that waits for its replies."""
        turn = self._begin(send, receive, batch)
        return lambda: cast(Answer, self._end(turn))

    @staticmethod
    def ended(answer: Callable[[], Answer]) -> Answer:
        """Waits for the result of what `begun` returned."""
        return answer()

    def _begin(self, send: Callable[[Batch], None], receive: Callable[[Batch], object], batch: Batch) -> _Turn:
        with self._lock:
            while len(self._turns) > self._ahead:
                self._read_turn()
            turn = _Turn(lambda: receive(batch))
            send(batch)
            self._turns.append(turn)
            return turn

    def _end(self, turn: _Turn) -> object:
        with self._lock:
            while not turn.is_read:
                self._read_turn()
        if turn.error is not None:
            raise turn.error
        return turn.answer

    def _read_turn(self) -> None:
        """Reads the replies to the oldest batch, for the thread that sent it."""
        turn = self._turns.popleft()
        try:
            turn.answer = turn.receive()
        except ReplyError as error:
            turn.error = error
            self._stream.tear()
        except Exception as error:
            turn.error = error
        except BaseException:
            self._stream.tear()
            raise
        finally:
            turn.is_read = True

    def _settle(self) -> None:
        """Reads all replies that are still due."""
        while self._turns:
            self._read_turn()

    def send(self, frames: bytes | bytearray | memoryview, many: int) -> None:
        """Sends the bytes of so many frames, which open and close nothing; the caller reads the replies, as in `pipelined`."""
        self._take_room(many)
        self._stream.send(frames)

    def _take_room(self, many: int) -> None:
        """Counts frames before they are sent, and moves to a new run of the program if this one has no room for them."""
        left = self.most_frames - self._sent - many
        if left < self.tenants * MOST_TO_READ and left < self._ledger.reserve():
            self._settle()
            self._stream.demand_open()
            unreadable = self._ledger.unreadable()
            if unreadable is None:
                self._move()
            elif left < 0:
                taken = f"bpfhost takes {self.most_frames:,} frames in one run, and was sent {self._sent:,}"
                raise HostError(f"{taken}; it can't move to a new run, as {unreadable}: close that program first")
        self._sent += many

    def _move(self) -> None:
        """Moves all tenants to a new run of the program, with all that they had."""
        old, read = self._stream, self._ledger.read(self._ask_uncounted)
        self._seconds += old.processor_time()
        self._stream = Stream(self.program, self.tenants)
        old.close()
        if self._wide:
            self._stream.widen(self._wide)
        if self._stream.room() < self.room:
            raise HostError("the system gives a new run of bpfhost a smaller pipe than the one before it had")
        self._sent = made_anew(read, self._ask_uncounted)

    def _ask_uncounted(self, frames: Iterable[bytes]) -> Iterator[bytes]:
        for batch in _batches(frames, self.room // 2):
            self._stream.send(b"".join(batch))
            yield from self._stream.read_many(len(batch))

    def read(self, most: int) -> bytes:
        """Waits for bytes of replies and reads those that are there, up to a number. Raises HostError if the host has ended."""
        return self._stream.read(most)

    def unread(self, replies: bytes) -> None:
        """Puts back bytes of replies that were read too early; they are read next."""
        self._stream.unread(replies)

    def read_many(self, count: int) -> list[bytes]:
        """Waits for so many replies, as bytes."""
        return self._stream.read_many(count)

    def read_reply(self) -> Reply:
        """Waits for a reply."""
        return self._stream.read_reply()

    def _send_all(self, frames: list[bytes]) -> None:
        self.send(b"".join(frames), len(frames))

    def _replies_to(self, frames: list[bytes]) -> list[Reply]:
        replies = [self._stream.read_reply() for _ in frames]
        for frame, reply in zip(frames, replies):
            self._ledger.note(frame, reply.status)
        return replies

    def _bytes_of_replies(self, frames: list[bytes]) -> list[bytes]:
        replies = self.read_many(len(frames))
        self._ledger.note_all(frames, replies)
        return replies

    def close(self) -> None:
        """Ends the stream of frames, and with it the program. Raises HostError if its status is not 0."""
        with self._lock:
            if not self._stream.is_closed:
                self._settle()
            self._stream.close()

    def kill(self) -> None:
        """Kills the program, whatever it does, and raises nothing."""
        self._stream.kill()


def _whole(frame: bytes) -> bytes:
    """The frame, if its length field is right: else the host would wait for the rest of it, and the caller for the reply."""
    if len(frame) < 4 or int.from_bytes(frame[:4], "little") != len(frame) - 4:
        raise ValueError(f"{len(frame)} bytes are not a whole frame")
    return frame


def _longest_reply(frame: bytes) -> int:
    """The most bytes of the reply to a frame, by its command: a value, a key, or a slot and a reason."""
    command = int.from_bytes(frame[6:8], "little")
    return LONGEST_REPLY if command in (Command.MAP_LOOKUP_ELEM, Command.MAP_GET_NEXT_KEY) else REPLY_HEAD + 6


def _batches(frames: Iterable[bytes], room: int) -> Iterator[list[bytes]]:
    """Frames in non-empty lists; the replies to a list of several have at most `room` bytes."""
    batch: list[bytes] = []
    replies = size = 0
    for frame in frames:
        longest = _longest_reply(_whole(frame))
        if batch and (replies + longest > room or size > SENT_AT_ONCE):
            yield batch
            batch, replies, size = [], 0, 0
        batch.append(frame)
        replies += longest
        size += len(frame)
    if batch:
        yield batch
