"""One run of `bpfhost serve`: writes bytes of frames to it and reads bytes of replies."""

from __future__ import annotations

import contextlib
import subprocess
import tempfile
import time
from io import FileIO
from typing import cast

from bpfhost.errors import HostError, ReplyError
from bpfhost.numbers import LONGEST_PAYLOAD, REPLY_HEAD
from bpfhost.replies import Reply, read_replies

LONGEST_REPLY = REPLY_HEAD + LONGEST_PAYLOAD
# The assumed capacity of a pipe if the system does not report it.
_LEAST_PIPE = 4096
# A batch of frames has about this many bytes at most.
SENT_AT_ONCE = READ_AT_ONCE = 1 << 16
_SECONDS_TO_END = 5
# The clock of a process's processor time on Linux, next to the process's number (clock_getcpuclockid(3)).
_CPUCLOCK_SCHED = 2


class Stream:
    """A process and its two pipes.

    A HostError is raised if the program does not start, exits before it has replied, or exits with a status other than 0; its text has what
    the program wrote to standard error. A ReplyError is raised for bytes that are not a reply.
    """

    def __init__(self, program: str, tenants: int) -> None:
        """Starts the program for so many tenants."""
        self._program = program
        self._fault = tempfile.TemporaryFile()
        words = [program, "serve", "--tenants", str(tenants)]
        pipe = subprocess.PIPE
        try:
            # Ctrl-C is for the caller: the host is in a process group of its own, and still replies afterwards.
            self._process = subprocess.Popen(words, bufsize=0, stdin=pipe, stdout=pipe, stderr=self._fault, process_group=0)
        except OSError as error:
            self._fault.close()
            raise HostError(f"{program} does not start: {error.strerror}") from error
        # Without a buffer, both pipes are raw files.
        self._frames, self._replies = cast(FileIO, self._process.stdin), cast(FileIO, self._process.stdout)
        # If the pipe holds several batches of frames, the host rarely waits for the next one.
        _widen(self._frames, 4 * SENT_AT_ONCE)
        self._unread = b""
        self._seconds = 0.0
        # Whether a frame or a reply was transferred only in part.
        self._is_torn = False

    @property
    def is_closed(self) -> bool:
        """Whether it takes no more frames."""
        return self._frames.closed

    def processor_time(self) -> float:
        """The seconds of processor time that the program has used, or 0 if the system does not have that number."""
        with contextlib.suppress(AttributeError, OSError):
            self._seconds = time.clock_gettime(~self._process.pid << 3 | _CPUCLOCK_SCHED)
        return self._seconds

    def room(self) -> int:
        """The most bytes of replies that may wait unread: the host can write them all, and so continues to read frames.

        It is half of the pipe's capacity, as a reply that does not fit into the last page begins a new one.
        """
        return _pipe_size(self._replies) // 2

    def widen(self, size: int) -> None:
        """Allows more bytes of replies to wait unread, if the system permits it."""
        _widen(self._replies, size)

    def send(self, frames: bytes | bytearray | memoryview) -> None:
        """Sends bytes of frames."""
        self.demand_open()
        left = memoryview(frames)
        self._is_torn = True
        try:
            while left:
                left = left[self._frames.write(left) :]
        except BrokenPipeError:
            raise self._ended() from None
        self._is_torn = False

    def read(self, most: int) -> bytes:
        """Waits for bytes of replies and reads those that are there, up to a number. Raises HostError if the host has ended."""
        self.demand_open()
        if self._unread:
            read, self._unread = self._unread[:most], self._unread[most:]
            return read
        read = self._replies.read(most)
        if not read:
            raise self._ended()
        return read

    def unread(self, replies: bytes) -> None:
        """Puts back bytes of replies that were read too early; they are read next."""
        self._unread = replies + self._unread

    def read_whole(self, size: int) -> bytes:
        """Waits for so many bytes of replies."""
        pieces = []
        while size:
            pieces.append(self.read(size))
            size -= len(pieces[-1])
        return b"".join(pieces)

    def read_reply(self) -> Reply:
        """Waits for a reply."""
        head = self.read_whole(4)
        return next(read_replies(head + self.read_whole(self._demand_reply(head))))

    def read_many(self, count: int) -> list[bytes]:
        """Waits for so many replies, and splits the bytes that are read at once into replies."""
        replies: list[bytes] = []
        read, at = b"", 0
        while len(replies) < count:
            end = at + 4 + (self._demand_reply(read[at : at + 4]) if at + 4 <= len(read) else 0)
            if at + 4 < end <= len(read):
                replies.append(read[at:end])
                at = end
            else:
                read, at = read[at:] + self.read(READ_AT_ONCE), 0
        self.unread(read[at:])
        return replies

    def _demand_reply(self, head: bytes) -> int:
        """The length in the first four bytes of a reply. Raises ReplyError if no reply has that length."""
        length = int.from_bytes(head, "little")
        if not REPLY_HEAD <= 4 + length <= LONGEST_REPLY:
            raise ReplyError(f"{self._program} answers {head.hex()}, with which no reply begins")
        return length

    def tear(self) -> None:
        """Notes that a reply was read only in part: the next reader would take the rest of it for another reply."""
        self._is_torn = True

    def demand_open(self) -> None:
        """Raises HostError if the stream has ended or can't be used any more."""
        if self._frames.closed:
            raise HostError("bpfhost serve was ended before this frame")
        if self._is_torn:
            raise HostError("bpfhost serve can't be used any more: an interruption or an error cut off a frame or a reply")

    def close(self) -> None:
        """Ends the stream of frames, and with it the program. Raises HostError if its status is not 0."""
        if self._frames.closed:
            return
        self._frames.close()
        rest = self._unread + self._replies.readall()
        status = self._status()
        said = self._said()
        if status:
            raise HostError.of("bpfhost serve", status, said, rest)
        if rest:
            raise ReplyError(f"{self._program} wrote {len(rest)} bytes more than the replies")

    def kill(self) -> None:
        """Kills the program, whatever it does, and raises nothing."""
        self._frames.close()
        self._status()
        self._fault.close()

    def _ended(self) -> HostError:
        """The error to raise if the program has exited before its input ended."""
        self._frames.close()
        return HostError.of("bpfhost serve, before its reply,", self._status(), self._said())

    def _status(self) -> int:
        """The status of the program, after its input has ended and its output is no longer read."""
        self._replies.close()
        try:
            return self._process.wait(_SECONDS_TO_END)
        except subprocess.TimeoutExpired:
            self._process.kill()
            return self._process.wait()

    def _said(self) -> bytes:
        with self._fault as fault:
            fault.seek(0)
            return fault.read()


def _pipe_size(pipe: FileIO) -> int:
    """The capacity of a pipe in bytes."""
    try:
        import fcntl

        return max(fcntl.fcntl(pipe, fcntl.F_GETPIPE_SZ), _LEAST_PIPE)
    except (ImportError, AttributeError, OSError):
        return _LEAST_PIPE


def _widen(pipe: FileIO, size: int) -> None:
    """Sets the capacity of a pipe, if that is permitted."""
    with contextlib.suppress(ImportError, AttributeError, OSError):
        import fcntl

        fcntl.fcntl(pipe, fcntl.F_SETPIPE_SZ, size)
