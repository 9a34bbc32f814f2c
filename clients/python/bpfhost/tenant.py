"""One tenant of a running host: its commands, by their names. A host in this process has the same commands (`bpfhost.library`)."""

from __future__ import annotations

import time
from collections.abc import Iterable, Iterator
from typing import TYPE_CHECKING, Generic, Protocol, TypeVar

from bpfhost import frames
from bpfhost.classic.semantics import Length, Semantics
from bpfhost.errors import Refused, ReplyError
from bpfhost.frames import NO_CONTEXT, Context
from bpfhost.maps import Map
from bpfhost.numbers import Errno, MapType, Update
from bpfhost.packets import ETHERNET, Packets
from bpfhost.prog import Prog
from bpfhost.program import MapShape
from bpfhost.runs import TestRuns

if TYPE_CHECKING:
    from bpfhost.host import Host
    from bpfhost.replies import Reply


class Asked(Protocol):
    """What handles frames."""

    def ask(self, frame: bytes) -> Reply:
        """Handles a whole frame; returns its reply."""

    def ask_all(self, frames: Iterable[bytes]) -> Iterator[Reply]:
        """Handles whole frames; returns their replies in order."""


HostT = TypeVar("HostT", bound=Asked)


class Commands(Generic[HostT]):
    """The commands of one tenant of a host. Each command that the host refuses raises Refused, which has the reply.

    docs/PROTOCOL.md lists each command's errors. A refused command changes nothing. A reply to another command or another tenant raises
    ReplyError.
    """

    def __init__(self, host: HostT, number: int) -> None:
        """The tenant of this number, from 0."""
        self.host = host
        self.number = number

    def __repr__(self) -> str:
        return f"<{type(self).__name__} {self.number} of {self.host!r}>"

    def map_create(self, map_type: MapType, key_size: int, value_size: int, max_entries: int) -> Map:
        """Creates a map; sizes are in bytes. Its descriptor is the lowest free one."""
        made = self._done(frames.map_create(self.number, map_type, key_size, value_size, max_entries))
        return Map(self, made.status, MapShape(map_type, key_size, value_size, max_entries))

    def map_lookup_elem(self, descriptor: int, key: bytes) -> bytes:
        """The value of a key."""
        return self._done(frames.map_lookup_elem(self.number, descriptor, key)).payload

    def map_update_elem(self, descriptor: int, key: bytes, value: bytes, flags: Update = Update.ANY) -> None:
        """Sets the value of a key."""
        self._done(frames.map_update_elem(self.number, descriptor, key, value, flags))

    def map_delete_elem(self, descriptor: int, key: bytes) -> None:
        """Deletes a key of a hash map."""
        self._done(frames.map_delete_elem(self.number, descriptor, key))

    def map_get_next_key(self, descriptor: int, key: bytes = b"") -> bytes | None:
        """The key after `key`, or the first key without one; None if there is none."""
        try:
            return self._done(frames.map_get_next_key(self.number, descriptor, key)).payload
        except Refused as refused:
            if refused.has(Errno.ENOENT):
                return None
            raise

    def prog_test_run(self, descriptor: int, packet: bytes = b"", context: Context = NO_CONTEXT) -> int:
        """Runs a program on a packet and returns its result."""
        return self._done(frames.prog_test_run(self.number, descriptor, packet, context)).result()

    def close(self, descriptor: int) -> None:
        """Closes a descriptor of a map or of a program."""
        self._done(frames.close(self.number, descriptor))

    def _done(self, frame: bytes) -> Reply:
        return answered(frame, self.host.ask(frame))


class Tenant(Commands["Host"]):
    """One tenant of a host."""

    def prog_load(self, slots: bytes, name: str = "") -> Prog:
        """Loads a socket filter, with a name of the caller's choice. Raises ProgramRefused, with the slot and the reason, if it is rejected."""
        return Prog.of(self, self._done(frames.prog_load(self.number, slots)).status, name, slots)

    def load_filter(
        self, expression: str, link_type: int = ETHERNET, semantics: Semantics = Semantics.LIBPCAP, length: Length = Length.PACKET
    ) -> Prog:
        """Loads a filter written as for tcpdump, for packets of a link type with the number that captures use; its name is the expression.

        Raises ClassicError or ExpressionError if it is rejected, and MissingLibrary without libpcap. clients/python/FILTERS.md explains
        `semantics` and `length`. To load a classic program from elsewhere, use `prog_load(program.translated().slots)`.
        """
        from bpfhost.classic.program import ClassicProgram

        return self.prog_load(ClassicProgram.of_expression(expression, link_type).translated(semantics, length).slots, expression)

    def prog_test_run(self, descriptor: int, packet: bytes = b"", context: Context = NO_CONTEXT) -> int:
        """Runs a program on a packet and returns its result."""
        begun = time.perf_counter_ns()
        result = super().prog_test_run(descriptor, packet, context)
        if isinstance(descriptor, Prog):
            descriptor.count(1, time.perf_counter_ns() - begun)
        return result

    def prog_test_runs(
        self, descriptor: int, pieces: Iterable[Packets], context: Context = NO_CONTEXT
    ) -> Iterator[tuple[int, ...]]:
        """Runs a program on many packets and returns the results in order (`TestRuns`)."""
        return TestRuns(self.host, self.number, descriptor, context).results(pieces)


def answered(frame: bytes, reply: Reply) -> Reply:
    """The reply to a frame. Raises ReplyError if it is the reply to something else, and Refused if the command is refused."""
    if reply.tenant | reply.command << 16 != int.from_bytes(frame[4:8], "little"):
        raise ReplyError(f"the reply is not to this command: {reply}")
    reply.done()
    return reply
