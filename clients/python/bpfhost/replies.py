"""Decodes replies of the host (docs/PROTOCOL.md), and describes them in words."""

from __future__ import annotations

import struct
from collections.abc import Iterator
from dataclasses import dataclass

from bpfhost.errors import ProgramRefused, Refused, ReplyError
from bpfhost.numbers import NOBODY, Command
from bpfhost.words import command_name, errno_name, errno_words, reason_words

_HEAD = struct.Struct("<HHi")


@dataclass(frozen=True)
class Reply:
    """A reply: its tenant, its command, the status, and the payload."""

    tenant: int
    command: int
    status: int
    payload: bytes = b""

    def to_bytes(self) -> bytes:
        """The reply as the host wrote it."""
        fields = _HEAD.pack(self.tenant, self.command, self.status) + self.payload
        return struct.pack("<I", len(fields)) + fields

    def result(self) -> int:
        """The result of a test run. Raises ReplyError if this is not the reply to one."""
        if self.command != Command.PROG_TEST_RUN or self.status or len(self.payload) != 4:
            raise ReplyError(f"a reply that has no result of a test run: {self.to_bytes().hex()}")
        return int.from_bytes(self.payload, "little")

    def refusal(self) -> tuple[int, int] | None:
        """The slot and the reason for which a program was rejected, or None."""
        if self.command != Command.PROG_LOAD or self.status >= 0 or len(self.payload) != 6:
            return None
        slot, reason = struct.unpack("<IH", self.payload)
        return slot, reason

    def done(self) -> int:
        """The status, if it is not negative. Raises `Refused` if it is, and `ProgramRefused` for a program."""
        if self.status >= 0:
            return self.status
        refusal = self.refusal()
        raise ProgramRefused(self, *refusal) if refusal else Refused(self)

    def says(self) -> str:
        """Describes the reply without its tenant."""
        if self.status < 0:
            return self._error()
        if self.command in (Command.MAP_CREATE, Command.PROG_LOAD):
            return f"descriptor {self.status}"
        if self.command == Command.PROG_TEST_RUN:
            return f"result {self.result()}"
        if self.command == Command.MAP_LOOKUP_ELEM:
            return f"value {self.payload.hex()}"
        if self.command == Command.MAP_GET_NEXT_KEY:
            return f"key {self.payload.hex()}"
        return "done"

    def _error(self) -> str:
        refusal = self.refusal()
        if not refusal:
            return f"{errno_name(self.status)}: {errno_words(self.status)}"
        slot, reason = refusal
        return f"{errno_name(self.status)}, slot {slot}, reason {reason}: {reason_words(reason)}"

    def __str__(self) -> str:
        if self.tenant == self.command == NOBODY:
            return f"no tenant, no command: {self.says()}"
        return f"tenant {self.tenant}, {command_name(self.command)}: {self.says()}"


def read_replies(stream: bytes) -> Iterator[Reply]:
    """Decodes the bytes of a stream of replies. Raises ReplyError if they are not one."""
    at = 0
    while at < len(stream):
        length = int.from_bytes(stream[at : at + 4], "little")
        fields = stream[at + 4 : at + 4 + length]
        if len(stream) - at < 4 or length < _HEAD.size or len(fields) < length:
            raise ReplyError(f"the bytes from {at} on are not a whole reply")
        tenant, command, status = _HEAD.unpack(fields[: _HEAD.size])
        yield Reply(tenant, command, status, fields[_HEAD.size :])
        at += 4 + length
