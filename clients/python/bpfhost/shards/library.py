"""The host in the worker's own process: the library for C, as `bpfhost.library` calls it.

The library handles a call's frames in place, without a copy, and writes its replies one after another. One call of the library runs all
test runs of one program that are alike.
"""

from __future__ import annotations

import ctypes
import functools
import os
import shutil
from array import array
from collections.abc import Iterable, Iterator
from pathlib import Path

from bpfhost.alike import BEFORE_PACKET, packed, size_of_packet
from bpfhost.errors import HostError
from bpfhost.functions import CONTEXT_WORDS
from bpfhost.host import LONGEST_REPLY
from bpfhost.library import VERSION, Library, LibraryError, LibraryHost
from bpfhost.numbers import REPLY_HEAD, Code, Command
from bpfhost.program import Program, is_unproved
from bpfhost.replies import Reply
from bpfhost.shards.calls import Call
from bpfhost.shards.errors import MemoryRefused
from bpfhost.state import Steps, split, with_tenant

SONAME = f"libbpfhost.so.{VERSION}"
# The size of the buffer for replies in bytes.
_ROOM = 1 << 16
# The reply to a successful test run, of tenant 0, without its result.
_REPLY = Reply(0, Command.PROG_TEST_RUN, 0, bytes(4)).to_bytes()


def find_library(named: str | None, program: Program) -> Library | None:
    """The library that is named, that of BPFHOST_LIBRARY, the one next to the program, or that of an installed release.

    They are tried in this order. None if there is none of these, or the name is `none`. Raises HostError if it is not of the program's
    build: if one of them has no proofs, and the other has them.
    """
    named = named or os.environ.get("BPFHOST_LIBRARY")
    if named == "none":
        return None
    if not named:
        folder = Path(shutil.which(program) or program).absolute().parent
        libraries = folder.parent / "lib"
        # Debian has the libraries of an architecture in a folder of their own.
        folders = (folder, libraries, *sorted(libraries.glob("*-linux-gnu")))
        named = next((str(one / SONAME) for one in folders if (one / SONAME).is_file()), None)
    if not named:
        return None
    library = Library(named, keeps_lock=True)
    unproved, proved = sorted((str(library.path), os.fspath(program)), key=is_unproved, reverse=True)
    if is_unproved(unproved) != is_unproved(proved):
        raise HostError(f"{unproved} is built without proofs, and {proved} with them: a worker takes both of one build")
    return library


class HostHere(LibraryHost):
    """A host in this process, for one thread."""

    def __init__(self, library: Library, tenants: int) -> None:
        super().__init__(library, tenants)
        self._answers = bytearray(_ROOM)
        self._answers_at = _address_of(self._answers)

    # Ends the host and frees its memory.
    kill = LibraryHost.close

    def save(self, tenant: int) -> Steps[bytes]:
        """The frames that restore a tenant, which name tenant 0, in steps: one for each part of the save (docs/EMBEDDING.md).

        The tenant must get no frame meanwhile. Raises MemoryRefused if the library has no memory for them.
        """
        stream, number = bytearray(), 0
        try:
            while (part := self.save_part(tenant, number)) is not None:
                stream += b"".join([with_tenant(frame, 0) for frame in split(part)])
                number += 1
                yield
        except LibraryError as error:
            if error.code != Code.ERR_NO_MEMORY:
                raise
            raise MemoryRefused(f"memory was refused to a snapshot of tenant {tenant}") from None
        return bytes(stream)

    def ask_bytes(self, frames: Iterable[bytes]) -> Iterator[bytes]:
        """The replies to frames, one by one."""
        return (self.handle(frame[4:]) for frame in frames)

    def answer(self, call: Call) -> bytes:
        """The replies to a call. The tenant's number replaces the one in each frame, and the replies name tenant 0."""
        runs = call.stored if call.is_packed else packed(call.stored, call.alike)
        replies = self._runs(runs, call.tenant) if runs else b""
        return replies or self._answered(bytearray(call.stream), call.tenant)

    def replies(self, frames: Iterable[bytes], tenant: int) -> list[bytes]:
        """The replies to frames, as those to a call."""
        return split(self._answered(bytearray().join(frames), tenant))

    def _answered(self, stream: bytearray, tenant: int) -> bytes:
        """The replies to frames, each handled in place."""
        library, host, written, room, out = self.library, self._at, self._written, self._answers, 0
        handle, begin, at, place, answers = library.functions.handle, _address_of(stream), 0, ctypes.byref(written), list[bytes]()
        named = tenant.to_bytes(2, "little")
        while at < len(stream):
            length = int.from_bytes(stream[at : at + 4], "little")
            stream[at + 4 : at + 6] = named
            if out > _ROOM - LONGEST_REPLY:
                answers.append(bytes(room[:out]))
                out = 0
            library.demand_done(handle(host, begin + at + 4, length, self._answers_at + out, _ROOM - out, place))
            room[out + 4 : out + 6] = b"\0\0"
            out += written.value
            at += 4 + length
        answers.append(bytes(room[:out]))
        return b"".join(answers)

    def _runs(self, runs: bytes, tenant: int) -> bytes:
        """The replies to packed test runs; empty if the first of them is refused."""
        size, packets = size_of_packet(runs), runs[BEFORE_PACKET:]
        many = len(packets) // size
        context = (runs[12:BEFORE_PACKET], CONTEXT_WORDS, CONTEXT_WORDS)
        status, results = self._run(tenant, int.from_bytes(runs[8:12], "little"), context, packets, _ends_of(size, many))
        return b"" if status else _results(results.tobytes(), many)


@functools.lru_cache(64)
def _ends_of(size: int, many: int) -> array[int]:
    """The offsets at which packets of one size end."""
    return array("Q", range(size, size * many + 1, size))


def _address_of(data: bytearray) -> int:
    """The address of bytes, which does not change while their length does not."""
    return ctypes.addressof(ctypes.c_char.from_buffer(data))


def _results(results: bytes, many: int) -> bytes:
    """The replies to successful test runs, of tenant 0."""
    replies = bytearray(_REPLY * many)
    for at in range(4):
        replies[REPLY_HEAD + at :: len(_REPLY)] = results[at::4]
    return bytes(replies)
