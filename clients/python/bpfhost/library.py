"""The host as a shared library in this process, called by ctypes: hosts, their frames, and programs run on packets by the batch.

docs/EMBEDDING.md describes the library, and how to make a shared object of it. A host here has no process of its own: nothing is sent, and
one call runs a program on many packets.
"""

from __future__ import annotations

import ctypes
import os
import re
import secrets
import threading
from array import array
from collections.abc import Iterable, Iterator, Mapping, Sequence
from functools import lru_cache
from itertools import accumulate
from operator import sub
from pathlib import Path
from types import TracebackType
from typing import Any

from bpfhost import frames
from bpfhost.errors import HostError
from bpfhost.frames import NO_CONTEXT, Context
from bpfhost.functions import CONTEXT_WORDS, CountsStruct, OneOwner, functions_of, lent_bytes, version_text
from bpfhost.inspection import Cost, Counts, Log, LogStyle, Opened, cost_of, log_of, opened_of
from bpfhost.prepared import Named, PreparedProgram
from bpfhost.numbers import FIRST_DESCRIPTOR, LONGEST_PACKET, LONGEST_PAYLOAD, MOST_DESCRIPTORS, MOST_TENANTS, REPLY_HEAD, Code, Command, Errno
from bpfhost.packets import Packets
from bpfhost.replies import Reply, read_replies
from bpfhost.shared_object import soname_of
from bpfhost.state import split, with_tenant
from bpfhost.tenant import Commands
from bpfhost.words import CODE_WORDS

# The versions that have the functions below, as in the name of an installed library (docs/RELEASING.md, "The library's binary interface").
VERSION = "0.3"
_NAME = re.compile(r"libbpfhost\.so\.(\d+\.\d+)")
_LENGTH_FIELD = 4
_LONGEST_REPLY = REPLY_HEAD + LONGEST_PAYLOAD
# The address of empty packets and results: not null, and aligned.
_ANYWHERE = 8
# Codes in the words of this client, if it has its own.
_CODES: dict[int, str] = {
    **CODE_WORDS,
    Code.ERR_NO_HOST: "its host is closed",
    Code.ERR_NO_MEMORY: "there is no memory for a host, for a part of a save, or for contexts",
    Code.ERR_TOO_BIG: "it does not know a word of a context, which is not 0",
    Code.ERR_NO_PROGRAM: "there is no prepared program: it was installed or closed already",
}


class LibraryError(HostError):
    """A library that can't be used, or a call of it that failed; then `code` is what the function returned."""

    code = 0


class Library:
    """A shared library of the host. Hosts share nothing, and each may belong to a thread of its own."""

    def __init__(self, path: str | os.PathLike[str], keeps_lock: bool = False) -> None:
        """Opens a file, or an installed library by its name, `libbpfhost.so.0.3`, as the system's loader finds it.

        Raises LibraryError if there is none, or if it is not a library of this version. With `keeps_lock`, only a run of packets releases
        Python's lock: that is better for one thread, and short calls.
        """
        self.path = Path(path)
        is_file = self.path.is_file()
        if not is_file and os.path.dirname(path):
            raise LibraryError(f"there is no library {self.path}: tools/library and tools/shared-library make it")
        opened = self.path.resolve() if is_file else self.path
        try:
            self._demand_version(opened.name)
            if is_file:
                self._demand_version(soname_of(self.path))
            self.functions = functions_of(str(opened), keeps_lock)
        except (OSError, ValueError) as error:
            if not is_file:
                raise LibraryError(f"there is no library {self.path}, neither here nor among those that are installed") from error
            raise LibraryError(f"{self.path} is no shared library that can be opened: {error}") from error
        except AttributeError as error:
            raise LibraryError(f"{self.path} is no library of bpfhost {VERSION}: {error}") from error

    def _demand_version(self, name: str) -> None:
        named = _NAME.search(name)
        if named and named[1] != VERSION:
            raise LibraryError(f"{self.path} is of version {named[1]}, and this client is for {VERSION}")

    def __repr__(self) -> str:
        return f"<Library {self.path}>"

    def version(self) -> str:
        """The version of the library, as 0.3.0."""
        return version_text(self.functions)

    def demand_done(self, code: int) -> None:
        """Raises LibraryError if a function returned a code other than 0."""
        if code:
            failed = LibraryError(f"{self.path}: {_CODES.get(code, f'a function returned {code}')}")
            failed.code = code
            raise failed

    def prepare(self, slots: bytes, named: Mapping[int, Named] | None = None) -> PreparedProgram:
        """Verifies a program without a host, with the objects that its descriptors are to name; any thread may do it.

        Raises ProgramRefused, as a load with these objects, and ValueError if no map can have such a shape.
        """
        return PreparedProgram(self.functions, self.demand_done, slots, named or {})

    def host(self, tenants: int = 1, seed: tuple[int, int] | None = None) -> LibraryHost:
        """A host of 1 to 64 tenants. Its seed is two words of 64 bits that no tenant may know: drawn, if they are not given."""
        return LibraryHost(self, tenants, seed)


class LibraryHost(OneOwner):
    """A host in this process, as a context manager that frees it on exit. Threads may share it: they wait for one another."""

    def __init__(self, library: Library, tenants: int = 1, seed: tuple[int, int] | None = None) -> None:
        """Makes a host. Raises ValueError if the tenants are not 1 to 64, or the seed is not two words of 64 bits."""
        if not 1 <= tenants <= MOST_TENANTS:
            raise ValueError(f"a host serves 1 to {MOST_TENANTS} tenants, and not {tenants}")
        first, second = (secrets.randbits(64), secrets.randbits(64)) if seed is None else seed
        if not 0 <= min(first, second) <= max(first, second) < 2**64:
            raise ValueError("a seed is two numbers from 0 to 2^64 - 1")
        self.library, self.tenants = library, tenants
        self._lock = threading.Lock()
        self._handle = ctypes.c_void_p()
        # What the library is given: the address of the handle, which is empty after the end.
        self._at = ctypes.byref(self._handle)
        self._room, self._written = ctypes.create_string_buffer(_LONGEST_REPLY), ctypes.c_size_t()
        self._refused = ctypes.c_bool()
        library.demand_done(library.functions.new(self._at, tenants, first, second))

    def __repr__(self) -> str:
        return f"<LibraryHost of {self.library!r}>"

    def __enter__(self) -> LibraryHost:
        return self

    def __exit__(self, kind: type[BaseException] | None, _value: BaseException | None, _trace: TracebackType | None) -> None:
        self.close()

    def __del__(self) -> None:
        if getattr(self, "_handle", None):
            self.close()

    def close(self) -> None:
        """Frees the host; each later call raises LibraryError."""
        with self._lock:
            self.library.functions.free(self._at)

    def tenant(self, number: int = 0) -> LibraryTenant:
        """The tenant of this number. Raises ValueError if the host does not serve it."""
        if not 0 <= number < self.tenants:
            raise ValueError(f"tenant {number} is not served: this host has the tenants 0 to {self.tenants - 1}")
        return LibraryTenant(self, number)

    def handle(self, frame: bytes | bytearray | memoryview) -> bytes:
        """Handles a frame without its length field, valid or not; returns the bytes of the reply, with its length field."""
        lent = lent_bytes(frame)
        with self._lock:
            written = ctypes.byref(self._written)
            code = self.library.functions.handle(self._at, lent, len(lent), self._room, _LONGEST_REPLY, written)
            self.library.demand_done(code)
            return ctypes.string_at(self._room, self._written.value)

    def ask(self, frame: bytes) -> Reply:
        """Handles a whole frame, as the functions of `bpfhost.frames` make it; returns its reply."""
        (reply,) = read_replies(self.handle(frame[_LENGTH_FIELD:]))
        return reply

    def ask_all(self, frames: Iterable[bytes]) -> Iterator[Reply]:
        """Handles whole frames, one after another, as their replies are asked for."""
        return map(self.ask, frames)

    def memory_refused(self, tenant: int) -> bool:
        """Whether memory was ever refused to a tenant; False for a number that is not served."""
        with self._lock:
            self.library.demand_done(self.library.functions.memory_refused(self._at, tenant, ctypes.byref(self._refused)))
            return self._refused.value

    def status(self, tenant: int) -> Counts:
        """How much a tenant has; all is 0 for a number that is not served."""
        found = CountsStruct()
        with self._lock:
            self.library.demand_done(self.library.functions.status(self._at, tenant, ctypes.byref(found)))
        return Counts(found.maps, found.entries, found.value_bytes, found.programs, found.descriptors, found.memory_refused)

    def describe(self, tenant: int, descriptor: int) -> Opened | None:
        """What a descriptor of a tenant names, with the cost of a program; None if it is not open."""
        words, cost = (ctypes.c_uint32 * 7)(), (ctypes.c_uint32 * 2)()
        with self._lock:
            self.library.demand_done(self.library.functions.describe(self._at, tenant, descriptor, words))
            self.library.demand_done(self.library.functions.program_cost(self._at, tenant, descriptor, cost))
        return opened_of(Cost(*cost), *words)

    def program_cost(self, tenant: int, descriptor: int) -> Cost | None:
        """What the program that a descriptor of a tenant names costs; None if it names none, and for a number that is not served."""
        cost = (ctypes.c_uint32 * 2)()
        with self._lock:
            self.library.demand_done(self.library.functions.program_cost(self._at, tenant, descriptor, cost))
        return cost_of(*cost)

    def verify(self, tenant: int, slots: bytes, style: LogStyle = LogStyle.NEW) -> Log:
        """The verifier's log of slots with the open descriptors of a tenant; nothing is loaded."""
        with self._lock:
            code, log = log_of(self.library.functions, self._at, tenant, lent_bytes(slots), style)
        self.library.demand_done(code)
        return log

    def install(self, tenant: int, prepared: PreparedProgram) -> int | None:
        """Installs a prepared program, which is used up then; returns its descriptor.

        None if a descriptor that it names is not the map with which it was prepared: nothing has changed, and the caller loads the slots. Raises
        Refused as a load does, and LibraryError if it was installed or closed already.
        """
        status = ctypes.c_int32()
        with self._lock:
            code = self.library.functions.install(self._at, tenant, prepared.at, ctypes.byref(status))
        if code == Code.ERR_STALE:
            return None
        self.library.demand_done(code)
        return Reply(tenant, Command.PROG_LOAD, status.value).done()

    def save_part(self, tenant: int, part: int) -> bytes | None:
        """The frames of one part of a tenant, counted from 0; None after its last part, and if the tenant is not served.

        A new tenant of this number that is given the frames of all parts in their order (`restore`) replies to each frame as this one does.
        A part creates a map or a program, puts at most 1,024 keys into a map, or opens or closes descriptors; it may have no frames: b"".
        Other tenants may be served between two parts; this one must not change before its last part is taken.
        """
        with self._lock:
            code, frames = self.library.functions.saved_part(self._at, tenant, part)
        if code == Code.ERR_NO_PART:
            return None
        self.library.demand_done(code)
        return frames

    def restore(self, tenant: int, saved: bytes) -> None:
        """Gives saved frames, of all parts or of some in their order, to a tenant that is new or has nothing open.

        Raises ValueError, before the first frame, if the bytes are not whole frames of this tenant; Refused if a frame is refused. Then those
        before it are handled, and `close_all` makes the tenant new again.
        """
        each = split(saved)
        if _numbers_of(each) - {tenant}:
            raise ValueError(f"a frame of the save is not of tenant {tenant}")
        for frame in each:
            self.ask(frame).done()

    def restore_as(self, tenant: int, saved: bytes) -> None:
        """The same for saved frames of any one tenant: each is given to this one, with its number.

        Raises ValueError, before the first frame, if the bytes are not whole frames of one tenant; Refused as `restore`.
        """
        each = split(saved)
        if len(_numbers_of(each)) > 1:
            raise ValueError("the frames of the save are of several tenants")
        for frame in each:
            self.ask(with_tenant(frame, tenant)).done()

    def run_packets(
        self,
        tenant: int,
        descriptor: int,
        packets: Packets | Iterable[bytes],
        context: Context | Sequence[Context] = NO_CONTEXT,
        bound: int = 0,
    ) -> list[int]:
        """Runs a program of a tenant on packets, one after another, by one call; returns the result of each.

        The context is the same for all, or there is one for each packet; the length is that of each. If PROG_TEST_RUN would be refused, no
        packet is run: it raises Refused with the status. Raises ValueError if a packet has more than 65,536 bytes, or if the contexts are
        not as many as the packets.

        With a bound the packets are run by as many calls of the library as it takes, of which each executes at most so many instructions, or
        one packet (`run_bounded`). Threads that share the host are served between two calls. If one of them closes the descriptor, this
        raises Refused, and packets before it were run.
        """
        data, ends = _in_one_piece(packets)
        contexts = _contexts_of(context, len(ends))
        if bound:
            _demand_short(ends)
        results = self._results(tenant, descriptor, contexts, data, ends, bound)
        ran = len(results)
        while len(results) < len(ends):
            piece = _piece(contexts, data, ends, len(results), ran)
            some = self._results(tenant, descriptor, *piece, bound)
            results += some
            ran = len(some)
        return results.tolist()

    def run_bounded(
        self,
        tenant: int,
        descriptor: int,
        packets: Packets | Iterable[bytes],
        bound: int,
        context: Context | Sequence[Context] = NO_CONTEXT,
    ) -> list[int]:
        """The same by one call that executes at most `bound` instructions: it returns the results of the first packets, as many as were run.

        Each packet counts as the most instructions of the program and 128 for each of its most calls (`Cost`); one is run in any case, and 0
        is no bound. Packets after those that the bound allows are not looked at.
        """
        data, ends = _in_one_piece(packets)
        return self._results(tenant, descriptor, _contexts_of(context, len(ends)), data, ends, bound).tolist()

    def _results(
        self, tenant: int, descriptor: int, contexts: tuple[bytes, int, int], data: Any, ends: array[int], bound: int
    ) -> array[int]:
        """The results of one call."""
        if tenant >> 16 or descriptor >> 32:
            raise ValueError("the tenant is a number of 16 bits, and a descriptor one of 32")
        if bound >> 64:
            raise ValueError("a bound is a number of 64 bits")
        status, results = self._run(tenant, descriptor, contexts, data, ends, bound)
        if status == -Errno.E2BIG:
            _demand_short(ends)
        Reply(tenant, Command.PROG_TEST_RUN, status).done()
        return results

    def _run(
        self, tenant: int, descriptor: int, contexts: tuple[bytes, int, int], data: Any, ends: array[int], bound: int = 0
    ) -> tuple[int, array[int]]:
        """The status and the results of runs on packets that are one after another, and end at these places."""
        count, results, status, ran = len(ends), array("I", bytes(4 * len(ends))), ctypes.c_int32(), ctypes.c_size_t()
        places = (ends.buffer_info()[0] or _ANYWHERE, count, results.buffer_info()[0] or _ANYWHERE, count)
        with self._lock:
            code = self.library.functions.run_packets(
                *(self._at, tenant, descriptor, bound, *contexts, data, len(data), *places, ctypes.byref(status), ctypes.byref(ran))
            )
            self.library.demand_done(code)
        if ran.value < count:
            del results[ran.value :]
        return status.value, results


class LibraryTenant(Commands[LibraryHost]):
    """One tenant of a host in this process: maps, single runs and `close` as those of `bpfhost.Tenant`, and these."""

    def prog_load(self, slots: bytes) -> int:
        """Loads a socket filter; returns its descriptor. Raises ProgramRefused, with the slot and the reason, if it is rejected."""
        return self.host.ask(frames.prog_load(self.number, slots)).done()

    def run_packets(
        self,
        descriptor: int,
        packets: Packets | Iterable[bytes],
        context: Context | Sequence[Context] = NO_CONTEXT,
        bound: int = 0,
    ) -> list[int]:
        """Runs a program on packets by one call, or by some with a bound (`LibraryHost.run_packets`)."""
        return self.host.run_packets(self.number, descriptor, packets, context, bound)

    def run_bounded(
        self, descriptor: int, packets: Packets | Iterable[bytes], bound: int, context: Context | Sequence[Context] = NO_CONTEXT
    ) -> list[int]:
        """Runs a program on the first packets, as many as a bound on instructions allows (`LibraryHost.run_bounded`)."""
        return self.host.run_bounded(self.number, descriptor, packets, bound, context)

    def save_parts(self) -> Iterator[bytes]:
        """The frames that restore this tenant, part by part (`LibraryHost.save_part`); it must not change before the last one."""
        part = 0
        while (found := self.host.save_part(self.number, part)) is not None:
            yield found
            part += 1

    def save(self) -> bytes:
        """The frames that restore this tenant."""
        return b"".join(self.save_parts())

    def restore(self, saved: bytes) -> None:
        """Gives the frames of a save, of a tenant of this number, to this one, which is new (`LibraryHost.restore`)."""
        self.host.restore(self.number, saved)

    def restore_as(self, saved: bytes) -> None:
        """Gives the frames of a save, of a tenant of any number, to this one, which is new (`LibraryHost.restore_as`)."""
        self.host.restore_as(self.number, saved)

    def close_all(self) -> int:
        """Closes all descriptors, and returns how many were open: the tenant is new again."""
        descriptors = range(FIRST_DESCRIPTOR, FIRST_DESCRIPTOR + MOST_DESCRIPTORS)
        statuses = [self.host.ask(frames.close(self.number, descriptor)).status for descriptor in descriptors]
        return statuses.count(0)

    def status(self) -> Counts:
        """How much this tenant has."""
        return self.host.status(self.number)

    def opened(self) -> dict[int, Opened]:
        """The open descriptors in their order, and what they name."""
        found = {number: self.host.describe(self.number, number) for number in range(FIRST_DESCRIPTOR, FIRST_DESCRIPTOR + MOST_DESCRIPTORS)}
        return {number: opened for number, opened in found.items() if opened is not None}

    def program_cost(self, descriptor: int) -> Cost | None:
        """What the program of a descriptor costs; None if it names none."""
        return self.host.program_cost(self.number, descriptor)

    def verify(self, slots: bytes, style: LogStyle = LogStyle.NEW) -> Log:
        """The verifier's log of slots with the descriptors of this tenant (`LibraryHost.verify`)."""
        return self.host.verify(self.number, slots, style)

    def install(self, prepared: PreparedProgram) -> int | None:
        """Installs a prepared program (`LibraryHost.install`)."""
        return self.host.install(self.number, prepared)

    def memory_refused(self) -> bool:
        """Whether memory was ever refused to this tenant."""
        return self.host.memory_refused(self.number)


def _numbers_of(each: Iterable[bytes]) -> set[int]:
    """The tenants of whole frames."""
    return {int.from_bytes(frame[_LENGTH_FIELD : _LENGTH_FIELD + 2], "little") for frame in each}


@lru_cache(maxsize=64)
def _words_of(context: Context) -> bytes:
    """The words of a context after the length."""
    return context.to_bytes()


def _contexts_of(context: Context | Sequence[Context], packets: int) -> tuple[bytes, int, int]:
    """The words of contexts, how many words there are, and how many a context has: one for all packets, or one for each."""
    if isinstance(context, Context):
        return _words_of(context), CONTEXT_WORDS, CONTEXT_WORDS
    if len(context) != packets:
        raise ValueError(f"there are {len(context):,} contexts for {packets:,} packets")
    return b"".join(map(_words_of, context)), len(context) * CONTEXT_WORDS, CONTEXT_WORDS


def _demand_short(ends: array[int]) -> None:
    """Raises ValueError if a packet is too long; each ends at its place."""
    longest = max(map(sub, ends, (0, *ends)), default=0)
    if longest > LONGEST_PACKET:
        raise ValueError(f"a packet has {longest:,} bytes, and that of a test run has {LONGEST_PACKET:,} at most")


def _piece(
    contexts: tuple[bytes, int, int], data: Any, ends: array[int], done: int, count: int
) -> tuple[tuple[bytes, int, int], Any, array[int]]:
    """The contexts, bytes and ends of the next so many packets of a batch, after those that are done."""
    begin, some = ends[done - 1], ends[done : done + count]
    words, word_count, size = contexts
    if word_count == size * len(ends) and len(ends) > 1:
        words = words[4 * size * done : 4 * size * (done + len(some))]
        word_count = size * len(some)
    with memoryview(data) as view:
        return (words, word_count, size), bytes(view.cast("B")[begin : some[-1]]), array("Q", [end - begin for end in some])


def _in_one_piece(packets: Packets | Iterable[bytes]) -> tuple[Any, array[int]]:
    """Packets one after another, and the end of each."""
    if not isinstance(packets, Packets):
        listed = list(packets)
        joined, ends = b"".join(listed), array("Q", accumulate(map(len, listed)))
        if ends and ends[-1] != len(joined):
            raise TypeError("a packet is bytes, and no array of larger numbers")
        return joined, ends
    first = packets.starts[0] if len(packets) else 0
    ends = array("Q", accumulate(packets.lengths, initial=first))
    if ends[:-1] == array("Q", packets.starts) and first == 0:
        return lent_bytes(packets.data), ends[1:]
    data = memoryview(packets.data)
    joined = b"".join(data[start : start + length] for start, length in zip(packets.starts, packets.lengths))
    return joined, array("Q", accumulate(packets.lengths))
