"""Programs that are verified without a host, on any thread, and installed in one later."""

from __future__ import annotations

import ctypes
import struct
from collections.abc import Callable, Mapping
from types import TracebackType
from typing import NoReturn

from bpfhost.functions import Functions, OneOwner, lent_bytes
from bpfhost.numbers import Code, Command
from bpfhost.program import MapShape
from bpfhost.replies import Reply

# What a descriptor is to name: a map of a shape, or None for a program.
Named = MapShape | None


class PreparedProgram(OneOwner):
    """A program that was verified without a host, as a context manager that frees it on exit."""

    def __init__(self, functions: Functions, demand_done: Callable[[int], None], slots: bytes, named: Mapping[int, Named]) -> None:
        """Called by `Library.prepare`, which says what it raises."""
        self._functions = functions
        self._handle = ctypes.c_void_p()
        # The address of the handle, which is empty after the program is installed or freed.
        self.at = ctypes.byref(self._handle)
        refusal, given = (ctypes.c_int32 * 3)(), lent_bytes(slots)
        code = functions.prepare(self.at, given, len(given), b"".join(map(_words_of, named, named.values())), len(named), refusal)
        if code == Code.ERR_DESCRIPTORS:
            raise ValueError("a descriptor is to name a map that there cannot be, or there are more than 64 descriptors")
        demand_done(code)
        status, slot, reason = refusal
        payload = struct.pack("<IH", slot & 0xFFFFFFFF, reason) if status else b""
        Reply(0, Command.PROG_LOAD, status, payload).done()

    def __reduce__(self) -> NoReturn:
        raise TypeError("a prepared program can't be copied: prepare its slots once more")

    def __enter__(self) -> PreparedProgram:
        return self

    def __exit__(self, kind: type[BaseException] | None, _value: BaseException | None, _trace: TracebackType | None) -> None:
        self.close()

    def __del__(self) -> None:
        if getattr(self, "_handle", None):
            self.close()

    def close(self) -> None:
        """Frees the program, if it was not installed; then it can't be installed any more."""
        self._functions.prepared_free(self.at)


def _words_of(descriptor: int, named: Named) -> bytes:
    """A descriptor and what it is to name, as in bpfhost.h."""
    if named is None:
        return struct.pack("=5I", descriptor, 0, 0, 0, 0)
    return struct.pack("=5I", descriptor, named.map_type, named.key_size, named.value_size, named.max_entries)
