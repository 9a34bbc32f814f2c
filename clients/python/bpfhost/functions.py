"""The functions of the library for C, with their parameters (clients/c/include/bpfhost.h), as ctypes calls them.

Each pointer is an address here: ctypes takes a number, `byref` of a number, an array, or bytes.
"""

from __future__ import annotations

import ctypes
from dataclasses import dataclass
from typing import Any, NoReturn

# The number of the binary interface with these functions, and the words of a context.
ABI, CONTEXT_WORDS = 3, 10
_AT, _SIZE = ctypes.c_void_p, ctypes.c_size_t
_PARAMETERS: dict[str, tuple[Any, ...]] = {
    "version": (),
    "abi": (),
    "new": (_AT, _SIZE, ctypes.c_uint64, ctypes.c_uint64),
    "handle": (_AT, _AT, _SIZE, _AT, _SIZE, _AT),
    "run_packets": (_AT, ctypes.c_uint16, ctypes.c_uint32, ctypes.c_uint64, _AT, _SIZE, _SIZE, _AT, _SIZE, _AT, _SIZE, _AT, _SIZE, _AT, _AT),
    "save": (_AT, ctypes.c_uint16, _SIZE, _AT),
    "memory_refused": (_AT, ctypes.c_uint16, _AT),
    "status": (_AT, ctypes.c_uint16, _AT),
    "describe": (_AT, ctypes.c_uint16, ctypes.c_uint32, _AT),
    "program_cost": (_AT, ctypes.c_uint16, ctypes.c_uint32, _AT),
    "verify": (_AT, ctypes.c_uint16, _AT, _SIZE, ctypes.c_uint32, _AT, _SIZE, _AT),
    "prepare": (_AT, _AT, _SIZE, _AT, _SIZE, _AT),
    "install": (_AT, ctypes.c_uint16, _AT, _AT),
    "prepared_free": (_AT,),
    "free": (_AT,),
}


class CountsStruct(ctypes.Structure):
    """How much a tenant has, as in bpfhost.h."""

    _fields_ = [(name, ctypes.c_uint32) for name in ("maps", "entries", "value_bytes", "programs", "descriptors")] + [
        ("memory_refused", ctypes.c_bool)
    ]


class LoggedStruct(ctypes.Structure):
    """The length of a log, and the verdict."""

    _fields_ = [("length", _SIZE), ("is_accepted", ctypes.c_bool)]


@dataclass
class Functions:
    """The functions of an opened library. Each returns a code, 0 if it is done; but `version` and `abi` return numbers, and `free` nothing."""

    version: Any
    abi: Any
    new: Any
    handle: Any
    run_packets: Any
    save: Any
    memory_refused: Any
    status: Any
    describe: Any
    program_cost: Any
    verify: Any
    prepare: Any
    install: Any
    prepared_free: Any
    free: Any

    def saved_part(self, handle: object, tenant: int, part: int) -> tuple[int, bytes]:
        """The code of `save`, and the frames of the part, copied."""
        lent = (_SIZE * 2)()
        code = self.save(handle, tenant, part, lent)
        return code, ctypes.string_at(*lent) if lent[1] else b""


class OneOwner:
    """What frees a host at its end. A copy would free it too, so it can be neither copied nor pickled."""

    def __reduce__(self) -> NoReturn:
        raise TypeError("a host can't be copied: give what saves a tenant to another host, which restores it")


# Calls that may be long: they release Python's lock in any case.
_LONG = ("run_packets", "verify", "prepare")


def lent_bytes(data: object) -> Any:
    """Bytes as ctypes passes them on: the memory of a writable buffer itself, and a copy of another one that is not `bytes`.

    Raises TypeError for what is no buffer, as a str, of which ctypes would pass wide characters.
    """
    if isinstance(data, bytes):
        return data
    with memoryview(data) as view:  # type: ignore[arg-type]
        if view.readonly or not view.c_contiguous or not view.nbytes:
            return view.tobytes()
        return (ctypes.c_char * view.nbytes).from_buffer(data)  # type: ignore[arg-type]


def functions_of(path: str, keeps_lock: bool = False) -> Functions:
    """Opens a library. Raises OSError if it is no shared object, and AttributeError if one of the functions is missing, or if they are
    those of another binary interface.

    A call releases Python's global interpreter lock. With `keeps_lock` only a run of packets and a verification do: that is better for one
    thread, and short calls.
    """
    long = ctypes.CDLL(path)
    short = ctypes.PyDLL(path) if keeps_lock else long
    if (abi := _function(short, "abi")()) != ABI:
        raise AttributeError(f"its functions are of the binary interface {abi}, and this client calls those of {ABI}")
    return Functions(**{name: _function(long if name in _LONG else short, name) for name in _PARAMETERS})


def _function(opened: ctypes.CDLL, name: str) -> Any:
    function = getattr(opened, f"bpfhost_c_{name}", None)
    if function is None:
        raise AttributeError(f"it has no bpfhost_c_{name}")
    function.argtypes = _PARAMETERS[name]
    function.restype = None if name in ("free", "prepared_free") else ctypes.c_uint32 if name in ("version", "abi") else ctypes.c_int32
    return function


def version_text(functions: Functions) -> str:
    """The version of a library, as it is written."""
    number = functions.version()
    return f"{number >> 16}.{number >> 8 & 255}.{number & 255}"
