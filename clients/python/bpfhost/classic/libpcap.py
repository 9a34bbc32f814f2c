"""libpcap's compiler of expressions, by ctypes: the classic program of an expression for a link type (pcap-filter(7))."""

from __future__ import annotations

import contextlib
import ctypes
import re
from collections.abc import Iterator
from functools import cache

from bpfhost.classic.errors import ExpressionError, MissingLibrary
from bpfhost.classic.instructions import Instruction
from bpfhost.packets import ETHERNET

# The version of the library's interface, which is in the file's name on Linux distributions.
_LIBRARY = "libpcap.so.0.8"
# The most bytes that a whole packet has, as tcpdump sets it: a filter returns so many bytes for a packet that it keeps.
SNAPSHOT = 262_144
# The longest expression; libpcap accepts longer ones, and takes more time for them.
LONGEST_EXPRESSION = 65_536
_LONGEST_SHOWN = 100
# Link types whose number in captures differs from libpcap's number in memory (libpcap's pcap-common.c, "LINKTYPE_").
_IN_MEMORY = {100: 11, 101: 12, 102: 15, 103: 16, 106: 19}
_NO_NUMBER = -1
# The size of libpcap's buffer for an error, that of a pcap file's header, and libpcap's number for timestamps in nanoseconds or not.
_ERROR_SIZE, _HEADER_SIZE, _NANOSECONDS, _MICROSECONDS = 256, 24, 1, 0
# The error of libpcap for an expression that its grammar does not have, and how many beginnings of the expression are then tried.
_SYNTAX, _MOST_BEGINNINGS = "syntax error", 100


class _Instruction(ctypes.Structure):
    """`struct bpf_insn`."""

    _fields_ = [("code", ctypes.c_ushort), ("jt", ctypes.c_ubyte), ("jf", ctypes.c_ubyte), ("k", ctypes.c_uint32)]


class _Program(ctypes.Structure):
    """`struct bpf_program`."""

    _fields_ = [("count", ctypes.c_uint), ("instructions", ctypes.POINTER(_Instruction))]


@cache
def library() -> ctypes.CDLL:
    """The library; raises MissingLibrary if it is not there."""
    try:
        found = ctypes.CDLL(_LIBRARY)
    except OSError as error:
        raise MissingLibrary from error
    handle, text, program = ctypes.c_void_p, ctypes.c_char_p, ctypes.POINTER(_Program)
    found.pcap_open_dead.restype, found.pcap_open_dead.argtypes = handle, [ctypes.c_int, ctypes.c_int]
    found.pcap_compile.restype = ctypes.c_int
    found.pcap_compile.argtypes = [handle, program, text, ctypes.c_int, ctypes.c_uint32]
    found.pcap_geterr.restype, found.pcap_geterr.argtypes = text, [handle]
    found.pcap_freecode.restype, found.pcap_freecode.argtypes = None, [program]
    found.pcap_close.restype, found.pcap_close.argtypes = None, [handle]
    found.pcap_datalink_name_to_val.restype, found.pcap_datalink_name_to_val.argtypes = ctypes.c_int, [text]
    found.pcap_fopen_offline_with_tstamp_precision.restype = handle
    found.pcap_fopen_offline_with_tstamp_precision.argtypes = [handle, ctypes.c_uint, text]
    found.pcap_dump_fopen.restype, found.pcap_dump_fopen.argtypes = handle, [handle, handle]
    found.pcap_dump_close.restype, found.pcap_dump_close.argtypes = None, [handle]
    return found


@cache
def _c_library() -> ctypes.CDLL:
    """The C library that libpcap uses, for files that are in memory."""
    found = ctypes.CDLL(None)
    found.fmemopen.restype, found.fmemopen.argtypes = ctypes.c_void_p, [ctypes.c_void_p, ctypes.c_size_t, ctypes.c_char_p]
    found.fclose.restype, found.fclose.argtypes = ctypes.c_int, [ctypes.c_void_p]
    return found


def is_there() -> bool:
    """Whether expressions can be compiled."""
    try:
        library()
    except MissingLibrary:
        return False
    return True


def link_type_number(name: str) -> int:
    """A link type by its number in captures, or by libpcap's name, as `EN10MB`, `RAW` or `LINUX_SLL`; raises ValueError if it is none."""
    if name.isascii() and name.isdecimal() and int(name) < 2**16:
        return int(name)
    found = library().pcap_datalink_name_to_val(name.encode()) if name.isascii() else _NO_NUMBER
    if found == _NO_NUMBER:
        raise ValueError(f"{name} is no link type")
    return {memory: capture for capture, memory in _IN_MEMORY.items()}.get(found, int(found))


def compile_expression(
    expression: str,
    link_type: int = ETHERNET,
    *,
    netmask: int = 0,
    snapshot: int = SNAPSHOT,
    optimized: bool = True,
    savefile: bytes | None = None,
) -> list[Instruction]:
    """The classic program of an expression for packets of a link type, as captures number it.

    Raises ExpressionError if libpcap refuses the expression. `netmask` is what `ip broadcast` compares with, the first byte of the mask
    the lowest one, and 0 as for captures that tcpdump reads. `snapshot` is what the program returns for a packet that it keeps. With the
    header of a capture in `savefile`, the program is the one that tcpdump has for that capture, and the link type and the snapshot length
    are those of the header, if libpcap reads it.
    """
    if "\0" in expression or len(expression) > LONGEST_EXPRESSION:
        raise ExpressionError(f"an expression has no zero byte, and {LONGEST_EXPRESSION:,} characters at most")
    pcap, program = library(), _Program()
    with _opened(savefile, link_type, snapshot) as handle:
        if pcap.pcap_compile(handle, ctypes.byref(program), expression.encode(), int(optimized), netmask):
            told = pcap.pcap_geterr(handle).decode(errors="replace")
            where = _where(handle, expression) if _SYNTAX in told else ""
            raise ExpressionError(f"the expression '{shown(expression)}' is refused by libpcap: {told}{where}")
        found = [program.instructions[at] for at in range(program.count)]
        instructions = [Instruction(each.code, each.jt, each.jf, each.k) for each in found]
        pcap.pcap_freecode(ctypes.byref(program))
        return instructions


def written_header(savefile: bytes, has_nanoseconds: bool) -> bytes | None:
    """The file header that tcpdump writes for packets of the capture with this header; None if libpcap does not read it."""
    pcap, written = library(), ctypes.create_string_buffer(2 * _HEADER_SIZE)
    with _offline(savefile, _NANOSECONDS if has_nanoseconds else _MICROSECONDS) as handle:
        if not handle:
            return None
        file = _c_library().fmemopen(written, len(written), b"wb")
        dumper = pcap.pcap_dump_fopen(handle, file)
        if not dumper:
            _c_library().fclose(file)
            return None
        pcap.pcap_dump_close(dumper)
    return written.raw[:_HEADER_SIZE]


@contextlib.contextmanager
def _opened(savefile: bytes | None, link_type: int, snapshot: int) -> Iterator[int]:
    """A handle of libpcap: of the capture with this header, if libpcap reads it, or else of no capture."""
    pcap = library()
    with _offline(savefile, _MICROSECONDS) as handle:
        if handle:
            yield handle
            return
    handle = pcap.pcap_open_dead(_IN_MEMORY.get(link_type, link_type), snapshot)
    if not handle:
        raise MemoryError
    try:
        yield handle
    finally:
        pcap.pcap_close(handle)


@contextlib.contextmanager
def _offline(savefile: bytes | None, precision: int) -> Iterator[int | None]:
    """A handle of the capture with this header, with timestamps of a precision; None if there is no header, or if libpcap refuses it."""
    if savefile is None:
        yield None
        return
    header, error = ctypes.create_string_buffer(savefile, len(savefile)), ctypes.create_string_buffer(_ERROR_SIZE)
    file = _c_library().fmemopen(header, len(savefile), b"rb")
    if not file:
        raise MemoryError
    handle = library().pcap_fopen_offline_with_tstamp_precision(file, precision, error)
    if not handle:
        _c_library().fclose(file)
        yield None
        return
    try:
        yield handle
    finally:
        # This closes the file too.
        library().pcap_close(handle)


def _where(handle: int, expression: str) -> str:
    """The place of an error, which libpcap does not report: after the longest beginning that is an expression by itself."""
    pcap, program = library(), _Program()
    ends = [found.start() for found in re.finditer(r"\s+|[()]", expression)][:_MOST_BEGINNINGS]
    for end in reversed(ends):
        begun = expression[:end].strip()
        if begun and not pcap.pcap_compile(handle, ctypes.byref(program), begun.encode(), 0, 0):
            pcap.pcap_freecode(ctypes.byref(program))
            return f", behind '{shown(begun)}'"
    return ", before anything that is an expression by itself"


def shown(expression: str) -> str:
    """An expression, shortened for a sentence, and without control characters."""
    cut = expression if len(expression) <= _LONGEST_SHOWN else f"{expression[:_LONGEST_SHOWN]}..."
    return "".join(sign if sign.isprintable() else "?" for sign in cut)
