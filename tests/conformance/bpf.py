"""Linux's bpf(2), as far as the commands of frames need it: maps, programs of type SOCKET_FILTER, and test runs."""

from __future__ import annotations

import ctypes
import errno
import os
import platform
import struct

MAP_CREATE, MAP_LOOKUP, MAP_UPDATE, MAP_DELETE, MAP_NEXT_KEY, PROG_LOAD, TEST_RUN = 0, 1, 2, 3, 4, 5, 10
SOCKET_FILTER = 1
SYSCALLS = {"x86_64": 321, "aarch64": 280, "riscv64": 280}
LOG_SIZE = 1 << 20
# capset(2), by which a process keeps only CAP_BPF: then the verifier applies its rules for programs that may not leak pointers.
CAPSET = {"x86_64": 126, "aarch64": 91, "riscv64": 91}
CAP_BPF, CAPABILITY_VERSION = 39, 0x20080522
LIBC = ctypes.CDLL(None, use_errno=True)


class Refused(Exception):
    """A call that the kernel refused: its error number, and the verifier's log."""

    def __init__(self, number: int, log: str = "") -> None:
        super().__init__(errno.errorcode.get(number, str(number)))
        self.number, self.log = number, log


def call(command: int, attributes: bytes) -> int:
    """The system call: its result. Raises Refused."""
    room = ctypes.create_string_buffer(attributes, 160)
    answer = int(LIBC.syscall(SYSCALLS[platform.machine()], command, room, 160))
    if answer < 0:
        raise Refused(ctypes.get_errno())
    return answer


def why_not() -> str | None:
    """Why bpf(2) is not available here; None if it is."""
    if platform.system() != "Linux" or platform.machine() not in SYSCALLS:
        return "this is no Linux on a processor whose number of bpf(2) is known here"
    try:
        os.close(map_create(2, 4, 8, 1, 0))
    except Refused as refused:
        return f"bpf(2) is refused here ({refused})"
    return None


def keep_cap_bpf_alone() -> bool:
    """Drops all capabilities but CAP_BPF for good; returns whether that worked."""
    head = ctypes.create_string_buffer(struct.pack("<Ii", CAPABILITY_VERSION, 0))
    low, high = 0, 1 << (CAP_BPF - 32)
    data = ctypes.create_string_buffer(struct.pack("<6I", low, low, 0, high, high, 0))
    return int(LIBC.syscall(CAPSET[platform.machine()], head, data)) == 0


def room(content: bytes, size: int) -> ctypes.Array[ctypes.c_char]:
    """Bytes that the kernel may read, or write up to this size."""
    return ctypes.create_string_buffer(content, max(size, len(content), 1))


def address(room: ctypes.Array[ctypes.c_char] | None) -> int:
    return ctypes.addressof(room) if room is not None else 0


def map_create(kind: int, key: int, value: int, entries: int, flags: int) -> int:
    return call(MAP_CREATE, struct.pack("<5I", kind, key, value, entries, flags))


def map_call(command: int, fd: int, key: bytes | None, other: ctypes.Array[ctypes.c_char] | None, flags: int = 0) -> None:
    """A call with a key and a value, or a key and the room for the next one."""
    room = ctypes.create_string_buffer(key, max(len(key), 1)) if key is not None else None
    call(command, struct.pack("<I4xQQQ", fd, address(room), address(other), flags))


def prog_load(slots: bytes) -> int:
    """A descriptor. Raises Refused with the verifier's log."""
    code, licence = ctypes.create_string_buffer(slots, len(slots)), ctypes.create_string_buffer(b"Apache-2.0")
    log = ctypes.create_string_buffer(LOG_SIZE)

    def attributes(level: int) -> bytes:
        return struct.pack("<IIQQIIQ", SOCKET_FILTER, len(slots) // 8, address(code), address(licence), level, LOG_SIZE if level else 0,
                           address(log) if level else 0)

    try:
        return call(PROG_LOAD, attributes(0))
    except Refused:
        pass
    try:
        return call(PROG_LOAD, attributes(1))
    except Refused as refused:
        raise Refused(refused.number, log.value.decode(errors="replace")) from None


def test_run(fd: int, packet: bytes) -> int:
    """The low 32 bits of register 0 after a run on a packet, which has an Ethernet header in front that a socket filter does not see."""
    data = ctypes.create_string_buffer(bytes(14) + packet, 14 + len(packet))
    room = ctypes.create_string_buffer(struct.pack("<IIIIQQII", fd, 0, 14 + len(packet), 0, address(data), 0, 1, 0), 160)
    if LIBC.syscall(SYSCALLS[platform.machine()], TEST_RUN, room, 160) < 0:
        raise Refused(ctypes.get_errno())
    return int(struct.unpack_from("<I", room.raw, 4)[0])
