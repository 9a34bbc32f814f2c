"""Shared by the tests of classic programs: results of this host, of libpcap's interpreter, and of the kernel."""

from __future__ import annotations

import ctypes
import os
import socket
import struct
import unittest
from collections.abc import Sequence
from pathlib import Path

from bpfhost import Context, Packets, Tenant
from bpfhost.classic import ClassicError, Instruction, Translation, libpcap
from bpfhost.classic.program import ClassicProgram

needs_libpcap = unittest.skipUnless(libpcap.is_there(), "libpcap0.8 is missing")
# A factor for the number of cases of the tests.
MANY = int(os.environ.get("BPFHOST_CLASSIC_TIMES", "1"))
EXAMPLES = Path(__file__).resolve().parents[4] / "examples"
_SO_ATTACH_FILTER, _SO_DETACH_FILTER = 26, 27


def translated(program: ClassicProgram, **words: object) -> Translation | None:
    """The translation, or None if there is none because a context word or slots are missing."""
    try:
        return program.translated(**words)  # type: ignore[arg-type]
    except ClassicError:
        return None


def on_host(tenant: Tenant, slots: bytes, packets: Packets, context: Context = Context()) -> list[int]:
    """The results of a program, which the host has to accept."""
    descriptor = tenant.prog_load(slots)
    found = [result for results in tenant.prog_test_runs(descriptor, [packets], context) for result in results]
    tenant.close(descriptor)
    return found


def cut(packets: Sequence[bytes], translation: Translation) -> list[bytes]:
    """The packets, of each the bytes that may decide the result."""
    return [packet[: translation.reach] for packet in packets]


class BpfFilter:
    """libpcap's interpreter on a program: `bpf_filter` of its library."""

    def __init__(self, instructions: Sequence[Instruction]) -> None:
        self._call = libpcap.library().bpf_filter
        self._call.restype = ctypes.c_uint
        self._call.argtypes = [ctypes.c_void_p, ctypes.c_char_p, ctypes.c_uint, ctypes.c_uint]
        self._code = ctypes.create_string_buffer(packed(instructions))

    def run(self, packet: bytes, length: int | None = None) -> int:
        """The result on a packet, which had a length on the wire."""
        return int(self._call(self._code, packet, len(packet) if length is None else length, len(packet)))


def packed(instructions: Sequence[Instruction]) -> bytes:
    """The instructions as `struct bpf_insn` or `struct sock_filter`."""
    return b"".join(struct.pack("HBBI", *each) for each in instructions)


class KernelFilter:
    """The kernel's result of a program, as the filter of a Unix datagram socket: it sees a datagram from its first byte on, and cuts it."""

    def __init__(self, instructions: Sequence[Instruction]) -> None:
        """Attaches the program; raises OSError if the kernel refuses it."""
        self._sender, self._receiver = socket.socketpair(socket.AF_UNIX, socket.SOCK_DGRAM)
        code = ctypes.create_string_buffer(packed(instructions))
        try:
            self._receiver.setsockopt(socket.SOL_SOCKET, _SO_ATTACH_FILTER, struct.pack("HP", len(instructions), ctypes.addressof(code)))
        except OSError:
            self.close()
            raise
        self._receiver.setblocking(False)
        self._sender.setblocking(False)

    def __enter__(self) -> KernelFilter:
        return self

    def __exit__(self, *_: object) -> None:
        self.close()

    def close(self) -> None:
        """Closes the sockets."""
        self._sender.close()
        self._receiver.close()

    def kept(self, packet: bytes) -> int:
        """The number of bytes of a packet that are kept."""
        try:
            self._sender.send(packet)
            return len(self._receiver.recv(len(packet) + 1))
        except (BlockingIOError, PermissionError):
            return 0


def kernel_attaches() -> bool:
    """Whether this machine's kernel takes a filter of a Unix socket, and cuts what it receives."""
    try:
        with KernelFilter([Instruction(0x06, 0, 0, 3)]) as attached:
            return attached.kept(b"four") == 3
    except OSError:
        return False


needs_kernel = unittest.skipUnless(kernel_attaches(), "the kernel attaches no filter to a Unix socket")
