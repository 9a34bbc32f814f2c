"""Reads packets of a network interface as they arrive, by a packet socket of Linux (packet(7)). Needs root or CAP_NET_RAW."""

from __future__ import annotations

import fcntl
import socket
import struct
import time
from collections.abc import Iterator
from contextlib import contextmanager
from dataclasses import dataclass, field, replace

from bpfhost.captures.piece import LONGEST_CAPTURED, MOST_PACKETS, Capture, Piece, Stamp
from bpfhost.errors import CaptureError
from bpfhost.numbers import LONGEST_PACKET
from bpfhost.packets import ETHERNET

# linux/if_packet.h, linux/if_ether.h, linux/if_arp.h and asm-generic/socket.h.
_SOL_PACKET, _STATISTICS, _AUXDATA, _VLAN_IS_VALID, _TPID_IS_VALID = 263, 6, 8, 0x10, 0x40
_ETH_P_ALL, _ETH_P_8021Q, _OUTGOING = 3, 0x8100, 4
_ARPHRD_ETHER, _ARPHRD_LOOPBACK = 1, 772
_TIMESTAMPS = 35
_AUX, _TIME, _COUNTS = struct.Struct("=IIIHHHH"), struct.Struct("@qq"), struct.Struct("=II")
_RAW_IP, _LINUX_SLL2 = 101, 276
# The name of all interfaces together, and the header of a packet of them (LINKTYPE_LINUX_SLL2 of tcpdump.org/linktypes.html): the type of
# its payload, the interface, its hardware type, whether the packet is incoming, and the sender's address with its length.
ANY = "any"
_COOKED = struct.Struct(">HxxIHBB8s")
# The request for an interface's hardware type, which follows its name (netdevice(7)).
_SIOCGIFHWADDR, _HARDWARE = 0x8927, struct.Struct("=16xH14x")
# How many bytes of packets the kernel buffers while the reader is busy.
_KEPT = 1 << 23
_BEHIND_ADDRESSES = 12


@dataclass(frozen=True)
class _Arrived(Piece):
    """Packets with their kernel timestamps, in nanoseconds."""

    times: list[int] = field(kw_only=True)

    def stamp(self, at: int) -> Stamp:
        return Stamp(self.times[at] // 1_000_000_000, self.times[at] % 1_000_000_000, self.wires[at])

    def _some(self, at: int, end: int) -> _Arrived:
        return replace(super()._some(at, end), times=self.times[at:end])


class InterfaceCapture(Capture):
    """The packets of an interface, or of all, in both directions, without an end. After so many seconds it yields a piece, even an empty one."""

    has_nanoseconds = True

    def __init__(self, name: str, opened: socket.socket, pause: float) -> None:
        """Reads packets of a socket that is bound to the interface of this name."""
        self.name = name
        self.bytes_read = self.packets_read = 0
        self.comments = []
        self._socket = opened
        self._pause = pause
        self._is_any = name == ANY
        self._indices: dict[str, int] = {}
        if self._is_any:
            self._link_type = _LINUX_SLL2
            return
        kind = _HARDWARE.unpack(fcntl.ioctl(opened, _SIOCGIFHWADDR, struct.pack("32s", name.encode())))[0]
        self._link_type = ETHERNET if kind in (_ARPHRD_ETHER, _ARPHRD_LOOPBACK) else _RAW_IP

    def size(self) -> int | None:
        """An interface has no size."""
        return None

    def _next_piece(self, data: bytes, at: int, most: int) -> tuple[Piece | None, int]:
        raise NotImplementedError

    def pieces(self, most: int = MOST_PACKETS) -> Iterator[Piece]:
        """Yields the packets in pieces, in order. Raises CaptureError if the interface is gone."""
        while True:
            packets: list[tuple[bytes, int]] = []
            until = time.monotonic() + min(self._pause, self.seconds or self._pause)
            while len(packets) < most and (left := until - time.monotonic()) > 0:
                found = self._receive(left)
                if found is not None:
                    packets.append(found)
            yield from self._pieces_of(packets)

    def dropped(self) -> int:
        """How many packets the kernel has dropped since the last call, as nobody read them in time."""
        return int(_COUNTS.unpack(self._socket.getsockopt(_SOL_PACKET, _STATISTICS, _COUNTS.size))[1])

    def _receive(self, seconds: float) -> tuple[bytes, int] | None:
        """A packet and its time; None if none arrives in so many seconds, or for the second copy of a packet on the loopback interface."""
        self._socket.settimeout(seconds)
        try:
            packet, notes, _, address = self._socket.recvmsg(LONGEST_CAPTURED, 256)
        except TimeoutError:
            return None
        except OSError as error:
            raise self.error(error.strerror or "it can't be read") from error
        if address[3] == _ARPHRD_LOOPBACK and address[2] == _OUTGOING:
            return None
        if self._is_any:
            packet = self._cooked(address) + packet
        arrived = time.time_ns()
        for level, kind, data in notes:
            if level == socket.SOL_SOCKET and kind == _TIMESTAMPS:
                seconds_of, nanoseconds = _TIME.unpack(data)
                arrived = seconds_of * 1_000_000_000 + nanoseconds
            elif level == _SOL_PACKET and kind == _AUXDATA and not self._is_any:
                packet = _with_tag(packet, data)
        return packet, arrived

    def _cooked(self, address: tuple[str, int, int, int, bytes]) -> bytes:
        """The header of a packet of all interfaces, from the address that it came with."""
        name, protocol, direction, hardware, sender = address
        if name not in self._indices:
            try:
                self._indices[name] = socket.if_nametoindex(name)
            except OSError:
                # The interface is gone.
                return _COOKED.pack(protocol, 0, hardware, direction, len(sender), sender[:8])
        return _COOKED.pack(protocol, self._indices[name], hardware, direction, len(sender), sender[:8])

    def _pieces_of(self, packets: list[tuple[bytes, int]]) -> Iterator[Piece]:
        """What has arrived, with each oversized packet in a piece of its own; an empty piece if nothing has."""
        self.packets_read += len(packets)
        self.bytes_read += sum(len(packet) for packet, _ in packets)
        short: list[tuple[bytes, int]] = []
        for packet, arrived in packets:
            if len(packet) > LONGEST_PACKET:
                yield self._piece(short)
                short = []
                yield self._piece([(packet, arrived)], len(packet))
            else:
                short.append((packet, arrived))
        yield self._piece(short)

    def _piece(self, packets: list[tuple[bytes, int]], whole: int | None = None) -> Piece:
        starts, at = [], 0
        for packet, _ in packets:
            starts.append(at)
            at += len(packet)
        wires = [len(packet) for packet, _ in packets]
        lengths = [min(wire, LONGEST_PACKET) for wire in wires]
        times = [arrived for _, arrived in packets]
        joined = b"".join(packet for packet, _ in packets)
        return _Arrived(joined, starts, lengths, self._link_type, wires=wires, whole=whole, times=times)


def _with_tag(packet: bytes, auxiliary: bytes) -> bytes:
    """The packet with the VLAN tag that the kernel has removed, as captures have it."""
    status, _, _, _, _, tag, protocol = _AUX.unpack(auxiliary[: _AUX.size])
    if not status & _VLAN_IS_VALID:
        return packet
    kind = protocol if status & _TPID_IS_VALID else _ETH_P_8021Q
    return packet[:_BEHIND_ADDRESSES] + struct.pack(">HH", kind, tag) + packet[_BEHIND_ADDRESSES:]


@contextmanager
def open_interface(name: str, pause: float = 0.2) -> Iterator[InterfaceCapture]:
    """Opens an interface, or all of them by the name `any`. Raises CaptureError if there is no such one, or if it may not be read."""
    try:
        opened = socket.socket(socket.AF_PACKET, socket.SOCK_DGRAM if name == ANY else socket.SOCK_RAW, socket.htons(_ETH_P_ALL))
    except PermissionError as error:
        raise CaptureError(f"{name}: only root, or a process with CAP_NET_RAW, reads packets of an interface") from error
    except (AttributeError, OSError) as error:
        raise CaptureError(f"{name}: this system has no packet sockets") from error
    with opened:
        try:
            if name != ANY:
                opened.bind((name, 0))
            opened.setsockopt(socket.SOL_SOCKET, _TIMESTAMPS, 1)
            opened.setsockopt(_SOL_PACKET, _AUXDATA, 1)
            opened.setsockopt(socket.SOL_SOCKET, socket.SO_RCVBUF, _KEPT)
            yield InterfaceCapture(name, opened, pause)
        except OSError as error:
            raise CaptureError(f"{name}: {error.strerror}") from error
