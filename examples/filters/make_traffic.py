#!/usr/bin/env python3
"""Makes the capture that the filters run on, with the same bytes in each run. usage: make_traffic.py FILE

It has what they look at: flows of TCP and UDP, names in DNS and TLS, DHCP, ARP, NTP, HTTP, ICMP, tunnels, fragments, VLAN tags,
extension headers of IPv6; and for each some packets that are cut off or changed.
"""

from __future__ import annotations

import random
import struct
import sys
from collections.abc import Iterator

SEED = 56
# How many packets that are cut off or changed are made from each whole one.
DAMAGED = 3
SYN, ACK = 2, 16


def ethernet(kind: int, inner: bytes, source: int = 1, destination: bytes = bytes([2, 0, 0, 0, 0, 2])) -> bytes:
    """A frame of station 02:00:00:00:00:SOURCE."""
    return destination + bytes([2, 0, 0, 0, 0, source]) + struct.pack(">H", kind) + inner


def checksum(header: bytes) -> int:
    """The checksum of RFC 1071."""
    total: int = sum(struct.unpack(f">{len(header) // 2}H", header))
    total = (total & 0xFFFF) + (total >> 16)
    return 0xFFFF - (total & 0xFFFF) - (total >> 16)


def ipv4(protocol: int, inner: bytes, host: int = 1, to: int = 53, service: int = 0, fragment: int = 0, number: int = 7) -> bytes:
    """A packet of 192.0.2.HOST to 198.51.100.TO, in a frame."""
    source, destination = bytes([192, 0, 2, host]), bytes([198, 51, 100, to])
    fields = (0x45, service, 20 + len(inner), number, fragment, 64 - host, protocol)
    header = struct.pack(">BBHHHBB", *fields) + bytes(2) + source + destination
    header = header[:10] + struct.pack(">H", checksum(header)) + header[12:]
    return ethernet(0x0800, header + inner, host)


def ipv6(following: int, inner: bytes, host: int = 1) -> bytes:
    """A packet of 2001:db8::HOST to 2001:db8::35, in a frame."""
    prefix = bytes.fromhex("20010db8") + bytes(11)
    header = struct.pack(">IHBB", 6 << 28, len(inner), following, 64 - host)
    return ethernet(0x86DD, header + prefix + bytes([host]) + prefix + b"\x35" + inner, host)


def udp(source: int, destination: int, data: bytes) -> bytes:
    """A UDP datagram."""
    return struct.pack(">HHHH", source, destination, 8 + len(data), 0) + data


def tcp(source: int, destination: int, data: bytes = b"", flags: int = ACK, options: bytes = b"") -> bytes:
    """A TCP segment."""
    offset = 5 + len(options) // 4
    return struct.pack(">HHIIBBHHH", source, destination, 1, 2, offset << 4, flags, 512, 0, 0) + options + data


def question(name: str, kind: int = 1) -> bytes:
    """A DNS query."""
    labels = b"".join(bytes([len(label)]) + label.encode() for label in name.split(".") if label)
    return struct.pack(">HHHHHH", 1, 0x100, 1, 0, 0, 0) + labels + b"\0" + struct.pack(">HH", kind, 1)


def hello(name: str | None, before: int = 2) -> bytes:
    """A TLS ClientHello with so many extensions before that of the server's name."""
    extensions = b"".join(struct.pack(">HH", 10 + number, number) + bytes(number) for number in range(before))
    if name is not None:
        host = b"\0" + struct.pack(">H", len(name)) + name.encode()
        extensions += struct.pack(">HHH", 0, len(host) + 2, len(host)) + host
    session, suites = bytes(32), bytes(range(8))
    body = b"\3\3" + bytes(32) + bytes([len(session)]) + session + struct.pack(">H", len(suites)) + suites + b"\1\0"
    body += struct.pack(">H", len(extensions)) + extensions
    message = b"\1" + struct.pack(">I", len(body))[1:] + body
    return b"\x16\3\1" + struct.pack(">H", len(message)) + message


def dhcp(kind: int, before: int) -> bytes:
    """A DHCP message, whose type follows so many other options."""
    options = b"\0".join(bytes([60 + number, number]) + bytes(number) for number in range(before))
    return bytes([1, 1, 6, 0]) + bytes(232) + bytes.fromhex("63825363") + options + (bytes([53, 1, kind]) if kind else b"") + b"\xff"


def arp(operation: int, sender: int, address: int, target: int, mac: int | None = None) -> bytes:
    """An ARP request or reply."""
    head = struct.pack(">HHBBH", 1, 0x0800, 6, 4, operation)
    body = bytes([2, 0, 0, 0, 0, mac or sender, 192, 0, 2, address]) + bytes(6) + bytes([192, 0, 2, target])
    return ethernet(0x0806, head + body, sender, b"\xff" * 6)


def flows(chance: random.Random) -> Iterator[bytes]:
    """Flows of TCP and UDP in both directions, of several hosts."""
    for _ in range(160):
        host, to, port = chance.randrange(1, 9), chance.randrange(50, 54), chance.choice((22, 53, 80, 123, 443, 4000, 8080))
        data, service = bytes(chance.randrange(300)), int(chance.random() < 0.03)
        if chance.random() < 0.5:
            flags = chance.choice((SYN, SYN, ACK, SYN | ACK, 0x11, 0x18, 4))
            yield ipv4(6, tcp(40_000 + host, port, data, flags, bytes(4 * chance.randrange(3))), host, to, service)
        else:
            yield ipv4(17, udp(*chance.choice(((50_000 + host, port), (port, 50_000 + host))), data), host, to, service)


def names() -> Iterator[bytes]:
    """DNS queries and TLS ClientHellos."""
    for at, name in enumerate(("example.org", "www.example.com", "a.b.c.d.e", "x", "a-very-long-name.with.many.labels.example.net")):
        for kind in (1, 28, 15, 65, 255):
            yield ipv4(17, udp(53_000 + at, 53, question(name, kind)), 1 + at)
        yield ipv4(6, tcp(44_000 + at, 443, hello(name, at)), 1 + at)
        yield ipv4(6, tcp(44_000 + at, 443, hello(name, at), options=bytes(12)), 1 + at)
    yield ipv4(6, tcp(44_100, 443, hello(None, 3)))
    yield ipv4(6, tcp(44_101, 443, hello("far.example.org", 20)))
    yield ipv4(6, tcp(443, 44_101, b"\x17\3\3\0\4abcd"))
    yield ipv4(6, tcp(443, 44_101, b"\x15\3\1\0\2\1\0"))


def others() -> Iterator[bytes]:
    """All other kinds of packets that a filter looks at."""
    for kind in range(9):
        yield ipv4(17, udp(68, 67, dhcp(kind, kind)), 1 + kind)
        yield ipv4(17, udp(67, 68, dhcp(kind, 0)))
    yield ipv4(17, udp(68, 67, dhcp(0, 30)))
    for sender in range(1, 6):
        yield arp(1, sender, sender, 9)
        yield arp(2, sender, sender, sender)
        yield arp(2, sender, 1 + sender % 2, 3, 40 + sender)
    for first in (0x1B, 0x23, 0x24, 0x17, 0x27):
        yield ipv4(17, udp(123, 123, bytes([first]) + bytes(47)))
    for word in (b"GET / HTTP/1.1\r\n", b"PUT /x", b"POST /y", b"HEAD /", b"DELETE /z", b"GETS", b"PATCH /"):
        yield ipv4(6, tcp(45_000, 80, word))
    for kind in (0, 3, 5, 8, 11):
        yield ipv4(1, bytes([kind, 0]) + bytes(30))
        yield ipv6(58, bytes([128 + kind, 0]) + bytes(30))
    yield from tunnels()
    yield from headers()
    yield from tagged()


def tunnels() -> Iterator[bytes]:
    """Packets in packets, and fragments."""
    inner = ipv4(17, udp(1, 2, b"abc"))[14:]
    yield ipv4(4, inner)
    for flags, more in ((0, 0), (0x80, 4), (0x20, 4), (0xB0, 12)):
        yield ipv4(47, bytes([flags, 0]) + struct.pack(">H", 0x0800) + bytes(more) + inner)
    for place in (0x2000, 0x2010, 0x0020):
        yield ipv4(17, bytes(120), 2, fragment=place)
        yield ipv4(17, bytes(64), 3, fragment=place, number=8)
    for protocol in (2, 8, 41, 50, 51, 89, 112, 132, 200):
        yield ipv4(protocol, bytes(40))


def headers() -> Iterator[bytes]:
    """Extension headers of IPv6, none to ten."""
    for count in range(11):
        kinds = ([0, 43, 60, 44, 51] * 3)[:count]
        inner = b"".join(bytes([following, 0]) + bytes(6) for following in (*kinds[1:], 17)[: len(kinds)])
        yield ipv6(kinds[0] if kinds else 17, inner + udp(1, 2, b"data"))
    yield ipv6(0, bytes([6, 1]) + bytes(14) + tcp(1, 2), 2)


def tagged() -> Iterator[bytes]:
    """Frames with VLAN tags, and to multicast addresses."""
    frame = ipv4(17, udp(1, 2, b"data"))
    for tags in ("8100 0005", "88a8 0006", "88a8 0007 8100 0008", "8100 0009 8100 000a 8100 000b"):
        yield frame[:12] + bytes.fromhex(tags) + frame[12:]
    for destination in ("ffffffffffff", "01005e000001", "333300000001", "0180c2000000"):
        yield bytes.fromhex(destination) + frame[6:]


def damaged(packet: bytes, chance: random.Random) -> bytes:
    """A packet that is cut off, or has another byte."""
    at = chance.randrange(len(packet))
    if chance.random() < 0.6:
        return packet[:at]
    return packet[:at] + bytes([chance.choice((0, 1, 0x45, 0xFF, chance.randrange(256)))]) + packet[at + 1 :]


def packets() -> Iterator[bytes]:
    """All packets."""
    chance = random.Random(SEED)
    for packet in (*flows(chance), *names(), *others()):
        yield packet
        for _ in range(DAMAGED):
            yield damaged(packet, chance)


def main() -> None:
    """Writes the capture, as a pcap file."""
    if len(sys.argv) != 2:
        sys.exit("usage: make_traffic.py FILE")
    with open(sys.argv[1], "wb") as file:
        file.write(struct.pack("<IHHiIII", 0xA1B2C3D4, 2, 4, 0, 0, 65_536, 1))
        for number, packet in enumerate(packets()):
            file.write(struct.pack("<IIII", 1_700_000_000 + number, 0, len(packet), len(packet)) + packet)


if __name__ == "__main__":
    main()
