#!/usr/bin/env python3
"""Makes the capture of this example, with the same bytes in each run. usage: make_capture.py FILE

It has what a filter meets: ARP, IPv4 and IPv6, TCP, UDP and ICMP, fragments and VLAN tags; and packets that are cut off in each
of their headers, or have wrong fields. It needs dpkt (Debian: python3-dpkt).
"""

from __future__ import annotations

import random
import sys
from collections.abc import Iterator
from typing import SupportsBytes

import dpkt
from dpkt.arp import ARP
from dpkt.ethernet import ETH_TYPE_ARP, ETH_TYPE_IP, ETH_TYPE_IP6, Ethernet
from dpkt.icmp import ICMP
from dpkt.icmp6 import ICMP6
from dpkt.ip import IP
from dpkt.ip6 import IP6
from dpkt.tcp import TCP
from dpkt.udp import UDP

CLIENT, SERVER = bytes.fromhex("02000000000a"), bytes.fromhex("020000000035")
# How many packets each flow has, in the order of the flows; the ten busiest are unambiguous.
PACKETS_OF_FLOW = (40, 33, 27, 21, 16, 12, 9, 7, 5, 4, 2, 1, 1)
SEED = 37
START = 1_700_000_000
IP_HEAD, UDP_HEAD = 14, 34


def ethernet(kind: int, inner: object) -> bytes:
    """An Ethernet frame."""
    return bytes(Ethernet(src=CLIENT, dst=SERVER, type=kind, data=inner))


def ipv4(inner: object, protocol: int, host: int = 1, **fields: int) -> bytes:
    """A frame with an IPv4 packet from 192.0.2.HOST to 198.51.100.53."""
    source, destination = bytes([192, 0, 2, host]), bytes([198, 51, 100, 53])
    packet = IP(src=source, dst=destination, p=protocol, data=inner, **fields)
    packet.len = len(packet)
    return ethernet(ETH_TYPE_IP, packet)


def ipv6(inner: SupportsBytes, next_header: int) -> bytes:
    """A frame with an IPv6 packet from 2001:db8::1 to 2001:db8::35."""
    prefix = bytes.fromhex("20010db8") + bytes(11)
    packet = IP6(src=prefix + b"\x01", dst=prefix + b"\x35", nxt=next_header, data=inner)
    packet.plen = len(bytes(inner))
    return ethernet(ETH_TYPE_IP6, packet)


def udp(size: int, port: int = 53, host: int = 1) -> UDP:
    """A UDP datagram of so many bytes of data."""
    return UDP(sport=40_000 + host, dport=port, ulen=8 + size, data=bytes(size))


def tcp(size: int, port: int = 443, host: int = 1) -> TCP:
    """A TCP segment of so many bytes of data."""
    return TCP(sport=50_000 + host, dport=port, flags=dpkt.tcp.TH_ACK, data=bytes(size))


def flow(host: int, size: int) -> bytes:
    """A packet of the flow of a host: TCP for even numbers, UDP for odd ones."""
    if host % 2:
        return ipv4(udp(size, host=host), dpkt.ip.IP_PROTO_UDP, host)
    return ipv4(tcp(size, host=host), dpkt.ip.IP_PROTO_TCP, host)


def flows() -> list[bytes]:
    """The packets of all flows, mixed."""
    draw = random.Random(SEED)
    hosts = [host for host, many in enumerate(PACKETS_OF_FLOW, 1) for _ in range(many)]
    draw.shuffle(hosts)
    return [flow(host, draw.randrange(200)) for host in hosts]


def others() -> Iterator[bytes]:
    """Whole packets of other kinds."""
    question = ARP(sha=CLIENT, spa=bytes([192, 0, 2, 1]), tpa=bytes([192, 0, 2, 53]))
    yield ethernet(ETH_TYPE_ARP, question)
    yield ethernet(ETH_TYPE_ARP, ARP(op=dpkt.arp.ARP_OP_REPLY, sha=SERVER, tha=CLIENT))
    echo = ICMP(type=dpkt.icmp.ICMP_ECHO, data=ICMP.Echo(id=1, seq=1, data=bytes(48)))
    yield ipv4(echo, dpkt.ip.IP_PROTO_ICMP)
    yield ipv6(ICMP6(type=128, data=bytes(8)), dpkt.ip.IP_PROTO_ICMP6)
    yield ipv6(tcp(20), dpkt.ip.IP_PROTO_TCP)
    yield ipv6(udp(20), dpkt.ip.IP_PROTO_UDP)
    fragment = bytes([dpkt.ip.IP_PROTO_UDP, 0, 0, 1]) + bytes(4)
    yield ipv6(fragment + bytes(udp(20)), dpkt.ip.IP_PROTO_FRAGMENT)
    yield ipv6(bytes([dpkt.ip.IP_PROTO_ICMP6]) + bytes(7 + 16), dpkt.ip.IP_PROTO_FRAGMENT)
    yield ipv4(udp(1000), dpkt.ip.IP_PROTO_UDP, mf=1)
    yield ipv4(bytes(64), dpkt.ip.IP_PROTO_UDP, offset=125)
    yield ipv4(bytes(20), dpkt.ip.IP_PROTO_IGMP)


def tagged() -> Iterator[bytes]:
    """Packets with VLAN tags: one tag of each of three types, and two tags."""
    inner = ipv4(udp(30), dpkt.ip.IP_PROTO_UDP)
    segment = ipv4(tcp(30), dpkt.ip.IP_PROTO_TCP)
    for packet in (inner, segment, ipv6(udp(9), dpkt.ip.IP_PROTO_UDP)):
        for kind in ("8100", "88a8", "9100"):
            yield packet[:12] + bytes.fromhex(kind) + b"\x00\x05" + packet[12:]
    yield inner[:12] + bytes.fromhex("88a8 0005 8100 0006") + inner[12:]


def cut_off() -> Iterator[bytes]:
    """Packets that end too early: in each header, and before and after each byte that a filter reads."""
    segment, datagram = ipv4(tcp(10), dpkt.ip.IP_PROTO_TCP), ipv6(udp(10), dpkt.ip.IP_PROTO_UDP)
    fragment = ipv6(bytes([dpkt.ip.IP_PROTO_TCP]) + bytes(7), dpkt.ip.IP_PROTO_FRAGMENT)
    yield from (segment[:length] for length in (0, 1, 13, 14, 23, 24, 33, 34, 37, 38, 53, 54))
    yield from (datagram[:length] for length in (20, 21, 53, 54))
    yield from (fragment[:length] for length in (54, 55))
    behind_tag = segment[:12] + bytes.fromhex("8100 0005") + segment[12:]
    yield from (behind_tag[:length] for length in (14, 17, 18, 27, 28, 41, 42))


def malformed() -> Iterator[bytes]:
    """Packets that are whole but wrong: in lengths, versions and types."""
    datagram = bytearray(ipv4(udp(10), dpkt.ip.IP_PROTO_UDP))
    for at, value in ((IP_HEAD, 0x41), (IP_HEAD, 0x4F), (IP_HEAD, 0x65), (IP_HEAD + 2, 0xFF), (UDP_HEAD + 4, 0xFF)):
        wrong = bytearray(datagram)
        wrong[at] = value
        yield bytes(wrong)
    yield ethernet(0x0200, bytes(60))
    yield ethernet(0xFFFF, bytes(10))
    yield ethernet(ETH_TYPE_IP, b"")
    yield bytes(60)
    yield b"\xff" * 60


def records() -> Iterator[tuple[bytes, int]]:
    """All packets, each with its captured length."""
    for packet in (*flows(), *others(), *tagged(), *cut_off(), *malformed()):
        yield packet, len(packet)
    long = ipv4(udp(1400), dpkt.ip.IP_PROTO_UDP)
    yield long[:96], len(long)


def main() -> None:
    """Writes the capture."""
    if len(sys.argv) != 2:
        sys.exit("usage: make_capture.py FILE")
    with open(sys.argv[1], "wb") as file:
        file.write(bytes(dpkt.pcap.LEFileHdr(magic=dpkt.pcap.TCPDUMP_MAGIC, snaplen=1514)))
        for number, (packet, length) in enumerate(records()):
            head = dpkt.pcap.LEPktHdr(tv_sec=START + number // 100, tv_usec=number % 100 * 10_000, caplen=len(packet), len=length)
            file.write(bytes(head) + packet)


main()
