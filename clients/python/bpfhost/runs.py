"""Test runs of a program on many packets: builds their frames in one piece, and reads the results from the replies.

It makes no Python object for each packet, so that the client's part of a run is small compared with the host's.
"""

from __future__ import annotations

import struct
import sys
import time
from array import array
from collections.abc import Iterable, Iterator, Sequence
from typing import TYPE_CHECKING

from bpfhost.errors import ReplyError
from bpfhost.frames import NO_CONTEXT, Context, place_of, prog_test_run
from bpfhost.numbers import LONGEST_PACKET, REPLY_HEAD, Command
from bpfhost.packets import Packets
from bpfhost.prog import Prog
from bpfhost.replies import Reply

if TYPE_CHECKING:
    from bpfhost.host import Host

# The reply to a successful run has four words: its length, the tenant and the command, the status, and the result.
_REPLY_SIZE = REPLY_HEAD + 4
_STATUS, _RESULT = slice(8, REPLY_HEAD), slice(REPLY_HEAD, _REPLY_SIZE)
# A number of a packet in its context.
_NUMBER = struct.Struct("<I")
# Bytes of a frame's length field, and the offset of the context's word `protocol` after it.
_LENGTH, _PROTOCOL = 4, slice(20, 24)
# A lower number is not a type but an IEEE 802.3 length; the kernel uses ETH_P_802_2 for it (linux/if_ether.h).
_LEAST_TYPE, _ETH_P_802_2 = b"\x06\x00", b"\x00\x04"


def _words(replies: bytes) -> array[int]:
    """The whole 32-bit words at the start of bytes."""
    words = array("I", replies[: len(replies) // 4 * 4])
    if sys.byteorder == "big":
        words.byteswap()
    return words


class _Heads:
    """What comes before the packets in the frames of test runs of a program.

    `of_type` has it for each type in an Ethernet header, and for None, in a list by the length of the packet. It has only what `learn` was
    given.
    """

    def __init__(self, tenant: int, program: int, context: Context) -> None:
        self.of_type: dict[int | None, list[bytes]] = {}
        self._head = prog_test_run(tenant, program, b"", context)[_LENGTH:]

    def learn(self, lengths: Sequence[int], types: Iterable[int | None]) -> None:
        """Takes lengths of packets and types in their headers. Raises ValueError if no test run takes such a packet."""
        longest = max(lengths)
        if longest > LONGEST_PACKET:
            raise ValueError(f"a packet has {longest:,} bytes, and that of a test run has {LONGEST_PACKET:,} at most")
        for ethernet_type in set(types):
            heads = self.of_type.setdefault(ethernet_type, [])
            context = self._context(ethernet_type)
            heads += [struct.pack("<I", len(self._head) + length) + context for length in range(len(heads), longest + 1)]

    def _context(self, ethernet_type: int | None) -> bytes:
        head = bytearray(self._head)
        if ethernet_type is not None:
            # The bytes are in the same order as in the packet.
            protocol = ethernet_type.to_bytes(2, "little")
            head[_PROTOCOL] = (protocol if protocol >= _LEAST_TYPE else _ETH_P_802_2) + bytes(2)
        return bytes(head)


class TestRuns:
    """Test runs of one program of one tenant.

    For an Ethernet packet, the context's word `protocol` is the type in its header, in network byte order, as in the kernel (and
    ETH_P_802_2 if the header has a length instead), unless the program does not read it. All other words are those of `context`.
    """

    # Not a class of tests, whatever pytest infers from its name.
    __test__ = False

    def __init__(
        self,
        host: Host,
        tenant: int,
        program: int,
        context: Context = NO_CONTEXT,
        timed: str | None = None,
        reads_protocol: bool = True,
    ) -> None:
        """Prepares runs of a program; `timed` names the word of the context that has a separate number for each packet.

        `reads_protocol` is for programs that are known not to read the word `protocol`.
        """
        self.host = host
        self._reads_protocol = reads_protocol
        self._prog = program if isinstance(program, Prog) else None
        self._heads = _Heads(tenant, program, context)
        self.timed = timed
        self._word = place_of(timed) if timed else 0
        self._whose = tenant | Command.PROG_TEST_RUN << 16
        # The first two words of the reply to a successful run.
        self._head = struct.pack("<II", _REPLY_SIZE - 4, self._whose)
        self.most = max(1, host.room // 2 // _REPLY_SIZE)

    def results(self, pieces: Iterable[Packets]) -> Iterator[tuple[int, ...]]:
        """Yields the results for each piece of packets, while the next piece is on its way.

        Raises Refused if a run is refused, and ValueError if a packet has more than 65,536 bytes.
        """
        return self.host.pipelined(self.send, self.receive, (few for piece in pieces for few in piece.split(self.most)))

    def send(self, packets: Packets, numbers: Sequence[int] | None = None) -> None:
        """Sends the frames of runs on at most `most` packets; `receive` reads the replies to them."""
        begun = time.perf_counter_ns()
        self.host.send(self.frames(packets, numbers), len(packets))
        if self._prog is not None:
            self._prog.count(0, time.perf_counter_ns() - begun)

    def frames(self, packets: Packets, numbers: Sequence[int] | None = None) -> bytes:
        """The frames of runs on packets. Raises ValueError if a packet has more than 65,536 bytes.

        `numbers` has a 32-bit number for each packet, for the word `timed` of its context.
        """
        if not len(packets):
            return b""
        types = packets.ethernet_types() if self._reads_protocol else None
        try:
            return self._joined(packets, types, numbers)
        except (IndexError, KeyError):
            self._heads.learn(packets.lengths, (None,) if types is None else types)
            return self._joined(packets, types, numbers)

    def _joined(self, packets: Packets, types: Sequence[int | None] | None, numbers: Sequence[int] | None) -> bytes:
        """The frames, in as few steps as possible. Raises IndexError or KeyError if `learn` was not given a length or a type."""
        lengths, heads = packets.lengths, self._heads.of_type
        if types is None and lengths.count(lengths[0]) == len(lengths):
            return self._alike(heads[None][lengths[0]], packets.split_bodies(), numbers)
        parts = [b""] * (2 * len(lengths))
        if types is None:
            parts[::2] = map(heads[None].__getitem__, lengths)
        else:
            parts[::2] = [heads[ethernet_type][length] for ethernet_type, length in zip(types, lengths)]
        if numbers is not None:
            word = self._word
            parts[::2] = [
                head[:word] + number.to_bytes(4, "little") + head[word + 4 :] for head, number in zip(parts[::2], numbers, strict=True)
            ]
        parts[1::2] = packets.split_bodies()
        return b"".join(parts)

    def _alike(self, head: bytes, bodies: list[bytes], numbers: Sequence[int] | None) -> bytes:
        """The frames of packets that have the same head except for their numbers."""
        if numbers is None:
            return head.join([b"", *bodies])
        parts = [head[: self._word], b"", head[self._word + 4 :], b""] * len(bodies)
        parts[1::4] = map(_NUMBER.pack, numbers)
        parts[3::4] = bodies
        return b"".join(parts)

    def receive(self, packets: Packets) -> tuple[int, ...]:
        """The results of runs whose frames were sent. Raises Refused, after all replies are read, if a run was refused."""
        begun = time.perf_counter_ns()
        results = self._results(packets)
        if self._prog is not None:
            self._prog.count(len(results), time.perf_counter_ns() - begun)
        return results

    def _results(self, packets: Packets) -> tuple[int, ...]:
        count = len(packets)
        size, replies, are_results = count * _REPLY_SIZE, b"", True
        while len(replies) < size and are_results:
            replies += self.host.read(size - len(replies))
            # A refusal is shorter than a result, so it shows at once, and nobody waits for bytes that never come.
            are_results = self._begin_as_results(replies)
        if are_results and replies == replies[:_REPLY_SIZE] * count and not any(replies[_STATUS]):
            # All results are the same.
            return (int.from_bytes(replies[_RESULT], "little"),) * count
        words = _words(replies)
        if are_results and not any(words[2::4]):
            return tuple(words[3::4])
        self.host.unread(replies)
        return self._one_by_one(count)

    def _begin_as_results(self, replies: bytes) -> bool:
        """Whether the replies, as far as they were read, have the length, tenant and command of a result of this program."""
        found = array("Q", replies[: len(replies) // 8 * 8])[::2]
        return found == array("Q", self._head) * len(found)

    def _one_by_one(self, count: int) -> tuple[int, ...]:
        """The results in so many replies, some of which are refusals."""
        replies = [self.host.read_reply() for _ in range(count)]
        return tuple(self._result(reply) for reply in replies)

    def _result(self, reply: Reply) -> int:
        reply.done()
        if reply.tenant | reply.command << 16 != self._whose:
            raise ReplyError(f"the reply is not to this test run: {reply}")
        return reply.result()
