"""The frames between a customer and a gateway.

They are the customer's frames and their replies, and also the gateway's own frames, which name a tenant that no host has.
clients/python/GATEWAYS.md describes them ("The protocol of a gateway").
"""

from __future__ import annotations

import enum
import json
import struct
from collections.abc import Mapping
from typing import Any

from bpfhost.numbers import REPLY_HEAD
from bpfhost.shards.calls import LONGEST_CALL
from bpfhost.tenancy import BODY, command_of, status_of

# The tenant that the gateway's own frames name.
GATEWAY = 0xFFFF
# A customer's first frame has at most so many bytes.
LONGEST_HELLO = 4096
_HEAD = struct.Struct("<IHH")


class Word(enum.IntEnum):
    """The kinds of the gateway's own frames."""

    # Who the customer is; the reply has the name of the customer that the gateway takes it for.
    HELLO = 1
    # How many replies the customer has.
    ACK = 2
    # Why some frames have no replies.
    NO_REPLIES = 3
    # Why the connection ends.
    END = 4


class Why(enum.IntEnum):
    """The statuses of the gateway: errno values without their signs."""

    # The bytes are no frames, or are not allowed at that point.
    WRONG = 22
    # No customer has this token or certificate.
    WHO = 13
    # A frame is too long.
    LENGTH = 7
    # A limit is reached, or there is no room now; the customer may try again.
    AGAIN = 11
    # Another connection continues the session.
    PASSED = 103
    # Nothing whole was received, or nothing was read, for too long.
    SLOW = 110
    # A call waits for an operator.
    ASIDE = 16
    # Frames were not done, and won't be.
    NOT_DONE = 125
    # Frames were done, and their replies are gone.
    GONE = 61
    # The shards that the gateway calls fail.
    BEHIND = 5
    # The gateway ends.
    ENDS = 108


class Refusal(Exception):
    """A connection that is ended, and the reason."""

    def __init__(self, why: Why, sentence: str) -> None:
        super().__init__(sentence)
        self.why = why


def said(word: Word, body: bytes) -> bytes:
    """A frame of a customer for the gateway."""
    return (4 + len(body)).to_bytes(4, "little") + GATEWAY.to_bytes(2, "little") + word.to_bytes(2, "little") + body


def hello(token: str | None = None, session: str | None = None, answered: int = 0) -> bytes:
    """A customer's first frame. In a session, it has the number of received replies."""
    told = {"token": token, "session": session, "answered": answered or None}
    return said(Word.HELLO, json.dumps({name: value for name, value in told.items() if value is not None}).encode())


def ack(answered: int) -> bytes:
    """Acknowledges that the customer has so many replies."""
    return said(Word.ACK, answered.to_bytes(8, "little"))


def told(word: Word, why: Why | None, /, **what: object) -> bytes:
    """A frame of the gateway: a reply with a status, whose payload is JSON."""
    status = (-why if why else 0).to_bytes(4, "little", signed=True)
    return said(word, status + json.dumps(what).encode())


def read_told(reply: bytes) -> tuple[Word, Why | None, Mapping[str, Any]]:
    """The same, parsed; raises ValueError if the bytes are none."""
    status = status_of(reply)
    found = json.loads(reply[REPLY_HEAD:])
    if not isinstance(found, dict):
        raise ValueError(f"a gateway says {reply[:60].hex()}")
    return Word(command_of(reply)), Why(-status) if status else None, found


def hello_size(length: bytes) -> int:
    """The bytes of the first frame after its length; raises Refusal if it is longer than such a frame may be, or shorter."""
    size = int.from_bytes(length, "little")
    if not BODY <= 4 + size <= LONGEST_HELLO:
        raise Refusal(Why.WRONG, f"a connection begins with a frame of at most {LONGEST_HELLO} bytes that says who the customer is")
    return size


def read_hello(frame: bytes) -> tuple[str | None, str | None, int]:
    """The token, the session and the number of replies in a customer's first frame; raises Refusal if the frame has something else."""
    if command_of(frame) != Word.HELLO or frame[4:6] != b"\xff\xff":
        raise Refusal(Why.WRONG, "a connection begins with a frame that says who the customer is")
    try:
        found = json.loads(frame[BODY:])
        token, session, answered = (found.get(name) for name in ("token", "session", "answered"))
    except (ValueError, AttributeError, RecursionError):
        raise Refusal(Why.WRONG, "what says who the customer is has no JSON object") from None
    if not all(one is None or isinstance(one, str) for one in (token, session)) or session == "":
        raise Refusal(Why.WRONG, "a token and a session are texts, and not empty")
    # JSON can name half of a surrogate pair, and UTF-8 can't.
    if any("\ud800" <= letter <= "\udfff" for letter in f"{token}{session}"):
        raise Refusal(Why.WRONG, "a token and a session are texts of whole Unicode characters")
    if not (answered is None or isinstance(answered, int) and 0 <= answered < 1 << 53):
        raise Refusal(Why.WRONG, "the number of replies is a whole number")
    return token, session, answered or 0


class Incoming:
    """Received bytes that are in no call yet: whole frames with at most the bytes of a call, and one that is not whole."""

    def __init__(self) -> None:
        self._bytes = bytearray()
        # The offset of the first frame that is not whole, and the length of each frame before it.
        self._whole = 0
        self._sizes: list[int] = []
        # The number of replies that the customer has acknowledged.
        self.acked = 0

    def room(self) -> int:
        """How many more bytes may come."""
        return max(0, LONGEST_CALL - self._whole)

    def is_partial(self) -> bool:
        """Whether a frame has begun and is not whole."""
        return len(self._bytes) > self._whole

    def count(self) -> int:
        """The number of whole frames."""
        return len(self._sizes)

    def feed(self, data: bytes) -> None:
        """Takes bytes, and checks each frame's header once; raises Refusal if one is wrong."""
        held = self._bytes
        held += data
        while len(held) - self._whole >= BODY:
            at = self._whole
            length, tenant, command = _HEAD.unpack_from(held, at)
            if length < 4:
                raise Refusal(Why.WRONG, "a frame has a head of eight bytes")
            if tenant:
                if not self._take_ack(tenant, command, length):
                    return
                continue
            if length > LONGEST_CALL - 4:
                raise Refusal(Why.LENGTH, f"a frame has at most {LONGEST_CALL} bytes, and not {length + 4}")
            if len(held) - at < 4 + length:
                return
            self._sizes.append(4 + length)
            self._whole += 4 + length

    def _take_ack(self, tenant: int, command: int, length: int) -> bool:
        """Removes a frame for the gateway from the others; returns whether it was whole."""
        at = self._whole
        if tenant != GATEWAY:
            raise Refusal(Why.WRONG, f"a frame names tenant 0, and not {tenant}")
        if command != Word.ACK or length != 12:
            raise Refusal(Why.WRONG, "the only frame for the gateway behind the first one says how many replies the customer has")
        if len(self._bytes) - at < 16:
            return False
        self.acked = int.from_bytes(self._bytes[at + BODY : at + 16], "little")
        del self._bytes[at : at + 16]
        return True

    def take(self, most: int, most_bytes: int) -> tuple[bytes, int]:
        """The frames of the next call, at most so many and so many bytes, or one frame; and how many they are."""
        count = size = 0
        for one in self._sizes[:most]:
            if count and size + one > most_bytes:
                break
            count, size = count + 1, size + one
        stream = bytes(memoryview(self._bytes)[:size])
        del self._bytes[:size]
        del self._sizes[:count]
        self._whole -= size
        return stream, count
