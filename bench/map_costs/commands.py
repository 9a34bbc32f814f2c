"""Streams of commands on one hash map (docs/PROTOCOL.md), each with the stream to compare it with."""

from __future__ import annotations

import random
import struct
from collections.abc import Callable
from dataclasses import dataclass

from map_costs.keys import Keys

CREATE, LOOK_UP, UPDATE, DELETE, NEXT_KEY, CLOSE, NO_COMMAND = 0, 1, 2, 3, 4, 256, 6
HASH, VALUE_SIZE, DESCRIPTOR = 1, 8, 3

Frames = list[bytes]


def frame(command: int, body: bytes) -> bytes:
    return struct.pack("<IHH", 4 + len(body), 0, command) + body


def on_map(command: int, rest: bytes) -> bytes:
    return frame(command, struct.pack("<I", DESCRIPTOR) + rest)


def created(keys: Keys) -> bytes:
    """A map that these keys fill."""
    return frame(CREATE, struct.pack("<5I", HASH, len(keys[0]), VALUE_SIZE, len(keys), 0))


def update(key: bytes) -> bytes:
    return on_map(UPDATE, bytes(8) + key + key[:VALUE_SIZE].ljust(VALUE_SIZE, b"\0"))


def put_back(key: bytes) -> bytes:
    """The key is deleted and comes last."""
    return on_map(DELETE, key) + update(key)


def shuffled(keys: Keys, count: int) -> Keys:
    """The keys in a random order, which repeats."""
    order = list(keys)
    random.Random(count).shuffle(order)
    return repeated(order, count)


def repeated(keys: Keys, count: int) -> Keys:
    return [keys[at % len(keys)] for at in range(count)]


def walked(keys: Keys, count: int) -> Frames:
    """Reads the keys from the first to the last, and gets the reply that no key follows, again and again."""
    asked = [b"", *keys]
    return [on_map(NEXT_KEY, asked[at % len(asked)]) for at in range(count)]


# Frames of so many steps on a map that is full of the keys, added in their order. A step is one command, or a delete and an update.
STEPS: dict[str, Callable[[Keys, int], Frames]] = {
    # a frame of an unknown command, as long as a lookup's: the cost of reading it and replying
    "no command": lambda keys, count: [on_map(NO_COMMAND, key) for key in repeated(keys, count)],
    "look-up": lambda keys, count: [on_map(LOOK_UP, key) for key in shuffled(keys, count)],
    "update": lambda keys, count: [update(key) for key in shuffled(keys, count)],
    "walk": walked,
    # each key that is added again is the newest, so the next one is the oldest
    "oldest": lambda keys, count: [put_back(key) for key in repeated(keys, count)],
    "newest": lambda keys, count: [put_back(keys[-1])] * count,
    "random": lambda keys, count: [put_back(key) for key in random.Random(count).choices(keys, k=count)],
}
FILL = "fill"
OPERATIONS = (FILL, *STEPS)


@dataclass(frozen=True)
class Streams:
    """A stream, one without the steps, and the number of steps: the cost of a step is the difference, divided by their number."""

    without: bytes
    whole: bytes
    steps: int


def filled(keys: Keys) -> bytes:
    return created(keys) + b"".join(map(update, keys))


def fills(keys: Keys, count: int) -> Streams:
    """Creates, fills and closes maps, with at least so many keys in all; a step is a key."""
    times = -(-count // len(keys))
    close = on_map(CLOSE, b"")
    return Streams((created(keys) + close) * times, (filled(keys) + close) * times, times * len(keys))


def streams_of(operation: str, keys: Keys, count: int) -> Streams:
    if operation == FILL:
        return fills(keys, count)
    begin = filled(keys)
    return Streams(begin, begin + b"".join(STEPS[operation](keys, count)), count)
