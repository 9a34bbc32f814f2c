"""The frames that build a tenant's state again, on a host on which the tenant is new, if it is read by frames.

clients/python/SHARDS.md explains why they do. All of them name tenant 0; the caller replaces the number.
"""

from __future__ import annotations

from collections.abc import Generator, Iterable, Iterator, Mapping, Sequence
from typing import Protocol, TypeVar, cast

from bpfhost import frames
from bpfhost.alike import fields_of, size_of_alike
from bpfhost.errors import StateError
from bpfhost.numbers import FIRST_DESCRIPTOR, REPLY_HEAD, SOCKET_FILTER, Command, Errno, MapType
from bpfhost.parts import in_parts
from bpfhost.tenancy import BODY, LiveMap, OpenProgram, Tenancy, command_of, status_of

# `r0 = 0; exit`: takes a descriptor, and no memory for maps.
FILLER = frames.prog_load(0, bytes.fromhex("b700000000000000 9500000000000000"), SOCKET_FILTER)

# The pairs of a map, in order; for an array, only values that are not zero.
Pairs = list[tuple[bytes, bytes]]


class AsksBytes(Protocol):
    """A host that takes many frames at once and returns the bytes of the replies in order."""

    def ask_bytes(self, frames: Iterable[bytes]) -> Iterator[bytes]: ...


def state_frames(tenancy: Tenancy, pairs: Mapping[LiveMap, Pairs]) -> Iterator[bytes]:
    """The frames that build a tenant's state: open descriptors, and the contents of each live map.

    Maps and programs are made in their order, each at its descriptor: programs fill the free numbers below it, and are closed at the end,
    as are the maps that have no descriptor.
    """
    taken: set[int] = set()
    objects: list[LiveMap | OpenProgram] = [*tenancy.live(), *tenancy.programs()]
    for on in sorted(objects, key=lambda on: on.number):
        yield from _filled_up_to(on.descriptor, taken)
        yield frames.frame(0, Command.MAP_CREATE if isinstance(on, LiveMap) else Command.PROG_LOAD, on.body)
        if isinstance(on, LiveMap):
            yield from (frames.map_update_elem(0, on.descriptor, key, value) for key, value in pairs[on])
    yield from (frames.close(0, number) for number in sorted(taken - set(tenancy.open)))


def _filled_up_to(descriptor: int, taken: set[int]) -> Iterator[bytes]:
    """Makes a descriptor the lowest free one: closes its filler, and fills the free ones below it."""
    if descriptor in taken:
        yield frames.close(0, descriptor)
    for number in range(FIRST_DESCRIPTOR, descriptor):
        if number not in taken:
            taken.add(number)
            yield FILLER
    taken.add(descriptor)


def wanted_status(tenancy: Tenancy, frame: bytes) -> int:
    """The status that a frame of a snapshot returns: the lowest free descriptor, or 0."""
    return tenancy.lowest_free() if command_of(frame) in (Command.MAP_CREATE, Command.PROG_LOAD) else 0


def with_tenant(frame: bytes, tenant: int) -> bytes:
    """A frame or a reply with another tenant's number; one that is too short to have a number stays as it is."""
    return frame[:4] + tenant.to_bytes(2, "little") + frame[6:] if len(frame) >= BODY else frame


def split(stream: bytes) -> list[bytes]:
    """Splits bytes into frames or replies. Raises ValueError if they are not such."""
    if len(stream) == 4 + int.from_bytes(stream[:4], "little"):
        return [stream]
    if size := size_of_alike(stream):
        return fields_of(f"{size}s", stream, size)
    found, at = [], 0
    while at < len(stream):
        end = at + 4 + int.from_bytes(stream[at : at + 4], "little")
        if end > len(stream) or at + 4 > len(stream):
            raise ValueError(f"the bytes from {at} on are no whole frame")
        found.append(stream[at:end])
        at = end
    return found


# Reads maps in steps of some hundred frames each, so that other callers are served between two steps.

_ASKED_IN_A_STEP = 400

Result = TypeVar("Result")
# A task that is done in steps and returns a result at its end.
Steps = Generator[None, None, Result]


def at_once(steps: Steps[Result]) -> Result:
    """Does all steps and returns the result."""
    while True:
        try:
            next(steps)
        except StopIteration as end:
            return cast(Result, end.value)


def read_pairs(host: AsksBytes, tenant: int, maps: Mapping[LiveMap, int]) -> Steps[dict[LiveMap, Pairs]]:
    """The contents of maps, by the descriptors that name them. It changes nothing."""
    keys = {on: _indices(on) for on in maps if on.shape.map_type == MapType.ARRAY}
    keys.update((yield from _walked(host, tenant, {on: fd for on, fd in maps.items() if on not in keys})))
    pairs: dict[LiveMap, Pairs] = {on: [] for on in maps}
    for asked in in_parts(((on, key) for on in maps for key in keys[on]), lambda _: 1, _ASKED_IN_A_STEP):
        replies = list(host.ask_bytes(frames.map_lookup_elem(tenant, maps[on], key) for on, key in asked))
        for (on, key), reply in zip(asked, replies, strict=True):
            value = _payload(reply)
            if on.shape.map_type == MapType.HASH or any(value):
                pairs[on].append((key, value))
        yield
    return pairs


def _indices(on: LiveMap) -> list[bytes]:
    return [index.to_bytes(4, "little") for index in range(on.shape.max_entries)]


def _walked(host: AsksBytes, tenant: int, maps: Mapping[LiveMap, int]) -> Steps[dict[LiveMap, list[bytes]]]:
    """The keys of hash maps in order. All maps are read at once, with one key of each in a batch of frames."""
    keys: dict[LiveMap, list[bytes]] = {on: [] for on in maps}
    going, left = dict(maps), _ASKED_IN_A_STEP
    while going:
        left -= len(going)
        asked = (frames.map_get_next_key(tenant, fd, keys[on][-1] if keys[on] else b"") for on, fd in going.items())
        for on, reply in zip(list(going), list(host.ask_bytes(asked))):
            if status_of(reply) == -Errno.ENOENT:
                del going[on]
            else:
                keys[on].append(_payload(reply))
        if left <= 0:
            left = _ASKED_IN_A_STEP
            yield
    return keys


def _payload(reply: bytes) -> bytes:
    if status_of(reply):
        raise StateError(f"a map can't be read: the host returns {status_of(reply)}")
    return reply[REPLY_HEAD:]


def same_pairs(some: Mapping[LiveMap, Pairs], others: Mapping[LiveMap, Pairs], maps: Sequence[LiveMap]) -> bool:
    """Whether two states have the same contents of these maps."""
    return all(some[on] == others[on] for on in maps)
