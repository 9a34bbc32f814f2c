"""A host that takes the place of bpfhost: maps with keys, and programs that count in the map they name.

Its replies are a function of a tenant's own frames, in the protocol's bytes.
"""

from __future__ import annotations

from collections.abc import Iterable, Iterator

from bpfhost.errors import HostError
from bpfhost.numbers import FIRST_DESCRIPTOR, MOST_DESCRIPTORS, MOST_MAPS, Command, Errno, MapType
from bpfhost.replies import Reply
from bpfhost.slots import named_maps
from bpfhost.tenancy import BODY, command_of

# A frame with this key ends the host.
POISON = b"pois"


class _Map:
    def __init__(self, body: bytes) -> None:
        self.kind, self.key_size, self.value_size, self.most = (int.from_bytes(body[at : at + 4], "little") for at in range(0, 16, 4))
        self.pairs: dict[bytes, bytes] = {}
        if self.kind == MapType.ARRAY:
            self.pairs = {index.to_bytes(4, "little"): bytes(self.value_size) for index in range(self.most)}


class _Program:
    def __init__(self, maps: list[_Map]) -> None:
        self.maps = maps


def _live(opened: dict[int, _Map | _Program]) -> set[_Map]:
    """The maps that a descriptor names or a program keeps."""
    named = {one for one in opened.values() if isinstance(one, _Map)}
    return named.union(*(one.maps for one in opened.values() if isinstance(one, _Program)))


class FakeHost:
    """The state of all tenants."""

    def __init__(self) -> None:
        self._open: dict[int, dict[int, _Map | _Program]] = {}
        self.is_killed = False

    def kill(self) -> None:
        """Ends it."""
        self.is_killed = True

    def ask_bytes(self, frames: Iterable[bytes]) -> Iterator[bytes]:
        """The replies to frames; raises HostError if the host has ended or ends."""
        for frame in frames:
            if self.is_killed or frame[20:24] == POISON:
                self.is_killed = True
                raise HostError("the host has ended")
            tenant = int.from_bytes(frame[4:6], "little")
            status, payload = self._do(self._open.setdefault(tenant, {}), command_of(frame), frame[BODY:])
            yield Reply(tenant, command_of(frame), status, payload).to_bytes()

    def _do(self, opened: dict[int, _Map | _Program], command: int, body: bytes) -> tuple[int, bytes]:
        if command == Command.MAP_CREATE:
            return self._give(opened, _Map(body)), b""
        if command == Command.PROG_LOAD:
            maps = [opened.get(number) for number in named_maps(body[4:])]
            if not all(isinstance(one, _Map) for one in maps):
                return -Errno.EBADF, b""
            return self._give(opened, _Program([one for one in maps if isinstance(one, _Map)])), b""
        number = int.from_bytes(body[:4], "little")
        on = opened.get(number)
        if on is None:
            return -Errno.EBADF, b""
        if command == Command.CLOSE:
            del opened[number]
            return 0, b""
        if isinstance(on, _Program):
            return self._run(on) if command == Command.PROG_TEST_RUN else (-Errno.EINVAL, b"")
        return self._on_map(on, command, body[4:])

    def _give(self, opened: dict[int, _Map | _Program], made: _Map | _Program) -> int:
        free = [number for number in range(FIRST_DESCRIPTOR, FIRST_DESCRIPTOR + MOST_DESCRIPTORS) if number not in opened]
        if not free:
            return -Errno.EMFILE
        if isinstance(made, _Map) and len(_live(opened)) >= MOST_MAPS:
            return -Errno.ENOSPC
        opened[free[0]] = made
        return free[0]

    def _run(self, program: _Program) -> tuple[int, bytes]:
        """Counts under the key of zeros of each map."""
        counted = 0
        for on in program.maps:
            key = bytes(on.key_size)
            counted = int.from_bytes(on.pairs.get(key, b""), "little") + 1
            if key in on.pairs or len(on.pairs) < on.most:
                on.pairs[key] = counted.to_bytes(on.value_size, "little")
        return 0, (counted & 0xFFFFFFFF).to_bytes(4, "little")

    def _on_map(self, on: _Map, command: int, rest: bytes) -> tuple[int, bytes]:
        if command == Command.MAP_UPDATE_ELEM:
            key, value = rest[8 : 8 + on.key_size], rest[8 + on.key_size :]
            if len(value) != on.value_size or key not in on.pairs and len(on.pairs) >= on.most:
                return -Errno.E2BIG, b""
            on.pairs[key] = value
            return 0, b""
        if command == Command.MAP_GET_NEXT_KEY:
            keys = list(on.pairs)
            at = keys.index(rest) + 1 if rest in on.pairs else 0
            return (0, keys[at]) if at < len(keys) else (-Errno.ENOENT, b"")
        if rest not in on.pairs:
            return -Errno.ENOENT, b""
        if command == Command.MAP_LOOKUP_ELEM:
            return 0, on.pairs[rest]
        if command == Command.MAP_DELETE_ELEM and on.kind == MapType.HASH:
            del on.pairs[rest]
            return 0, b""
        return -Errno.EINVAL, b""
