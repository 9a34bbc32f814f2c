"""Keeps track of what the tenants of a host have open, and moves them to a new run of the program.

One run of the program takes 16,777,216 frames (docs/PROTOCOL.md, "Limits"). Enough of them are held back to read all maps; `bpfhost.state`
has the frames that build the same state again.
"""

from __future__ import annotations

import contextlib
from collections.abc import Callable, Iterable, Iterator
from dataclasses import dataclass

from bpfhost.errors import HostError
from bpfhost.numbers import LARGEST_SUM, MOST_MAPS, Command, MapType
from bpfhost.state import Pairs, at_once, read_pairs, state_frames, wanted_status, with_tenant
from bpfhost.tenancy import BODY, LiveMap, Tenancy, status_of

AskBytes = Callable[[Iterable[bytes]], Iterator[bytes]]

# The values of a tenant's maps have at most 262,144 bytes in all, and at least 8 each; a lookup and a step of the iteration read one.
MOST_TO_READ = 2 * (LARGEST_SUM // 8 + MOST_MAPS)
# The commands that open or close something, as encoded in frames.
_OPENS_OR_CLOSES = frozenset(command.to_bytes(2, "little") for command in (Command.MAP_CREATE, Command.PROG_LOAD, Command.CLOSE))


class Ledger:
    """What each tenant has open, from its frames and the replies to them."""

    def __init__(self, tenants: int) -> None:
        self._tenancies = [Tenancy() for _ in range(tenants)]
        self._to_read = [0] * tenants
        # The tenants that opened or closed something since the frames to read their maps were last counted.
        self._changed: set[int] = set()

    def note(self, frame: bytes, status: int) -> None:
        """Notes a frame and the status of its reply."""
        if status < 0 or len(frame) < BODY or frame[6:BODY] not in _OPENS_OR_CLOSES:
            return
        tenant = int.from_bytes(frame[4:6], "little")
        self._changed.add(tenant)
        # Another program in place of bpfhost may report that it closed what was never opened.
        with contextlib.suppress(KeyError):
            self._tenancies[tenant].note(frame, status)

    def note_all(self, frames: Iterable[bytes], replies: Iterable[bytes]) -> None:
        """Notes frames and the bytes of the replies to them."""
        for frame, reply in zip(frames, replies):
            if frame[6:BODY] in _OPENS_OR_CLOSES:
                self.note(frame, status_of(reply))

    def reserve(self) -> int:
        """The most frames that it takes to read all maps."""
        for tenant in self._changed:
            self._to_read[tenant] = sum(map(_frames_to_read, self._tenancies[tenant].live()))
        self._changed.clear()
        return sum(self._to_read)

    def unreadable(self) -> str | None:
        """The reason why not all maps can be read, or None."""
        return next(filter(None, map(_unreadable, range(len(self._tenancies)), self._tenancies)), None)

    def read(self, ask: AskBytes) -> list[State]:
        """What each tenant has, with the contents of its maps, which these frames read."""
        host = _Asked(ask)
        return [
            State(number, tenancy, at_once(read_pairs(host, number, {on: on.descriptor for on in tenancy.live()})))
            for number, tenancy in enumerate(self._tenancies)
        ]


@dataclass(frozen=True)
class State:
    """What a tenant has: open descriptors, and the contents of each map."""

    tenant: int
    tenancy: Tenancy
    pairs: dict[LiveMap, Pairs]


@dataclass(frozen=True)
class _Asked:
    """Sends frames for `read_pairs` and returns the bytes of the replies."""

    ask: AskBytes

    def ask_bytes(self, frames: Iterable[bytes]) -> Iterator[bytes]:
        return self.ask(frames)


def made_anew(states: Iterable[State], ask: AskBytes) -> int:
    """Builds the tenants' states on a host on which they are new; returns the number of frames. Raises HostError if a state differs."""
    sent = 0
    for state in states:
        frames = [with_tenant(frame, state.tenant) for frame in state_frames(state.tenancy, state.pairs)]
        made = Tenancy()
        for frame, reply in zip(frames, ask(frames), strict=True):
            wanted, status = wanted_status(made, frame), status_of(reply)
            if status != wanted:
                raise HostError(f"tenant {state.tenant} can't move to a new run of bpfhost: it returns {status} in place of {wanted}")
            made.note(frame, status)
        sent += len(frames)
    return sent


def _frames_to_read(on: LiveMap) -> int:
    """The most frames that it takes to read a map: a lookup for each key, and, for a hash map, the iteration over the keys."""
    shape = on.shape
    return shape.max_entries if shape.map_type == MapType.ARRAY else 2 * shape.max_entries + 1


def _unreadable(tenant: int, tenancy: Tenancy) -> str | None:
    """Names the program of a tenant that keeps a map without a descriptor."""
    for program in tenancy.programs():
        for on in program.maps:
            if not tenancy.is_open(on):
                return f"the program {program.descriptor} of tenant {tenant} keeps the map {on.descriptor}, which is closed and so can't be read"
    return None
