"""A second copy of a tenant, in which each live map has a descriptor.

A map whose descriptor is closed lives on while a program keeps it, and no command reads it. So if a tenant has such a map, its frames are
played once more on a separate host, with one difference: a map is closed only when it ends. The numbers of descriptors then differ, so
frames are sent with those of the copy, and a program is loaded when it is run, when all its maps are open. At most 16 maps and 48
programs are open at once, so descriptors never run out. Each reply is compared with the one that the customer was given.

Only a worker whose host is a process needs this: the library saves such maps by itself.
"""

from __future__ import annotations

from collections.abc import Iterable, Iterator
from contextlib import AbstractContextManager

from bpfhost import frames
from bpfhost.host import Host
from bpfhost.numbers import FIRST_DESCRIPTOR, MOST_DESCRIPTORS, MOST_MAPS, SOCKET_FILTER, Command
from bpfhost.parts import in_parts
from bpfhost.replies import Reply
from bpfhost.shards.errors import CopyDiffers
from bpfhost.shards.library import HostHere
from bpfhost.slots import renamed_maps
from bpfhost.state import Pairs, Steps, read_pairs
from bpfhost.tenancy import BODY, LiveMap, OpenProgram, Tenancy, command_of, status_of

_MOST_PROGRAMS = MOST_DESCRIPTORS - MOST_MAPS
_PLAYED_IN_A_STEP = 400
_OF_MAPS = (Command.MAP_UPDATE_ELEM, Command.MAP_DELETE_ELEM)

# A frame and the reply that it must have, except for the tenant.
Asked = tuple[bytes, bytes]


class Copy(AbstractContextManager["Copy"]):
    """The copy of one tenant, on a host of its own. It is a context manager, which ends the host."""

    def __init__(self, host: Host | HostHere) -> None:
        self._host = host
        self._tenancy = Tenancy()
        self._numbers: dict[LiveMap | OpenProgram, int] = {}

    def __exit__(self, *_error: object) -> None:
        self._host.kill()

    def play(self, played: Iterable[Asked]) -> Steps[None]:
        """Plays frames that had these replies; raises ShardError if the replies of the copy differ."""
        for part in in_parts(played, lambda _: 1, _PLAYED_IN_A_STEP):
            sent = [asked for frame, reply in part for asked in self._frames_here(frame, reply)]
            answers = self._host.ask_bytes(frame for frame, _ in sent)
            for (_, wanted), reply in zip(sent, answers, strict=True):
                if reply[6:] != wanted[6:]:
                    raise CopyDiffers(f"the copy of a tenant answers {reply[:60].hex()} where the customer has {wanted[:60].hex()}")
            yield

    def pairs(self, tenancy: Tenancy) -> Steps[dict[LiveMap, Pairs]]:
        """The elements of each live map of the tenant, which has played the same frames."""
        theirs, ours = tenancy.live(), self._tenancy.live()
        read = yield from read_pairs(self._host, 0, {on: self._numbers[on] for on in ours})
        if [on.body for on in theirs] != [on.body for on in ours]:
            raise CopyDiffers("the copy of a tenant has other maps than the tenant")
        return {on: read[same] for on, same in zip(theirs, ours)}

    def _frames_here(self, frame: bytes, reply: bytes) -> Iterator[Asked]:
        """The frame that the copy is given in place of a frame, if any: a refused frame changes nothing, nor does one that only reads."""
        status, command = status_of(reply), command_of(frame)
        if status < 0 or len(frame) < BODY:
            return
        on = self._tenancy.open.get(int.from_bytes(frame[BODY : BODY + 4], "little"))
        if command == Command.PROG_TEST_RUN and isinstance(on, OpenProgram):
            yield from self._loaded(on)
        if on and (command in _OF_MAPS or command == Command.PROG_TEST_RUN):
            yield frame[:BODY] + self._numbers[on].to_bytes(4, "little") + frame[BODY + 4 :], reply
            return
        known = set(self._tenancy.live()) if command == Command.CLOSE else set()
        self._tenancy.note(frame, status)
        if command == Command.MAP_CREATE:
            yield self._opened(self._tenancy.open[status], frame)
        elif command == Command.CLOSE and on:
            yield from self._closed(on, known)

    def _closed(self, on: LiveMap | OpenProgram, known: set[LiveMap]) -> Iterator[Asked]:
        """Closes a program, and the maps that have ended."""
        ended: list[LiveMap | OpenProgram] = [on] if isinstance(on, OpenProgram) and on in self._numbers else []
        ended += known - set(self._tenancy.live())
        for one in ended:
            yield self._close(one)

    def _close(self, on: LiveMap | OpenProgram) -> Asked:
        return frames.close(0, self._numbers.pop(on)), Reply(0, Command.CLOSE, 0).to_bytes()

    def _opened(self, on: LiveMap | OpenProgram, frame: bytes) -> Asked:
        """Gives the lowest free number to what a frame creates."""
        taken = set(self._numbers.values())
        number = next(number for number in range(FIRST_DESCRIPTOR, FIRST_DESCRIPTOR + MOST_DESCRIPTORS) if number not in taken)
        self._numbers[on] = number
        return frame, Reply(0, command_of(frame), number).to_bytes()

    def _loaded(self, on: OpenProgram) -> Iterator[Asked]:
        """Loads a program with the numbers that its maps have here, if it is not loaded yet; the oldest program is closed to make room."""
        if on in self._numbers:
            return
        loaded = [other for other in self._numbers if isinstance(other, OpenProgram)]
        if len(loaded) >= _MOST_PROGRAMS:
            yield self._close(loaded[0])
        names = {one.descriptor: self._numbers[one] for one in on.maps}
        yield self._opened(on, frames.prog_load(0, renamed_maps(on.body[4:], names), SOCKET_FILTER))
