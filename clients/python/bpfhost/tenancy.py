"""What a tenant has open, from its frames and the replies to them: which descriptors name which maps and programs.

The contents of the maps are not known here: test runs change them. A map gets one descriptor when it is created, and no other after that is
closed; the programs that were loaded with the map keep it (docs/PROTOCOL.md, "What a tenant has").
"""

from __future__ import annotations

import struct
from dataclasses import dataclass

from bpfhost.numbers import FIRST_DESCRIPTOR, MOST_DESCRIPTORS, Command, MapType
from bpfhost.program import MapShape
from bpfhost.slots import named_maps

# The offset of a frame's body, after length, tenant and command.
BODY = 8
_SHAPE = struct.Struct("<4I")
_MAKES = (Command.MAP_CREATE, Command.PROG_LOAD)
# Commands that change the contents of a map.
_CHANGES = (Command.MAP_UPDATE_ELEM, Command.MAP_DELETE_ELEM, Command.PROG_TEST_RUN)


def command_of(frame: bytes) -> int:
    """The number of the command of a frame, or of a reply."""
    return int.from_bytes(frame[6:BODY], "little")


def status_of(reply: bytes) -> int:
    """The status of a reply."""
    return int.from_bytes(reply[BODY : BODY + 4], "little", signed=True)


@dataclass(eq=False)
class LiveMap:
    """A map, its descriptor, and the body of the frame that created it; `number` counts the tenant's maps and programs."""

    number: int
    descriptor: int
    body: bytes

    @property
    def shape(self) -> MapShape:
        """Its kind and sizes."""
        kind, *sizes = _SHAPE.unpack(self.body[: _SHAPE.size])
        return MapShape(MapType(kind), *sizes)


@dataclass(eq=False)
class OpenProgram:
    """A program, its descriptor, the body of the frame that loaded it, and the maps that it keeps."""

    number: int
    descriptor: int
    body: bytes
    maps: tuple[LiveMap, ...]


class Tenancy:
    """A tenant's open descriptors. It begins empty, as a new tenant does."""

    def __init__(self) -> None:
        self.open: dict[int, LiveMap | OpenProgram] = {}
        self._made = 0

    def note(self, frame: bytes, status: int) -> bool:
        """Notes a frame of this tenant and the status of its reply; returns whether it may have changed anything."""
        if status < 0 or len(frame) < BODY:
            return False
        command = command_of(frame)
        if command in _MAKES:
            self._open(command, status, frame[BODY:])
        elif command == Command.CLOSE:
            del self.open[int.from_bytes(frame[BODY:], "little")]
        else:
            return command in _CHANGES
        return True

    def _open(self, command: int, descriptor: int, body: bytes) -> None:
        self._made += 1
        if command == Command.MAP_CREATE:
            self.open[descriptor] = LiveMap(self._made, descriptor, body)
        else:
            named = [self.open[number] for number in dict.fromkeys(named_maps(body[4:]))]
            maps = tuple(on for on in named if isinstance(on, LiveMap))
            self.open[descriptor] = OpenProgram(self._made, descriptor, body, maps)

    def lowest_free(self) -> int:
        """The descriptor that the next map or program gets."""
        numbers = range(FIRST_DESCRIPTOR, FIRST_DESCRIPTOR + MOST_DESCRIPTORS)
        return next((number for number in numbers if number not in self.open), -1)

    def programs(self) -> list[OpenProgram]:
        """The open programs, in the order in which they were loaded."""
        return sorted((on for on in self.open.values() if isinstance(on, OpenProgram)), key=lambda on: on.number)

    def live(self) -> list[LiveMap]:
        """The live maps, in the order in which they were created."""
        named = [on for on in self.open.values() if isinstance(on, LiveMap)]
        kept = [on for program in self.programs() for on in program.maps]
        return sorted(dict.fromkeys(named + kept), key=lambda on: on.number)

    def is_open(self, on: LiveMap) -> bool:
        """Whether the map has an open descriptor."""
        return self.open.get(on.descriptor) is on
