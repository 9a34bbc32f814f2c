"""The numbers of bpfhost's protocol: commands, errors and limits (docs/PROTOCOL.md), by the field's names."""

import enum


class Command(enum.IntEnum):
    """The commands of frames; all but CLOSE, which is close(2), are commands of bpf(2)."""

    # commands: written by tools/generate
    MAP_CREATE = 0
    MAP_LOOKUP_ELEM = 1
    MAP_UPDATE_ELEM = 2
    MAP_DELETE_ELEM = 3
    MAP_GET_NEXT_KEY = 4
    PROG_LOAD = 5
    PROG_TEST_RUN = 10
    CLOSE = 256
    # end of commands


class MapType(enum.IntEnum):
    """The kinds of maps that the host has, by their numbers in bpf(2)."""

    # map types: written by tools/generate
    HASH = 1
    ARRAY = 2
    # end of map types


class Update(enum.IntEnum):
    """Which keys an update is for: any, new ones, those that are there."""

    # update flags: written by tools/generate
    ANY = 0
    NOEXIST = 1
    EXIST = 2
    # end of update flags


class Errno(enum.IntEnum):
    """The error numbers of replies; a reply has them with a minus."""

    # errors: written by tools/generate
    EPERM = 1
    ENOENT = 2
    E2BIG = 7
    EBADF = 9
    ENOMEM = 12
    EACCES = 13
    EEXIST = 17
    EINVAL = 22
    EMFILE = 24
    ENOSPC = 28
    # end of errors


class Code(enum.IntEnum):
    """What the functions of the library for C return."""

    # codes: written by tools/generate
    DONE = 0
    ERR_NO_HOST = -1
    ERR_HAS_HOST = -2
    ERR_TENANT_COUNT = -3
    ERR_NO_MEMORY = -4
    ERR_BUFFER_TOO_SMALL = -5
    ERR_NO_PART = -6
    ERR_TOO_BIG = -7
    ERR_SIZE = -8
    ERR_STALE = -9
    ERR_NO_PROGRAM = -10
    ERR_HAS_PROGRAM = -11
    ERR_DESCRIPTORS = -12
    ERR_STYLE = -13
    # end of codes


SLOT_SIZE = 8
# limits: written by tools/generate
MOST_TENANTS = 64  # the most tenants of a host
MOST_DESCRIPTORS = 64  # the most open descriptors of a tenant
FIRST_DESCRIPTOR = 3  # the lowest descriptor
MOST_MAPS = 16  # the most live maps of a tenant
MOST_ENTRIES = 4096  # the most entries of a map
MOST_SLOTS = 4096  # the most slots of a program
MOST_FRAMES = 16_777_216  # the most frames of a stream
LONGEST_KEY = 512  # the most bytes of a key
LONGEST_VALUE = 4096  # the most bytes of a value
LARGEST_AREA = 65_536  # the most bytes of a map's values
LARGEST_SUM = 262_144  # the most bytes of the values of a tenant's maps
LONGEST_PACKET = 65_536  # the most bytes of a packet
LONGEST_FRAME = 131_072  # the most bytes of a frame, without its length field; the reply to a longer one is E2BIG
LONGEST_PAYLOAD = 4096  # the most bytes of a reply's payload
REPLY_HEAD = 12  # the bytes of a reply before its payload, its length field included
SOCKET_FILTER = 1  # the type of a program: a socket filter
# end of limits

# A reply to a frame that is too short to have a tenant and a command has this number in both places.
NOBODY = 65535
