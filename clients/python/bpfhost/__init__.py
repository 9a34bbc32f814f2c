"""A client of bpfhost: command frames and replies, a running host and its tenants, maps as mappings, ELF objects, and captures.

README.md of this package shows how to use it; docs/PROTOCOL.md of the repository defines the protocol.
"""

from bpfhost import frames
from bpfhost.errors import (
    BpfhostError,
    CaptureError,
    HostError,
    InputError,
    MissingPackage,
    ProgramRefused,
    Refused,
    ReplyError,
    SourceRefused,
)
from bpfhost.frames import Context
from bpfhost.host import Host
from bpfhost.maps import Map
from bpfhost.numbers import Command, Errno, MapType, Update
from bpfhost.packets import Packets
from bpfhost.prog import Prog
from bpfhost.program import MapShape, Verdict, assemble, disassemble, find_program, hex_lines, serve, verify
from bpfhost.replies import Reply, read_replies
from bpfhost.runs import TestRuns
from bpfhost.tenant import Tenant

__version__ = "0.3.0"

__all__ = [
    "BpfhostError",
    "CaptureError",
    "Command",
    "Context",
    "Errno",
    "Host",
    "HostError",
    "InputError",
    "Map",
    "MapShape",
    "MapType",
    "MissingPackage",
    "Packets",
    "Prog",
    "ProgramRefused",
    "Refused",
    "Reply",
    "ReplyError",
    "SourceRefused",
    "Tenant",
    "TestRuns",
    "Update",
    "Verdict",
    "assemble",
    "disassemble",
    "find_program",
    "frames",
    "hex_lines",
    "read_replies",
    "serve",
    "verify",
]
