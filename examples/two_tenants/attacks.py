"""The attacks of the hostile tenant. At first it has one array, at descriptor 3, and nothing else."""

from dataclasses import dataclass

from bpfhost import Command, MapType, assemble, frames
from bpfhost.numbers import LONGEST_FRAME, LONGEST_PACKET

HOSTILE, HONEST, NOT_SERVED = 0, 1, 2
OWN_MAP = 3
# The honest tenant has a map and a program at these numbers; the hostile one has nothing there.
FOREIGN_MAP, FOREIGN_PROGRAM = 4, 5


@dataclass(frozen=True)
class Attack:
    """Frames of the hostile tenant. Unless `is_refused` is set, some may be within the tenant's own rights."""

    does: str
    frames: tuple
    is_refused: bool


OWN_MAP_FRAME = frames.map_create(HOSTILE, MapType.ARRAY, 4, 8, 1)

# Looks up index 0 of the own map, and returns register 0.
LOOK_UP = f"""
    *(u32 *)(r10 - 4) = 0
    r1 = map_fd {OWN_MAP} ll
    r2 = r10
    r2 += -4
    call 1
"""
# Continues with register 0 at the value, which has eight bytes.
AT_VALUE = LOOK_UP + """
    if r0 != 0 goto there
    exit
there:
"""

PROGRAMS = {
    "reads eight bytes below its stack": "r0 = *(u64 *)(r10 - 520)\n exit",
    "writes eight bytes above its stack": "*(u64 *)(r10 + 0) = 1\n r0 = 0\n exit",
    "reads a stack byte that it has not written": "r0 = *(u64 *)(r10 - 8)\n exit",
    "answers a register that it has not written": "r0 = r5\n exit",
    "reads at an address of its choice": "r1 = 0x7fff00001000 ll\n r0 = *(u64 *)(r1 + 0)\n exit",
    "loads the other tenant's map": f"r1 = map_fd {FOREIGN_MAP} ll\n r0 = 0\n exit",
    "loads an address in the other tenant's map": f"r1 = map_value {FOREIGN_MAP} + 0 ll\n r0 = 0\n exit",
    "loads an address behind its map's value": f"r1 = map_value {OWN_MAP} + 8 ll\n r0 = 0\n exit",
    "reads from the middle of its map's value to behind it": f"r1 = map_value {OWN_MAP} + 4 ll\n r0 = *(u64 *)(r1 + 0)\n exit",
    "reads behind its map's value": AT_VALUE + "r0 = *(u64 *)(r0 + 8)\n exit",
    "reads before its map's value": AT_VALUE + "r0 = *(u64 *)(r0 - 1)\n exit",
    "reads through a look-up that may be null": LOOK_UP + "r0 = *(u64 *)(r0 + 0)\n exit",
    "moves a pointer by a number that may be anything": AT_VALUE
    + "r1 = *(u64 *)(r0 + 0)\n r0 += r1\n r0 = *(u8 *)(r0 + 0)\n exit",
    "answers an address": "r0 = r10\n exit",
    "keeps an address in its map": AT_VALUE + "*(u64 *)(r0 + 0) = r10\n r0 = 0\n exit",
    "adds to an address that it keeps in its stack": "*(u64 *)(r10 - 8) = r10\n r1 = 8\n"
    + "lock *(u64 *)(r10 - 8) += r1\n r0 = *(u64 *)(r10 - 8)\n r0 = *(u64 *)(r0 + 0)\n exit",
    "adds an address to a number in its map": AT_VALUE + "lock *(u64 *)(r0 + 0) += r10\n r0 = 0\n exit",
    "adds to four bytes of its map's value at an odd offset": AT_VALUE
    + "r1 = 1\n lock *(u32 *)(r0 + 1) += r1\n r0 = 0\n exit",
    "writes into the context": "*(u32 *)(r1 + 0) = 0\n r0 = 0\n exit",
    "calls a helper that the host does not have": "call 6\n exit",
    "loops": "again:\n r0 = 0\n goto again",
    "falls off its end": "r0 = 0",
    "jumps out of the program": "r0 = 0\n goto +5\n exit",
}

FRAMES = {
    "looks into the other tenant's map": frames.map_lookup_elem(HOSTILE, FOREIGN_MAP, bytes(4)),
    "runs the other tenant's program": frames.prog_test_run(HOSTILE, FOREIGN_PROGRAM),
    "closes the other tenant's program": frames.close(HOSTILE, FOREIGN_PROGRAM),
    "runs its map as a program": frames.prog_test_run(HOSTILE, OWN_MAP),
    "closes a descriptor of a tenant that is not served": frames.close(NOT_SERVED, 3),
    "sends a frame without a tenant": bytes([3, 0, 0, 0]) + b"bad",
    "sends a command that there is not": frames.frame(HOSTILE, 7),
    "sends a body that is cut off": frames.frame(HOSTILE, Command.MAP_UPDATE_ELEM, bytes(7)),
    "sends a frame that is too long": frames.frame(HOSTILE, Command.PROG_TEST_RUN, bytes(LONGEST_FRAME - 3)),
    "loads bytes that are no instructions": frames.prog_load(HOSTILE, b"\xff" * 8),
    "loads half a slot": frames.prog_load(HOSTILE, bytes(4)),
    "asks for a map of 16 MiB": frames.map_create(HOSTILE, MapType.HASH, 4, 4096, 4096),
}


# An accepted program: it writes 0xff all over its stack, its map's value and the registers.
LITTER = (
    AT_VALUE
    + "*(u64 *)(r0 + 0) = -1\n"
    + "".join(f"*(u64 *)(r10 - {at}) = -1\n" for at in range(8, 513, 8))
    + "".join(f"r{number} = -1\n" for number in range(10))
    + "exit"
)
OWN_PROGRAM, OWN_HASH = 4, 5


def floods(program):
    """Frames that fill each of the tenant's own tables."""
    run, long_run = (frames.prog_test_run(HOSTILE, OWN_PROGRAM, packet) for packet in (b"", bytes(LONGEST_PACKET + 1)))
    small_map = frames.map_create(HOSTILE, MapType.HASH, 4, 8, 2)
    keys = [number.to_bytes(4, "little") for number in range(5)]
    tried = {
        "loads a program that leaves 0xff all over its stack and its value": [program],
        "runs it on three packets": [run] * 3,
        "runs it on a packet that is too long": [long_run],
        "makes a hash map for two keys": [small_map],
        "puts five keys into it": [frames.map_update_elem(HOSTILE, OWN_HASH, key, bytes(8)) for key in keys],
        "makes 20 maps more": [small_map] * 20,
        "loads 60 programs more": [program] * 60,
    }
    return [Attack(does, tuple(them), False) for does, them in tried.items()]


def attacks(bpfhost):
    """All of them, in order."""

    def load(text):
        return frames.prog_load(HOSTILE, assemble(bpfhost, text))

    programs = {does: load(text) for does, text in PROGRAMS.items()}
    refused = [Attack(does, (frame,), True) for does, frame in {**programs, **FRAMES}.items()]
    return [Attack("makes a map of its own", (OWN_MAP_FRAME,), False), *refused, *floods(load(LITTER))]
