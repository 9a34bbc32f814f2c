"""The benchmark programs, as slots of RFC 9669, with the maps that they load and the packet that they are run on."""

from __future__ import annotations

import struct
from collections.abc import Callable, Sequence
from dataclasses import dataclass, field, replace

# Opcodes: operation, source bit and class in one byte.
ADD64_K, ADD64_X, XOR64_X, AND64_K, LSH64_K, RSH64_K, MUL32_K = 0x07, 0x0F, 0xAF, 0x57, 0x67, 0x77, 0x24
MOV64_K, MOV64_X, BIG_ENDIAN, WIDE = 0xB7, 0xBF, 0xDC, 0x18
LOAD_BYTE, LOAD_HALF, LOAD_WORD, LOAD_DOUBLE = 0x71, 0x69, 0x61, 0x79
STORE_BYTE_K, STORE_WORD_K, STORE_DOUBLE_K, STORE_WORD, STORE_DOUBLE = 0x72, 0x62, 0x7A, 0x63, 0x7B
ATOMIC_DOUBLE, ATOMIC_ADD = 0xDB, 0x00
JA, JEQ_K, JGT_K, JGT_X, JGE_X, JSET_K, JNE_K, CALL, EXIT = 0x05, 0x15, 0x25, 0x2D, 0x3D, 0x45, 0x55, 0x85, 0x95
LOOK_UP, UPDATE, DELETE, LOAD_BYTES = 1, 2, 3, 26
HASH, ARRAY = 1, 2

# The ten words of context that a frame has.
WORDS = range(1, 11)

Slots = list[bytes]


def slot(opcode: int, dst: int = 0, src: int = 0, off: int = 0, imm: int = 0) -> bytes:
    return struct.pack("<BBhi", opcode, src << 4 | dst, off, imm)


def returns(value: int) -> Slots:
    return [slot(MOV64_K, 0, imm=value), slot(EXIT)]


def call(helper: int) -> bytes:
    return slot(CALL, imm=helper)


def loads_map(dst: int, fd: int) -> Slots:
    return [slot(WIDE, dst, 1, imm=fd), bytes(8)]


def loads_value(dst: int, fd: int, off: int) -> Slots:
    """The address of the one value of an array, plus an offset."""
    return [slot(WIDE, dst, 2, imm=fd), slot(0, imm=off)]


@dataclass
class Program:
    slots: Slots
    # Each map's kind, key size, value size and entries; their descriptors are 3, 4, ..
    maps: list[tuple[int, int, int, int]] = field(default_factory=list)
    packet: bytes = b""
    # The ten words of context of a frame.
    context: Sequence[int] = WORDS
    # How many instructions a run executes, if it is known.
    executed: int = 0
    # The value under key 0 of these maps, by their positions; compilers keep initialized variables so.
    values: dict[int, bytes] = field(default_factory=dict)

    @property
    def calls(self) -> bool:
        """Whether it calls a helper."""
        return any(slot[0] == CALL for slot in self.slots)


def empty() -> Program:
    return Program(returns(0), executed=2)


def arithmetic(rounds: int) -> Program:
    registers = [slot(MOV64_K, reg, imm=reg + 7) for reg in range(4)]
    round_of_eight = [
        slot(ADD64_X, 0, 1),
        slot(XOR64_X, 1, 2),
        slot(ADD64_K, 2, imm=12345),
        slot(MUL32_K, 3, imm=31),
        slot(RSH64_K, 1, imm=3),
        slot(ADD64_X, 2, 3),
        slot(XOR64_X, 0, 3),
        slot(ADD64_K, 1, imm=-5),
    ]
    slots = registers + round_of_eight * rounds + [slot(EXIT)]
    return Program(slots, executed=len(slots))


def branches() -> Program:
    """A filter of 1,000 tests of the packet's length and the other words of the context; each jump skips one slot."""
    context, tests, executed = [0, *WORDS], [], 0
    for number in range(1000):
        opcode, constant = (JEQ_K, JGT_K, JSET_K)[number % 3], number % 7
        tests += [
            slot(LOAD_WORD, 2, 1, off=4 * (number % 11)),
            slot(opcode, 2, off=1, imm=constant),
            slot(ADD64_K, 3, imm=1),
        ]
        word = context[number % 11]
        executed += 2 if (word == constant, word > constant, word & constant != 0)[number % 3] else 3
    slots = [slot(MOV64_K, 3), *tests, slot(MOV64_X, 0, 3), slot(EXIT)]
    return Program(slots, executed=executed + 3)


def kept_on_stack(registers: Sequence[int], count: int) -> Program:
    """Stores values all over the stack and loads them: all of these registers are stored, loaded and added to in turn."""
    slots = [slot(MOV64_K, reg, imm=reg) for reg in registers]
    for number in range(0, count, len(registers)):
        places = [(reg, -8 * (1 + (number + at) % 64)) for at, reg in enumerate(registers)]
        slots += [slot(STORE_DOUBLE, 10, reg, off=off) for reg, off in places]
        slots += [slot(LOAD_DOUBLE, reg, 10, off=off) for reg, off in places]
        slots += [slot(ADD64_K, reg, imm=1) for reg in registers]
    slots += [slot(MOV64_X, 0, registers[0]), slot(EXIT)]
    return Program(slots, executed=len(slots))


def stack() -> Program:
    """A thousand stores and loads of eight bytes, of eight registers in turn, as around a call."""
    return kept_on_stack(range(2, 10), 1000)


def stack_chain() -> Program:
    """The same with one register: each load waits for the store before it, and each store for the load."""
    return kept_on_stack([2], 1000)


def copies_of_packet(offset: int, to: int, length: int) -> Slots:
    """Copies bytes of the packet to the stack; the context is in register 6."""
    return [
        slot(MOV64_X, 1, 6),
        slot(MOV64_K, 2, imm=offset),
        slot(MOV64_X, 3, 10),
        slot(ADD64_K, 3, imm=to),
        slot(MOV64_K, 4, imm=length),
        call(LOAD_BYTES),
    ]


def look_at_packet() -> Slots:
    """Adds to register 9: ports and addresses of a TCP segment in IPv4 in an Ethernet frame, mixed. Each test jumps to the end."""
    look: list[bytes | tuple[int, int, int]] = [
        # The Ethernet header: is the type IPv4?
        *copies_of_packet(0, -16, 14),
        (JNE_K, 0, 0),
        slot(LOAD_HALF, 7, 10, off=-4),
        slot(BIG_ENDIAN, 7, imm=16),
        (JNE_K, 7, 0x800),
        # The IPv4 header: version 4, no fragment, TCP
        *copies_of_packet(14, -40, 20),
        (JNE_K, 0, 0),
        slot(LOAD_BYTE, 8, 10, off=-40),
        slot(MOV64_X, 7, 8),
        slot(RSH64_K, 7, imm=4),
        (JNE_K, 7, 4),
        slot(LOAD_HALF, 7, 10, off=-34),
        slot(BIG_ENDIAN, 7, imm=16),
        (JSET_K, 7, 0x1FFF),
        slot(LOAD_BYTE, 7, 10, off=-31),
        (JNE_K, 7, 6),
        # The header's length gives the offset of the ports.
        slot(AND64_K, 8, imm=15),
        slot(LSH64_K, 8, imm=2),
        slot(ADD64_K, 8, imm=14),
        *copies_of_packet(0, -48, 4)[:1],
        slot(MOV64_X, 2, 8),
        *copies_of_packet(0, -48, 4)[2:],
        (JNE_K, 0, 0),
        slot(LOAD_HALF, 7, 10, off=-46),
        slot(BIG_ENDIAN, 7, imm=16),
        (JNE_K, 7, 443),
        # The two addresses, mixed with the sender's port
        slot(LOAD_WORD, 7, 10, off=-28),
        slot(LOAD_WORD, 8, 10, off=-24),
        slot(XOR64_X, 7, 8),
        slot(LOAD_HALF, 8, 10, off=-48),
        slot(XOR64_X, 7, 8),
        slot(MUL32_K, 7, imm=0x01000193),
        slot(ADD64_X, 9, 7),
    ]
    slots = []
    for at, it in enumerate(look):
        if isinstance(it, tuple):
            opcode, register, constant = it
            slots.append(slot(opcode, register, off=len(look) - at - 1, imm=constant))
        else:
            slots.append(it)
    return slots


def segment() -> bytes:
    """A TCP segment to port 443 in IPv4 in an Ethernet frame."""
    ethernet = bytes.fromhex("020000000001 020000000002 0800")
    ip = struct.pack(">BBHHHBBHII", 0x45, 0, 40, 7, 0x4000, 64, 6, 0, 0x0A000001, 0xC0A80117)
    tcp = struct.pack(">HHIIBBHHH", 50123, 443, 1, 2, 0x50, 0x10, 1024, 0, 0)
    return ethernet + ip + tcp


def parser() -> Program:
    """Parses one packet eight times, each with three calls that copy bytes of it."""
    looks = look_at_packet() * 8
    slots = [slot(MOV64_X, 6, 1), slot(MOV64_K, 9), *looks, slot(MOV64_X, 0, 9), slot(EXIT)]
    return Program(slots, packet=segment(), executed=len(slots))


def counts(fd: int, key: int) -> Slots:
    """Adds 1 to a count under a key, and the count to register 9. In a hash map, an update adds the first count."""
    counted = [
        slot(LOAD_DOUBLE, 1, 0),
        slot(ADD64_K, 1, imm=1),
        slot(STORE_DOUBLE, 0, 1),
        slot(ADD64_X, 9, 1),
    ]
    put = [
        slot(STORE_DOUBLE_K, 10, off=-16, imm=1),
        *loads_map(1, fd),
        slot(MOV64_X, 2, 10),
        slot(ADD64_K, 2, imm=-4),
        slot(MOV64_X, 3, 10),
        slot(ADD64_K, 3, imm=-16),
        slot(MOV64_K, 4),
        call(UPDATE),
        slot(JA, off=len(counted)),
    ]
    return [
        slot(STORE_WORD_K, 10, off=-4, imm=key),
        *loads_map(1, fd),
        slot(MOV64_X, 2, 10),
        slot(ADD64_K, 2, imm=-4),
        call(LOOK_UP),
        slot(JNE_K, 0, off=len(put)),
        *put,
        *counted,
    ]


def counter() -> Program:
    """Eight counts in an array and eight in a hash map."""
    counted = []
    for number in range(8):
        counted += counts(3, number) + counts(4, 1000 * number)
    slots = [slot(MOV64_K, 9), *counted, slot(MOV64_X, 0, 9), slot(EXIT)]
    maps = [(ARRAY, 4, 8, 16), (HASH, 4, 8, 64)]
    # Once every key exists: a wide load is one instruction of two slots, and the updates are skipped.
    return Program(slots, maps=maps, executed=16 * 10 + 3)


def looked_up_and_updated(fd: int, key: int) -> Slots:
    """Adds 1 to a count under a key by a look-up and an update, and the count to register 9."""
    to_key = [*loads_map(1, fd), slot(MOV64_X, 2, 10), slot(ADD64_K, 2, imm=-4)]
    return [
        slot(STORE_WORD_K, 10, off=-4, imm=key),
        *to_key,
        call(LOOK_UP),
        slot(MOV64_K, 6),
        slot(JEQ_K, 0, off=1),
        slot(LOAD_DOUBLE, 6, 0),
        slot(ADD64_K, 6, imm=1),
        slot(STORE_DOUBLE, 10, 6, off=-16),
        slot(ADD64_X, 9, 6),
        *to_key,
        slot(MOV64_X, 3, 10),
        slot(ADD64_K, 3, imm=-16),
        slot(MOV64_K, 4),
        call(UPDATE),
    ]


def counter_three() -> Program:
    """A count in an array and one in each of two hash maps, each by a look-up and an update."""
    counted = looked_up_and_updated(3, 5) + looked_up_and_updated(4, 1000) + looked_up_and_updated(5, 2000)
    slots = [slot(MOV64_K, 9), *counted, slot(MOV64_X, 0, 9), slot(EXIT)]
    maps = [(ARRAY, 4, 8, 16), (HASH, 4, 8, 64), (HASH, 4, 8, 64)]
    return Program(slots, maps=maps, executed=3 * 18 + 3)


def counter_in_array() -> Program:
    """One count in an array, by a lookup; it returns the count."""
    counted = [slot(LOAD_DOUBLE, 1, 0), slot(ADD64_K, 1, imm=1), slot(STORE_DOUBLE, 0, 1), slot(MOV64_X, 0, 1)]
    slots = [
        slot(STORE_WORD_K, 10, off=-4, imm=3),
        *loads_map(1, 3),
        slot(MOV64_X, 2, 10),
        slot(ADD64_K, 2, imm=-4),
        call(LOOK_UP),
        slot(JEQ_K, 0, off=len(counted)),
        *counted,
        slot(EXIT),
    ]
    return Program(slots, maps=[(ARRAY, 4, 8, 16)], executed=11)


def on_context() -> Program:
    """Twenty instructions on six words of the context."""
    mixed = [[slot(LOAD_WORD, 2, 1, off=4 * word), slot(XOR64_X, 0, 2), slot(MUL32_K, 0, imm=31)] for word in range(6)]
    slots = [slot(MOV64_K, 0, imm=7), *sum(mixed, []), slot(EXIT)]
    return Program(slots, executed=len(slots))


def one_copy() -> Program:
    """Copies the 20 bytes of an IPv4 header, and returns the sender's address."""
    answer = [slot(JNE_K, 0, off=1), slot(LOAD_WORD, 0, 10, off=-12), slot(EXIT)]
    slots = [slot(MOV64_X, 6, 1), *copies_of_packet(14, -24, 20), *answer]
    return Program(slots, executed=len(slots))


def one_look() -> Program:
    """Parses a TCP segment: returns the two addresses mixed if it goes to port 443, and 0 otherwise."""
    slots = [slot(MOV64_X, 6, 1), slot(MOV64_K, 9), *look_at_packet(), slot(MOV64_X, 0, 9), slot(EXIT)]
    return Program(slots, executed=len(slots))


def counts_and_keeps_greatest(counts_one: Slots, rounds: int) -> Slots:
    """Counts words of the context, and keeps the greatest: two global variables, in an array of one element as compilers do.

    `counts_one` adds 1 to the number at register 4. Besides that a round executes five instructions once the greatest word is there: a wide
    load is one of two slots, and the last store is skipped.
    """
    slots = []
    for number in range(rounds):
        slots += [
            slot(LOAD_WORD, 3, 1, off=4 * (number % 11)),
            *loads_value(4, 3, 0),
            *counts_one,
            *loads_value(4, 3, 8),
            slot(LOAD_DOUBLE, 0, 4),
            slot(JGE_X, 0, 3, off=1),
            slot(STORE_DOUBLE, 4, 3),
        ]
    return slots


GLOBALS = [(ARRAY, 4, 16, 1)]


def globals_of(rounds: int) -> Program:
    """The counter is loaded, incremented and stored each time."""
    counts_one = [slot(LOAD_DOUBLE, 5, 4), slot(ADD64_K, 5, imm=1), slot(STORE_DOUBLE, 4, 5)]
    slots = [*counts_and_keeps_greatest(counts_one, rounds), slot(ADD64_X, 0, 5), slot(EXIT)]
    return Program(slots, maps=GLOBALS, executed=8 * rounds + 2)


def atomic_globals_of(rounds: int) -> Program:
    """The counter is incremented by one atomic operation instead."""
    counts_one = [slot(ATOMIC_DOUBLE, 4, 6, imm=ATOMIC_ADD)]
    adds_counter = [*loads_value(4, 3, 0), slot(LOAD_DOUBLE, 5, 4), slot(ADD64_X, 0, 5)]
    slots = [slot(MOV64_K, 6, imm=1), *counts_and_keeps_greatest(counts_one, rounds), *adds_counter, slot(EXIT)]
    return Program(slots, maps=GLOBALS, executed=6 * rounds + 5)


RUN: dict[str, Callable[[], Program]] = {
    "empty": empty,
    "arithmetic, long": lambda: arithmetic(499),
    "arithmetic, short": lambda: arithmetic(49),
    "branches": branches,
    "stack": stack,
    "stack, one chain": stack_chain,
    "parser": parser,
    "counter": counter,
    "globals": lambda: globals_of(100),
    "globals, atomic": lambda: atomic_globals_of(100),
    "counter_three": counter_three,
}

# Those in whose times the start of a run counts for little: a mean is taken of their ratios.
LONG = ("arithmetic, long", "arithmetic, short", "branches", "stack", "stack, one chain", "parser", "counter", "globals", "globals, atomic")

# Filters that are run on packets by the batch.
FILTERS: dict[str, Callable[[], Program]] = {
    "empty": empty,
    "20 on the context": on_context,
    "TCP port 443": one_look,
    "copy of 20 bytes": one_copy,
    "counter in an array": counter_in_array,
}

# Programs that are only loaded: 4,096 slots each.
SLOTS = 4096


def filled(slots: Slots, end: Slots) -> Program:
    """As many slots as a program may have: moves in all slots before the exit."""
    return Program(slots + [slot(MOV64_K, 9, imm=1)] * (SLOTS - len(slots) - len(end)) + end)


def full_facts() -> Slots:
    """Something is known of each register and of each stack slot: scalars and spilled pointers."""
    slots = [slot(LOAD_WORD, 2, 1)] + [slot(MOV64_K, reg, imm=reg) for reg in range(3, 10)]
    return slots + [slot(STORE_DOUBLE, 10, (1, 3)[number % 2], off=-8 * (number + 1)) for number in range(64)]


def straight() -> Program:
    return filled(arithmetic(510).slots[:-1], returns(0))


def spills() -> Program:
    """Stores the frame pointer and the context all over the stack, and loads them again."""
    slots = []
    for number in range(2040):
        off = -8 * (1 + number % 64)
        slots += [slot(STORE_DOUBLE, 10, (1, 10)[number % 2], off=off), slot(LOAD_DOUBLE, 3, 10, off=off)]
    return filled(slots, returns(0))


def jumps_to_one_target(slots: Slots) -> Program:
    """Four thousand tests of one number after these slots, each of which jumps to the end."""
    end, slots = returns(0), list(slots)
    for number in range(4000):
        slots.append(slot(JEQ_K, 2, off=SLOTS - len(end) - len(slots) - 1, imm=number))
    return filled(slots, end)


def one_target() -> Program:
    """Four thousand jumps to one target, with a number known of one register."""
    return jumps_to_one_target([slot(LOAD_WORD, 2, 1)])


def one_target_full() -> Program:
    """The same, with something known of each register and of each stack slot."""
    return jumps_to_one_target(full_facts())


def full_of_values() -> Slots:
    """Each stack slot holds a pointer into a value, each at another offset."""
    slots = [slot(LOAD_WORD, 2, 1), *loads_value(3, 3, 0)]
    for number in range(64):
        slots += [slot(STORE_DOUBLE, 10, 3, off=-8 * (number + 1)), slot(ADD64_K, 3, imm=1)]
    return slots


def crossing_jumps(slots: Slots, stores: Sequence[bytes] = (), jumps: int = 1) -> Program:
    """Each jump skips the next ninety slots. Before each `jumps` of them is one of these stores, in turn."""
    end, open_jumps, slots, number = returns(0), 90, list(slots), 0
    while len(slots) + open_jumps + jumps + 1 < SLOTS - len(end):
        if stores:
            slots.append(stores[number % len(stores)])
        slots += [slot(JEQ_K, 2, off=open_jumps, imm=len(slots) + at) for at in range(jumps)]
        number += 1
    return filled(slots, end)


# The registers that are not compared, but for the frame pointer, and a map with the values that pointers lead into.
OTHERS = (0, 1, 3, 4, 5, 6, 7, 8, 9)
VALUES = [(ARRAY, 4, 512, 1)]


def crossing() -> Program:
    """Ninety jumps are open at each slot."""
    return crossing_jumps(full_facts())


def crossing_values() -> Program:
    """The same with a pointer into a value in each stack slot."""
    return replace(crossing_jumps(full_of_values()), maps=VALUES)


def crossing_pointers() -> Program:
    """A pointer into a value in each stack slot and in nine registers."""
    slots = full_of_values()
    for reg in OTHERS:
        slots += loads_value(reg, 3, reg)
    return replace(crossing_jumps(slots), maps=VALUES)


def crossing_look_ups() -> Program:
    """The result of one look-up, not yet tested, in each stack slot and in nine registers."""
    slots = [slot(LOAD_WORD, 6, 1), slot(STORE_WORD_K, 10, off=-4), *loads_map(1, 3), slot(MOV64_X, 2, 10)]
    slots += [slot(ADD64_K, 2, imm=-4), call(LOOK_UP), slot(MOV64_X, 2, 6)]
    slots += [slot(MOV64_X, reg, 0) for reg in OTHERS[1:]]
    slots += [slot(STORE_DOUBLE, 10, 0, off=-8 * (number + 1)) for number in range(64)]
    return replace(crossing_jumps(slots), maps=VALUES)


def crossing_ranges() -> Program:
    """Each jump compares two of ten numbers, so both have other ranges on each edge."""
    end, open_jumps, slots, number = returns(0), 90, full_of_values(), 0
    slots += [slot(LOAD_WORD, reg, 1) for reg in (*OTHERS[2:], 0, 1)]
    while len(slots) + open_jumps + 2 < SLOTS - len(end):
        first, second = number % 10, (3 * number + 1) % 10
        second += first == second
        slots.append(slot((JGT_X, JGE_X)[number % 2], first, second % 10, off=open_jumps))
        number += 1
    return replace(filled(slots, end), maps=VALUES)


def alternating() -> Program:
    """Phases of ninety jumps, half of them into the next phase and half into the one after it. Between two phases a slot of each part of
    the stack changes, so jumps with two states of the stack arrive in turn."""
    end, jumps, stores, slots = returns(0), 90, 9, full_of_values()
    slots += [slot(MOV64_X, reg, 10) for reg in (0, 4, 5, 6, 7, 8, 9)]
    phases = (SLOTS - len(end) - len(slots)) // (stores + jumps)
    for phase in range(phases):
        slots += [slot(STORE_DOUBLE, 10, 3, off=-8 * (8 * part + 1)) for part in range(8)] + [slot(ADD64_K, 3, imm=(1, -1)[phase % 2])]
        for at in range(jumps):
            off = (1 + at % 2) * (stores + jumps) - 1
            is_within = phase + 1 + at % 2 < phases
            slots.append(slot(JEQ_K, 2, off=off if is_within else SLOTS - len(end) - len(slots) - 1, imm=len(slots)))
    return replace(filled(slots, end), maps=VALUES)


def regions(slots: Slots, inside: Callable[[int], Slots]) -> Program:
    """Regions of the same length: a jump, then what `inside` gives, then a jump that ends the region. The first and the last slot of each
    lead to the same slots of the next one."""
    slots, length = list(slots), len(inside(0)) + 2
    while len(slots) + 2 * length + 2 < SLOTS:
        slots += [slot(JSET_K, 2, off=length - 1, imm=1), *inside(length), slot(JA, off=length - 1)]
    return replace(filled(slots, returns(0)), maps=VALUES)


def growing() -> Program:
    """Regions of eight slots, each of which leads to the same slot of the next region. Each stack slot holds a pointer into a value, and so
    do seven registers. From slot to slot of a region, the range of offsets of all these pointers grows."""
    length, stores, others = 8, 64, (0, 4, 5, 6, 7, 8, 9)
    slots = [slot(LOAD_WORD, 2, 1), *loads_value(3, 3, 0)]
    first = len(slots) + length * (stores + len(others) + 2) + 1
    for number in range(length):
        slots += [slot(STORE_DOUBLE, 10, 3, off=-8 * (at + 1)) for at in range(stores)] + [slot(MOV64_X, reg, 3) for reg in others]
        slots.append(slot(ADD64_K, 3, imm=1))
        slots.append(slot(JSET_K, 2, off=first + number - len(slots) - 1, imm=1))
    slots.append(slot(JA, off=SLOTS - len(slots) - 3))
    return regions(slots, lambda length: [slot(JSET_K, 2, off=length - 1, imm=1)] * 6)


def null_tests() -> Program:
    """Regions of null tests of eight look-ups. The results are in registers and all over the stack. Each test leads to the slot after
    the same test of the next region."""
    registers = (0, 1, 3, 4, 5, 6, 7, 8)
    slots = [slot(MOV64_X, 9, 1), slot(STORE_WORD_K, 10, off=-4)]
    for number in range(8):
        slots += [*loads_map(1, 3), slot(MOV64_X, 2, 10), slot(ADD64_K, 2, imm=-4), call(LOOK_UP)]
        slots += [slot(STORE_DOUBLE, 10, 0, off=-8 * at - 16) for at in range(number, 63, 8)]
    slots += [slot(LOAD_WORD, 2, 9), *[slot(LOAD_DOUBLE, reg, 10, off=-8 * at - 16) for at, reg in enumerate(registers)]]
    return regions(slots, lambda length: [slot(JEQ_K, reg, off=length) for reg in registers])


# Stores of one byte to each stack slot.
BYTES = [slot(STORE_BYTE_K, 10, off=-1 - 8 * number, imm=number) for number in range(64)]


def crossing_bytes() -> Program:
    """A store of a byte before each jump, to another stack slot each time."""
    return crossing_jumps(full_facts(), BYTES)


def crossing_few_bytes() -> Program:
    """A store of a byte before each four jumps."""
    return crossing_jumps(full_facts(), BYTES, 4)


def diamonds() -> Program:
    """A test, a slot on each of its two edges, and so on."""
    end, slots = returns(0), full_facts()
    while len(slots) + 4 <= SLOTS - len(end):
        slots += [
            slot(JGT_K, 2, off=2, imm=len(slots)),
            slot(ADD64_K, 3, imm=1),
            slot(JA, off=1),
            slot(ADD64_K, 3, imm=2),
        ]
    return filled(slots, end)


LOADED: dict[str, Callable[[], Program]] = {
    "straight": straight,
    "spills": spills,
    "one target": one_target,
    "one target, full": one_target_full,
    "crossing jumps": crossing,
    "crossing, values": crossing_values,
    "crossing, pointers": crossing_pointers,
    "crossing, look-ups": crossing_look_ups,
    "crossing, ranges": crossing_ranges,
    "crossing, bytes": crossing_bytes,
    "crossing, 4 jumps": crossing_few_bytes,
    "diamonds": diamonds,
    "two stacks in turn": alternating,
    "growing stacks": growing,
    "null tests": null_tests,
}
