"""The cases from which the search begins, for each kind: what was known to be dear, and plain ones."""

from __future__ import annotations

from collections.abc import Iterator
from dataclasses import replace

from programs import ARRAY, DELETE, HASH, LOADED, LOOK_UP, RUN, UPDATE
from worst_costs.building import BOUND, DESCRIPTORS
from worst_costs.calls import EXITS, calls, calls_on_keys, colliding_look_ups, copies, long_values, names, new_keys, updates_and_deletes
from worst_costs.cases import Case, Command, Part
from worst_costs.compact import parts_of

FULL, KEY, VALUE, MAPS = 4096, 512, 8, 16
# The packets of a bounded batch.
PACKETS = 64
# The most keys that a part of a save puts.
KEYS_PER_SAVE_PART = 1024
# Sizes of keys and values, and entries.
SHAPES = ((KEY, VALUE, FULL), (KEY, 4096, 16), (64, 512, 128), (16, VALUE, FULL), (4, VALUE, FULL))
# The pairs of a delete and an update that use up the table of a map of 4,096 keys if the keys of one group are deleted again and again.
CROWD, ROOM = 20, 14_336


def full_map(fd: int, key: int = KEY, keys: str = "counting", entries: int = FULL, value: int = VALUE) -> list[Command]:
    return [["create", HASH, key, value, entries], ["fill", fd, keys, entries]]


def closed(first: int, count: int) -> list[Command]:
    return [["close", fd] for fd in range(first, first + count)]


def held(count: int, key: int, entries: int, value: int = VALUE) -> Case:
    """A program holds full maps that no descriptor names."""
    maps = [command for fd in range(3, 3 + count) for command in full_map(fd, key, "counting", entries, value)]
    return Case("close", f"a program that holds {count} maps", [*maps, ["load", names(count, count)], *closed(3, count)], ["close", 3 + count])


def small_before_large() -> Case:
    """A program holds twelve small maps and then four large ones, whose areas move whenever a small one is freed."""
    maps = [["create", HASH, 4, VALUE, 1]] * 12 + [["create", ARRAY, 4, 4096, 16]] * 3 + [["create", ARRAY, 4, 4096, 15]]
    return Case("close", "small maps and then large ones", [*maps, ["load", names(MAPS)], *closed(3, MAPS)], ["close", 3 + MAPS])


def freed_maps() -> Case:
    """A program holds full maps, which are freed, as the host keeps sixteen small ones for later maps."""
    small = [*([["create", HASH, 4, VALUE, 1]] * MAPS), *closed(3, MAPS)]
    case = held(8, KEY, FULL - 2)
    return replace(case, what="full maps are freed", before=[*small, *case.before])


def closes() -> Iterator[Case]:
    for count, key, entries, value in ((8, KEY, FULL, VALUE), (MAPS, KEY, 2048, VALUE), (MAPS, 4, 4, 4096), (MAPS, 64, 32, 512)):
        yield held(count, key, entries, value)
    yield small_before_large()
    yield freed_maps()


def creates() -> Iterator[Case]:
    """The maps of the last ones were closed, and some are freed, since with the new one they would have too many entries."""
    new: Command = ["create", HASH, KEY, VALUE, FULL]
    yield Case("create", "a first map", [], new)
    yield Case("create", "a map like one that was closed", [*full_map(3), ["close", 3]], new)
    yield Case("create", "an array", [], ["create", ARRAY, 4, 4096, 16])
    large = [["create", HASH, KEY, VALUE, FULL - 1], *([new] * 7), ["create", HASH, 4, VALUE, 1]]
    fills = [["fill", fd, "counting", FULL] for fd in range(3, 11)]
    yield Case("create", "one full map is freed, and not two", [*large, *fills, *closed(3, 9)], ["create", HASH, KEY - 1, VALUE, FULL])
    yield Case("create", "one full map is freed", [*([new] * 8), *fills, *closed(3, 8)], ["create", HASH, KEY - 1, VALUE, FULL])
    odd = [["create", HASH, 4, VALUE, 8], *([["create", HASH, KEY, VALUE, FULL - 1]] * 8)]
    yield Case("create", "two maps are freed, as none has as many entries as are too many", [*odd, *fills[1:], ["fill", 11, "counting", FULL], *closed(4, 8)], new)
    small = [*([["create", HASH, 128, VALUE, 30]] * MAPS), *(["fill", fd, "counting", 30] for fd in range(3, 3 + MAPS))]
    others = [["create", ARRAY, 4, VALUE, FULL]] * 7
    yield Case("create", "sixteen maps are freed", [*small, *closed(3, MAPS), *others], ["create", HASH, KEY - 1, VALUE, FULL])


def run_of(what: str, maps: list[Command], program: list[Part], length: int = 64) -> Case:
    fd = 3 + sum(command[0] == "create" for command in maps)
    return Case("run", what, [*maps, ["load", program]], ["run", fd, length, 0])


def runs() -> Iterator[Case]:
    for key, value, entries in SHAPES:
        for helper in (LOOK_UP, UPDATE, DELETE):
            yield run_of("calls on one key", full_map(3, key, "counting", entries, value), calls(helper))
    yield run_of("look-ups among keys that collide", full_map(3, KEY, "colliding"), colliding_look_ups())
    yield run_of("deletes of present keys", full_map(3), calls_on_keys(DELETE))
    yield run_of("updates of long values", [["create", HASH, KEY, 4095, 16], ["create", ARRAY, 4, 4095, 1]], long_values(), KEY)
    yield run_of("new keys", [["create", HASH, KEY, 376, 174]] * 4, new_keys(4, 174), KEY)
    yield run_of("new keys in eight maps", [["create", HASH, KEY, VALUE, FULL]] * 8, new_keys(8, 84), KEY)
    yield run_of("updates and deletes", [["create", HASH, KEY, 512, 128]], updates_and_deletes())
    yield run_of("names of maps", [["create", HASH, 4, VALUE, 1]] * MAPS, names(MAPS))
    yield run_of("copies", [], copies(), KEY)
    for name in ("arithmetic, long", "counter_three"):
        program = RUN[name]()
        yield run_of(name, [["create", *shape] for shape in program.maps], parts_of(program))


def loads() -> Iterator[Case]:
    for name, make in LOADED.items():
        program = make()
        yield Case("load", name, [["create", *shape] for shape in program.maps], ["load", parts_of(program)])
    yield Case("load", "names of maps", [["create", HASH, 4, VALUE, 1]] * MAPS, ["load", names(MAPS)])


def installs() -> Iterator[Case]:
    """Prepared programs, that of the last one with as many names of maps as it has room for, in a tenant with all descriptors open."""
    for case in loads():
        yield replace(case, kind="install", step=["install", *case.step[1:]])
    maps: list[Command] = [["create", HASH, 4, VALUE, 1]] * MAPS
    small: Command = ["load", [EXITS]]
    yield Case("install", "names of maps beside all descriptors", [*maps, *([small] * (DESCRIPTORS - MAPS - 1))], ["install", names(MAPS)])


def sweeps() -> Iterator[Case]:
    """Deletes and updates of the keys of one group use up the room of a table of keys; the step fills it anew."""
    for key in (4, 16, 64, KEY):
        fills = [["fill", 3, "crowd", CROWD], ["fill", 3, "random", FULL - CROWD]]
        before = [["create", HASH, key, VALUE, FULL], *fills, ["put back", 3, "crowd", CROWD, ROOM]]
        yield Case("delete, sweep", "a table of keys is filled anew", before, ["delete", 3, "crowd", ROOM % CROWD])


def on_keys(kind: str, name: str) -> Iterator[Case]:
    """A step on a key of a full map."""
    for keys in ("counting", "random", "colliding"):
        for key, value, entries in SHAPES:
            if keys != "colliding" or key >= 16:
                yield Case(kind, f"a full map, keys {keys}", full_map(3, key, keys, entries, value), [name, 3, keys, entries - 2])


def saves() -> Iterator[Case]:
    """The last part with keys of a full map: it passes all keys before its own."""
    for key, value, entries in (*SHAPES, (KEY, 64, KEYS_PER_SAVE_PART)):
        yield Case("save part", "a full map", full_map(3, key, "counting", entries, value), ["save", 1 + -(-entries // KEYS_PER_SAVE_PART)])


def starts(kind: str) -> list[Case]:
    """Some cases of a kind."""
    if kind == "batch":
        return [Case(kind, it.what, it.before, ["batch", it.step[1], MAPS, *it.step[2:]]) for it in runs()]
    if kind == "bounded batch":
        return [Case(kind, it.what, it.before, ["bounded", it.step[1], PACKETS, *it.step[2:], BOUND]) for it in runs()]
    made = {"load": loads, "install": installs, "create": creates, "close": closes, "run": runs, "delete, sweep": sweeps, "save part": saves}
    if kind in made:
        return list(made[kind]())
    return list(on_keys(kind, {"next key": "next"}.get(kind, kind)))
