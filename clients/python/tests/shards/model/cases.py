"""Small cases of the protocol.

A call increments a tenant's count, and its reply is the number of calls that were done; so a call that is lost, done twice or done on
another state shows in its reply.

The processes do what the package does, in the same order, and call the same scripts: client.py, worker.py, moving.py.
"""

from __future__ import annotations

import functools
import json
from collections.abc import Sequence
from typing import Any

from bpfhost.shards import directory_scripts as directory
from bpfhost.shards import scripts
from bpfhost.shards.connection import Script
from bpfhost.shards.names import DirectoryKeys, ShardKeys, order
from tests.shards.model.explorer import Local, Process, Step, Words
from tests.shards.simulator.server import Store, Stream

NAME = "c"
_KEYS = [ShardKeys(0), ShardKeys(1)]
_DIRECTORY = DirectoryKeys()


def _script(script: Script, keys: Sequence[str], *arguments: object) -> Words:
    return script, tuple(keys), arguments


# A client, which sends its calls one after the other: ("place", number), ("claim", number, seat), ("ask", number, seat), ("wait", number,
# place), ("done",).


def client(calls: int) -> Process:
    """A client with so many calls of one session."""

    def steps(local: Local) -> list[Step]:
        if local[0] == "done":
            return []
        number = local[1]
        if local[0] == "place":
            return [Step(_script(directory.PLACE, _DIRECTORY.all, NAME), lambda found: ("claim", number, found[0]))]
        if local[0] == "wait":
            shard, tenant, entry = local[2]
            return [Step(("XRANGE", _KEYS[int(shard)].replies(int(tenant)), entry, entry), lambda found: _next(number, calls) if found else None)]
        shard, tenant, generation = map(int, local[2].split())
        keys, seat = _KEYS[shard], f"{generation} name:{NAME}"
        if local[0] == "claim":
            words = _script(scripts.CLAIM, [keys.seats], tenant, generation, seat)
            return [Step(words, lambda has: ("ask", number, local[2]) if has else ("place", number))]
        used = [keys.seats, keys.frames(tenant), keys.sessions(generation), keys.waiting, keys.lease]
        words = _script(scripts.ASK, used, "s", number, 0, seat, shard, tenant, f"call {number}", 1, 1000, 10, "f")
        return [Step(words, lambda said: ("wait", number, tuple(said[1:])) if said[0] == b"taken" else ("place", number))]

    return Process(("place", 1), steps, _is_done)


def _is_done(local: Local) -> bool:
    return local[0] in ("done", "dead")


def _next(number: int, calls: int) -> Local:
    return ("place", number + 1) if number < calls else ("done",)


# Processes of one session, which send one call each: ("place",), ("claim", seat), ("resume", seat, given up), ("ask", seat, number, given
# up), ("done",).


def resuming(call: int, more: int) -> Process:
    """A process that continues a session which others continue too.

    Its call has its own number, and is sent once, as by a process that dies then; the next process finds out whether it was taken.
    """

    def steps(local: Local) -> list[Step]:
        if local[0] == "done":
            return []
        if local[0] == "place":
            return [Step(_script(directory.PLACE, _DIRECTORY.all, NAME), lambda found: ("claim", found[0]))]
        shard, tenant, generation = map(int, local[1].split())
        keys, seat = _KEYS[shard], f"{generation} name:{NAME}"
        if local[0] == "claim":
            return [Step(_script(scripts.CLAIM, [keys.seats], tenant, generation, seat), lambda has: ("resume", local[1], b"0") if has else ("place",))]
        if local[0] == "resume":
            words = _script(scripts.RESUME, [keys.seats, keys.sessions(generation), keys.lease], "s", local[2], tenant, seat, 10)
            return [Step(words, lambda said: _resumed(local[1], said))]
        used = [keys.seats, keys.frames(tenant), keys.sessions(generation), keys.waiting, keys.lease]
        words = _script(scripts.ASK, used, "s", local[2], local[3], seat, shard, tenant, f"call {call}", 1, 1000, 10, "f")
        # An old seat is no reason to send it to another one: in the model a process that is refused there resumes again.
        return [Step(words, lambda said: ("place",) if said[0] == b"seat" else ("done",))]

    def _resumed(seat: bytes, said: Any) -> Local:
        if said[0] == b"passed":
            return ("resume", seat, said[1])
        return ("ask", seat, int(said[1]) + more, said[2]) if said[0] == b"resumed" else ("place",)

    return Process(("place",), steps, _is_done, lambda local: ("done",) if local[0] == "ask" else local)


# A worker: ("idle", starts, seen), ("restore", token), ("read", token, place, count), ("write", token, place, count, entry, fields), and
# ("both", token, count, entry, next entry) if the replies of another call are being written after those of the first one.


def worker(shard: int, name: str, starts: int, skips: bytes = b"", tenant: int = 0) -> Process:
    """A worker of one tenant of a shard, which starts so many times at most, when it has died or its lease was taken.

    An entry with these frames may be skipped, as if an operator had skipped it. A worker that never starts has the lease, and does not
    die.
    """
    keys = _KEYS[shard]

    def died(token: str) -> Local:
        return ("idle", int(token[len(name) :]) + 1, ("", ""))

    def steps(local: Local) -> list[Step]:
        if local[0] == "idle":
            return _take(local) if local[1] < starts else []
        if local[0] == "restore":
            return [Step(("XRANGE", keys.replies(tenant), "0-1", "+"), lambda found: _restored(local, found))]
        if local[0] == "read":
            return [Step(_behind(local[2]), lambda found: ("write", *local[1:], found[0][0], tuple(found[0][1])) if found else None)]
        if local[0] == "both":
            return _both(local)
        ways = [Step(words, functools.partial(_written, local, count)) for words, count in _writes(local)]
        if local[5][0] == b"f" and not skips:
            # The next one is read, played and written at the same time.
            ways.append(Step(_behind(local[4]), functools.partial(_read_on, local)))
        return ways

    def _behind(place: bytes) -> Words:
        behind = b"%d-%d" % (order(place)[0], order(place)[1] + 1)
        return ("XRANGE", keys.frames(tenant), behind, "+", "COUNT", 1)

    def _read_on(local: Local, found: list[Any]) -> Local | None:
        if not found or found[0][1][0] != b"f":
            return None
        return ("both", local[1], local[3], local[4], found[0][0])

    def _both(local: Local) -> list[Step]:
        """Both writes may reach the server first. The second one writes nothing without the first one, which is then repeated."""
        _, token, count, entry, other = local
        first, second = _write(token, b"", entry, count + 1), _write(token, entry, other, count + 2)
        after = ("write", token, entry, count + 1, other, (b"f", b"-"))
        return [
            Step(first, lambda has: after if has == 1 else died(token)),
            Step(second, lambda has: died(token) if has == 0 else local),
        ]

    def _write(token: str, behind: bytes, entry: bytes, count: int) -> Words:
        used = [keys.lease, keys.waiting, keys.replies(tenant)]
        return _script(scripts.WRITE, used, token, tenant, 1, 1, behind, entry, "r", b"%d" % count)

    def _take(local: Local) -> list[Step]:
        token = f"{name}{local[1]}"
        words = _script(scripts.TAKE, [keys.lease], token, 1000, *local[2])
        return [
            Step(words, lambda said: ("restore", token) if said[0] == token.encode() else ("idle", local[1], (said[0], said[1])))
        ]

    def _restored(local: Local, found: list[Any]) -> Local:
        count = 0
        for _, (field, value) in found:
            count = 0 if value == b"left" else int(value.split()[1]) if value.startswith(b"arrived") else count + (field == b"r")
        return ("read", local[1], found[-1][0] if found else b"0-0", count)

    def _writes(local: Local) -> list[tuple[Words, int]]:
        _, token, _, count, entry, (field, value) = local
        replies = keys.replies(tenant)
        if field == b"leave":
            used = [keys.lease, replies, keys.snapshots, keys.left]
            return [(_script(scripts.WRITE_MOVE, used, token, entry, tenant, "nothing", value, f"state {count}"), 0)]
        if field == b"arrive":
            arrived = int(value.split()[1])
            return [(_script(scripts.WRITE_MOVE, [keys.lease, replies, keys.snapshots], token, entry, tenant, value), arrived)]
        writes = [(_write(token, b"", entry, count + 1), count + 1)]
        if value == skips:
            used = [keys.lease, keys.waiting, replies]
            writes.append((_script(scripts.WRITE, used, token, tenant, 1, 1, b"", entry, "e", "skipped"), count))
        return writes

    def _written(local: Local, count: int, has: Any) -> Local:
        return ("read", local[1], local[4], count) if has == 1 else died(local[1])

    def dies(local: Local) -> Local:
        return local if local[0] == "idle" else died(local[1])

    # A worker that has read all is at its end; one that has used its starts is spent.
    if not starts:
        return Process(("read", f"{name}0", b"0-0", 0), steps, lambda local: bool(local[0] == "read"), is_lossy=False)
    return Process(
        ("idle", 0, ("", "")),
        steps,
        lambda local: bool(local[0] in ("idle", "read")),
        dies,
        is_spent=lambda local: bool(local[0] == "idle" and local[1] >= starts),
    )


# A mover: ("begin",), ("look", seat, next), ("claim", ..), ("leave", ..), ("left", .., entry), ("fetch", ..), ("sessions", .., state),
# ("arrive", .., state, sessions), ("arrived", .., entry), ("seat", ..), ("forget", ..), ("end", ..), ("done",).


def mover(dies: bool, shard: str = "1") -> Process:
    """A process that moves the customer to a shard; if it dies it does not start again."""

    def steps(local: Local) -> list[Step]:
        if local[0] in ("done", "dead"):
            return []
        if local[0] == "begin":
            words = _script(directory.BEGIN_MOVE, _DIRECTORY.all, NAME, shard, "")
            return [Step(words, lambda said: ("look", said[0], said[1]) if said[0] else (("done",) if said[1] == b"here" else None))]
        return [_on_its_way(local)]

    return Process(("begin",), steps, _is_done, (lambda _local: ("dead",)) if dies else None)


def _on_its_way(local: Local) -> Step:
    """A step of a move, also of one that was turned back."""
    at, *rest = local
    if at == "turn":
        return _turned(local)
    back = at.startswith("back ")
    step = _moved((at[5:] if back else at, *rest))
    return Step(step.words, lambda answer: _back(step.then(answer))) if back else step


def _moved(local: Local) -> Step:
    at, seat, next_seat, *rest = local
    old, tenant, generation = map(int, seat.split())
    new, next_tenant, next_generation = map(int, next_seat.split())
    keys, others = _KEYS[old], _KEYS[new]
    both = (seat, next_seat)
    claim = [tenant, generation, f"{generation} name:{NAME}"]
    if at == "look":
        # Whether another process has let the customer arrive.
        return Step(("HGET", others.seats, next_tenant), lambda said: _looked(said, next_generation, both))
    if at == "claim":
        return Step(_script(scripts.CLAIM, [keys.seats], *claim), lambda _: ("leave", *both))
    if at == "leave":
        return Step(_script(scripts.LEAVE, [keys.seats, keys.frames(tenant)], *claim), lambda entry: ("left", *both, entry) if entry else ("done",))
    if at == "left":
        return Step(("XRANGE", keys.replies(tenant), rest[0], rest[0]), lambda found: ("fetch", *both) if found else None)
    if at == "fetch":
        return Step(("HGET", keys.left, generation), lambda state: ("sessions", *both, state) if state else ("done",))
    if at == "sessions":
        return Step(("HGETALL", keys.sessions(generation)), lambda records: ("arrive", *both, rest[0], tuple(records)))
    if at == "arrive":
        used = [others.seats, others.frames(next_tenant), others.sessions(next_generation)]
        words = _script(scripts.ARRIVE, used, next_tenant, next_generation, rest[0], *rest[1])
        return Step(words, lambda entry: ("turn", *both) if not entry else ("seat", *both) if entry == b"has" else ("arrived", *both, entry))
    if at == "arrived":
        return Step(("XRANGE", others.replies(next_tenant), rest[0], rest[0]), lambda found: ("seat", *both) if found else None)
    if at == "seat":
        words = _script(scripts.SEAT, [others.seats], next_tenant, next_generation, f"{next_generation} name:{NAME}")
        return Step(words, lambda _: ("forget", *both))
    if at == "forget":
        return Step(("DEL", keys.sessions(generation)), lambda _: ("forget left", *both))
    if at == "forget left":
        return Step(("HDEL", keys.left, generation), lambda _: ("end", *both))
    return Step(_script(directory.END_MOVE, _DIRECTORY.all, NAME, seat, next_seat), lambda _: ("done",))


def _looked(said: bytes | None, generation: int, both: tuple[bytes, bytes]) -> Local:
    known, _, rest = (said or b"").partition(b" ")
    what, _, entry = rest.partition(b":")
    if not known or int(known) != generation or what == b"closed":
        return ("claim", *both)
    return ("arrived", *both, entry) if what == b"arrives" else ("seat", *both)


# Who takes a move back: ("look",), ("close", seat, next), then as a mover to the seat that it is given.


def aborter() -> Process:
    """A process that takes the move of the customer back, if there is one, and lets it return to its old shard."""

    def steps(local: Local) -> list[Step]:
        at = local[0]
        if at == "done":
            return []
        if at == "moves":
            return [Step(("HGET", _DIRECTORY.moves, NAME), lambda to: ("customer", to) if to else ("done",))]
        if at == "customer":
            return [Step(("HGET", _DIRECTORY.customers, NAME), lambda seat: ("close", seat, local[1]) if seat != local[1] else ("done",))]
        return [_on_its_way(local) if at.startswith("back ") else _turned(local)]

    return Process(("moves",), steps, _is_done)


def _back(local: Local | None) -> Local | None:
    return local if local is None or local[0] in ("done", "turn") else ("back " + local[0], *local[1:])


def _turned(local: Local) -> Step:
    at, seat, next_seat, *rest = local
    old, tenant, generation = map(int, seat.split())
    new, next_tenant, next_generation = map(int, next_seat.split())
    keys, others = _KEYS[old], _KEYS[new]
    if at == "close":
        words = _script(scripts.CLOSE_SEAT, [others.seats, others.sessions(next_generation)], next_tenant, next_generation, "")
        # If it has arrived, the move goes on to its end.
        return Step(words, lambda closed: ("claim", seat, next_seat) if closed else ("back look", seat, next_seat))
    claim = [tenant, generation, f"{generation} name:{NAME}"]
    if at == "claim":
        return Step(_script(scripts.CLAIM, [keys.seats], *claim), lambda _: ("leave", seat, next_seat))
    if at == "leave":
        return Step(
            _script(scripts.LEAVE, [keys.seats, keys.frames(tenant)], *claim),
            lambda entry: ("left", seat, next_seat, entry) if entry else ("done",),
        )
    if at == "left":
        return Step(("XRANGE", keys.replies(tenant), rest[0], rest[0]), lambda found: ("kept", seat, next_seat) if found else None)
    if at == "kept":
        return Step(("HGET", keys.left, generation), lambda state: ("turn", seat, next_seat) if state else ("done",))
    words = _script(directory.TURN_MOVE, _DIRECTORY.all, NAME, seat, next_seat)
    return Step(words, lambda said: ("back look", seat, said[0]) if said[0] else ("done",))


# The invariants of each state.


def replies_are_right(keys: dict[bytes, Any]) -> None:
    """Each call is taken once, each entry has one reply at most, in order, and the replies are those of one customer who counts."""
    counts, called = dict[int, int](), list[bytes]()
    for shard in _KEYS:
        for tenant in (0, 1):
            frames, replies = (keys.get(name(tenant).encode(), Stream()).entries for name in (shard.frames, shard.replies))
            assert list(replies) == list(frames)[: len(replies)], f"replies to {list(replies)}, and entries {list(frames)}"
            called += [value for field, value in frames.values() if field == b"f"]
            for entry, (field, value) in replies.items():
                number = int(frames[entry][1].split()[1]) if frames[entry][0] == b"f" else 0
                if number and field == b"r":
                    counts[number] = int(value)
    assert len(called) == len(set(called)), f"a call is taken twice: {called}"
    done = sorted(counts)
    assert [counts[number] for number in done] == list(range(1, len(done) + 1)), f"calls are answered {counts}"


def calls_are_known(keys: dict[bytes, Any]) -> None:
    """A process that continues a session gets the number of each call that was taken by then, so none is taken below it.

    The number of each call is so many above the last one that its process was given: that shows which calls they are.
    """
    replies_are_right(keys)
    entries = [value for field, value in keys.get(_KEYS[0].frames(0).encode(), Stream()).entries.values() if field == b"f"]
    record = keys.get(_KEYS[0].sessions(1).encode(), {}).get(b"s", b'{"number": 0}')
    assert int(json.loads(record)["number"]) == sum(_MORE[value] for value in entries), f"{entries} were taken, and the session has {record!r}"


# How far the calls of processes of one session are above the last number that they were given.
_MORE = {b"call 1": 5, b"call 2": 3}


def sharing() -> list[Process]:
    """Two processes that go on with one session."""
    return [resuming(int(call.split()[1]), more) for call, more in _MORE.items()]


def begun(held: bool = False, waiting: int = 0) -> dict[bytes, Any]:
    """The keys of two shards that are offered; so many calls wait in the first one."""
    store = Store()
    for shard in ("0", "1"):
        store.do(["ZADD", _DIRECTORY.loads, "NX", shard, shard])
        store.do(["HSET", _DIRECTORY.beats, shard, "1"])
        if held:
            store.do(["HSET", _KEYS[int(shard)].lease, "token", f"w{shard}0", "count", "1"])
    for call in range(1, waiting + 1):
        store.do(["XADD", _KEYS[0].frames(0), "*", "f", f"call {call}"])
    return store.keys


# Mistakes that are inserted, by the script and the change of its text.
MISTAKES = {
    "no token is compared": (scripts.WRITE, "if redis.call('HGET', KEYS[1], 'token') ~= ARGV[1] then return 0 end\n", ""),
    "a reply passes the one before it": (scripts.WRITE, "ARGV[at + 3], ARGV[at + 3]) == 0 then return 2 end", "ARGV[at + 3], ARGV[at + 3]) == 0 then end"),
    "a reply without its id": (scripts.WRITE, "redis.call('XADD', KEYS[key], ARGV[reply],", "redis.call('XADD', KEYS[key], '*',"),
    "a seat is given before the old one is taken": (
        directory.BEGIN_MOVE,
        "redis.call('HSET', KEYS[5], ARGV[1], given)\n",
        "redis.call('HSET', KEYS[5], ARGV[1], given)\nredis.call('HSET', KEYS[1], ARGV[1], given)\n",
    ),
    "the old seat is not taken": (
        scripts.LEAVE,
        "redis.call('HSET', KEYS[1], ARGV[1], ARGV[2] .. ' leaves:' .. entry)\n",
        "",
    ),
    "a call is not remembered": (scripts.ASK, "redis.call('HSET', key, ARGV[1],", "redis.call('HSET', key, 'x' .. ARGV[1],"),
    "a session is not fenced": (scripts.RESUME, "keep(session, KEYS[2], KEYS[3])\n", ""),
    "a seat that is closed is arrived at": (scripts.ARRIVE, "if string.match(seat, '^%d+ closed:') then return false end", ""),
}


def mutated(mistake: str) -> dict[str, str]:
    """The text of a script, and the one with a mistake."""
    script, right, wrong = MISTAKES[mistake]
    assert right in script.text
    return {script.text: script.text.replace(right, wrong)}
