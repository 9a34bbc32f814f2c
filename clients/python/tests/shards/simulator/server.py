"""A server of Redis that has the commands of shards, and runs their scripts as they are, by Debian's Lua for Python (python3-lupa)."""

from __future__ import annotations

import collections
import copy
import functools
import hashlib
import itertools
import json
from collections.abc import Callable, Sequence
from typing import Any

from bpfhost.shards.errors import NoScript, OutOfMemory, RedisError
from bpfhost.shards.names import order

Value = Any
# The same ids are compared again and again.
_order = functools.lru_cache(1 << 16)(order)


class Stream:
    """A stream: entries in the order of their ids."""

    def __init__(self) -> None:
        self.entries: dict[bytes, list[bytes]] = {}
        self.last = b"0-0"
        self.added = 0

    def between(self, low: tuple[int, int], high: tuple[int, int] = (1 << 64, 0)) -> list[Value]:
        """The entries from one id to another. They are looked for from the end on, since the last ones are mostly asked for."""
        found: list[Value] = []
        for entry, fields in reversed(self.entries.items()):
            if _order(entry) < low:
                break
            if _order(entry) <= high:
                found.append([entry, fields])
        return found[::-1]


class Store:
    """The keys of a server, and its commands. It does not know of scripts, and its clock is set from outside."""

    def __init__(self) -> None:
        # What it uses, and the most that it may use.
        self.memory = 1, 0
        self.keys: dict[bytes, Value] = {}
        self.milliseconds = 1_000_000
        self.has_memory = True
        self.on_write: Callable[[], None] = lambda: None
        # Whether replicas were asked for; how much was written since; and what keys had before each write that they may not have.
        self.is_replicated = False
        self.written = 0
        self._before: collections.deque[tuple[int, bytes, Value]] = collections.deque()

    def replicas_have(self, written: int) -> None:
        """A failover loses nothing of what was written up to here."""
        while self._before and self._before[0][0] <= written:
            self._before.popleft()

    def fail_over(self) -> None:
        """Takes the keys that the replicas have."""
        while self._before:
            _, name, value = self._before.pop()
            if value is None:
                self.keys.pop(name, None)
            else:
                self.keys[name] = value

    def do(self, words: Sequence[object]) -> Value:
        """The reply to a command."""
        name, *rest = encoded(words)
        command = getattr(self, f"_{name.decode().lower()}", None)
        if command is None:
            raise RedisError(f"the simulator has no command {name.decode()}")
        if self.is_replicated and name in _WRITES:
            self.written += 1
            self._before.append((self.written, rest[0], _copied(self.keys.get(rest[0]))))
        return command(*rest)

    def _of(self, name: bytes, kind: type) -> Value:
        found = self.keys.get(name)
        if found is None:
            found = self.keys[name] = kind()
        if not isinstance(found, kind):
            raise RedisError(f"WRONGTYPE of {name.decode()}")
        return found

    # Any kind.

    def _exists(self, *names: bytes) -> int:
        return sum(name in self.keys for name in names)

    def _del(self, name: bytes) -> int:
        return int(self.keys.pop(name, None) is not None)

    def _flushall(self) -> bytes:
        self.keys.clear()
        return b"OK"

    def _config(self, _get: bytes, name: bytes) -> list[bytes]:
        return [name, {b"appendonly": b"yes", b"appendfsync": b"always"}.get(name, b"noeviction")]

    def _info(self, _section: bytes) -> bytes:
        said = {"used_memory": self.memory[0], "maxmemory": self.memory[1], "maxmemory_policy": "noeviction", "aof_enabled": 1}
        return "".join(f"{name}:{value}\r\n" for name, value in said.items()).encode()

    # Texts.

    def _get(self, name: bytes) -> bytes | None:
        found: bytes | None = self.keys.get(name)
        return found

    def _set(self, name: bytes, value: bytes) -> bytes:
        self.keys[name] = value
        return b"OK"

    def _setnx(self, name: bytes, value: bytes) -> int:
        if name in self.keys:
            return 0
        self.keys[name] = value
        return 1

    def _incr(self, name: bytes) -> int:
        self.keys[name] = b"%d" % (int(self.keys.get(name, b"0")) + 1)
        return int(self.keys[name])

    # Hashes.

    def _hget(self, name: bytes, field: bytes) -> bytes | None:
        found: bytes | None = self.keys.get(name, {}).get(field)
        return found

    def _hset(self, name: bytes, *pairs: bytes) -> int:
        self._of(name, dict).update(zip(pairs[::2], pairs[1::2], strict=True))
        return len(pairs) // 2

    def _hdel(self, name: bytes, *fields: bytes) -> int:
        found = self.keys.get(name, {})
        gone = sum(found.pop(field, None) is not None for field in fields)
        if name in self.keys and not found:
            del self.keys[name]
        return gone

    def _hgetall(self, name: bytes) -> list[bytes]:
        return [part for pair in self.keys.get(name, {}).items() for part in pair]

    def _hkeys(self, name: bytes) -> list[bytes]:
        return list(self.keys.get(name, {}))

    def _hlen(self, name: bytes) -> int:
        return len(self.keys.get(name, {}))

    def _hexists(self, name: bytes, field: bytes) -> int:
        return int(field in self.keys.get(name, {}))

    def _hincrby(self, name: bytes, field: bytes, by: bytes) -> int:
        found = self._of(name, dict)
        found[field] = b"%d" % (int(found.get(field, b"0")) + int(by))
        return int(found[field])

    # Sorted sets.

    def _zadd(self, name: bytes, nx: bytes, score: bytes, member: bytes) -> int:
        assert nx == b"NX"
        self._of(name, Sorted).setdefault(member, float(score))
        return 1

    def _zincrby(self, name: bytes, by: bytes, member: bytes) -> bytes:
        found = self._of(name, Sorted)
        found[member] = found.get(member, 0.0) + float(by)
        return b"%g" % found[member]

    def _zrange(self, name: bytes, _start: bytes, _end: bytes, *with_scores: bytes) -> list[bytes]:
        ranked = sorted(self.keys.get(name, {}).items(), key=lambda pair: (pair[1], pair[0]))
        return [part for member, score in ranked for part in ([member, b"%g" % score] if with_scores else [member])]

    def _zscore(self, name: bytes, member: bytes) -> bytes | None:
        found = self.keys.get(name, {}).get(member)
        return None if found is None else b"%g" % found

    def _zrem(self, name: bytes, member: bytes) -> int:
        return int(self.keys.get(name, {}).pop(member, None) is not None)

    # Streams.

    def _xadd(self, name: bytes, entry: bytes, *fields: bytes) -> bytes:
        stream = self._of(name, Stream)
        if entry == b"*":
            milliseconds, sequence = _order(stream.last)
            entry = b"%d-%d" % ((self.milliseconds, 0) if self.milliseconds > milliseconds else (milliseconds, sequence + 1))
        if _order(entry) <= _order(stream.last):
            raise RedisError("ERR The ID specified in XADD is equal or smaller than the target stream top item")
        stream.entries[entry] = list(fields)
        stream.last, stream.added = entry, stream.added + 1
        self.on_write()
        return entry

    def _xlen(self, name: bytes) -> int:
        return len(self.keys[name].entries) if name in self.keys else 0

    def _xrange(self, name: bytes, least: bytes, most: bytes, *count: bytes) -> list[Value]:
        if name not in self.keys:
            return []
        stream, low = self.keys[name], _order(least)
        found: list[Value] = stream.between(low) if most == b"+" else stream.between(low, _order(most))
        return found[: int(count[1])] if count else found

    def _xread(self, *words: bytes) -> list[Value] | None:
        """Never blocks: the caller asks again."""
        at = words.index(b"STREAMS")
        many = int(words[1]) if words[0] == b"COUNT" else 1 << 30
        names = words[at + 1 : at + 1 + (len(words) - at - 1) // 2]
        places = words[at + 1 + len(names) :]
        found = []
        for name, place in zip(names, places):
            if name in self.keys and _order(self.keys[name].last) > _order(place):
                milliseconds, sequence = _order(place)
                entries = self.keys[name].between((milliseconds, sequence + 1))
                found += [[name, entries[:many]]] if entries else []
        return found or None

    def _xtrim(self, name: bytes, _minid: bytes, _how: bytes, least: bytes, *_limit: bytes) -> int:
        if name not in self.keys:
            return 0
        stream, low = self.keys[name], _order(least)
        # The entries are in the order of their ids.
        gone = list(itertools.takewhile(lambda entry: _order(entry) < low, stream.entries))
        for entry in gone:
            del stream.entries[entry]
        return len(gone)

    def _xinfo(self, _stream: bytes, name: bytes) -> list[Value]:
        stream = self.keys[name]
        first = next(iter(stream.entries), b"0-0")
        said = {
            b"length": len(stream.entries),
            b"entries-added": stream.added,
            b"last-generated-id": stream.last,
            b"recorded-first-entry-id": first,
        }
        return [part for pair in said.items() for part in pair]


class Sorted(dict[bytes, float]):
    """A sorted set: members with their scores."""


_WRITES = (b"SET", b"SETNX", b"INCR", b"DEL", b"HSET", b"HDEL", b"HINCRBY", b"ZADD", b"ZINCRBY", b"ZREM", b"XADD", b"XTRIM")


def _copied(value: Value) -> Value:
    """A value that changes no more with the one that is written to."""
    if isinstance(value, Stream):
        copied = Stream()
        copied.entries, copied.last, copied.added = dict(value.entries), value.last, value.added
        return copied
    return copy.copy(value)


def encoded(words: Sequence[object]) -> list[bytes]:
    """The words of a command as the server reads them."""
    return [word if isinstance(word, bytes) else str(word).encode() for word in words]


def _encoded(table: Any) -> bytes:
    """A Lua table with texts as JSON, as cjson writes it."""
    return json.dumps({name.decode(): value.decode() for name, value in table.items()}, sort_keys=True).encode()


class Scripts:
    """Runs scripts on a store, each as one step."""

    def __init__(self) -> None:
        import lupa  # type: ignore[import]

        self._lua = lupa.LuaRuntime(encoding=None, unpack_returned_tuples=True)
        self._table = lupa.lua_type
        self._store = Store()
        self._known: dict[bytes, tuple[Any, bool]] = {}
        self._lua.globals()[b"redis"] = self._lua.table_from({b"call": self._call, b"error_reply": self._error})
        self._lua.globals()[b"cjson"] = self._lua.table_from({b"encode": _encoded, b"decode": self._decoded})

    def run(self, store: Store, words: Sequence[object]) -> Value:
        """The reply to EVALSHA or EVAL."""
        command, text, count, *rest = encoded(words)
        if command == b"EVAL":
            text = self._load(text)
        if text not in self._known:
            raise NoScript("NOSCRIPT")
        function, without_memory = self._known[text]
        if not store.has_memory and not without_memory:
            raise OutOfMemory("Redis has no memory: OOM command not allowed")
        self._store = store
        answer = function(self._lua.table_from(rest[: int(count)]), self._lua.table_from(rest[int(count) :]))
        return self._of_lua(answer)

    def _load(self, text: bytes) -> bytes:
        """The hash of a script, which is known from then on."""
        name = hashlib.sha1(text).hexdigest().encode()
        if name not in self._known:
            head, _, body = text.partition(b"\n")
            function = self._lua.eval(b"function(KEYS, ARGV) " + body + b" end")
            self._known[name] = function, b"allow-oom" in head
        return name

    def _call(self, *words: object) -> Value:
        return self._to_lua(self._store.do([b"%d" % word if isinstance(word, (int, float)) else word for word in words]))

    def _decoded(self, text: bytes) -> Value:
        return self._lua.table_from({name.encode(): value.encode() for name, value in json.loads(text).items()})

    def _error(self, text: bytes) -> Value:
        return self._lua.table_from({b"err": text})

    def _to_lua(self, value: Value) -> Value:
        if value is None:
            return False
        return self._lua.table_from([self._to_lua(one) for one in value]) if isinstance(value, list) else value

    def _of_lua(self, value: Value) -> Value:
        if value is None or value is False:
            return None
        if self._table(value) == "table":
            if value[b"err"]:
                raise RedisError(value[b"err"].decode())
            return [self._of_lua(value[at]) for at in range(1, len(value) + 1)]
        return int(value) if isinstance(value, (bool, int, float)) else value
