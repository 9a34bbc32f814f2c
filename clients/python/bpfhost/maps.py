"""A tenant's map as a mapping from keys to values, both bytes."""

from __future__ import annotations

from collections.abc import Iterator, MutableMapping
from typing import TYPE_CHECKING, Any

from bpfhost import frames
from bpfhost.errors import Refused
from bpfhost.numbers import Errno, MapType
from bpfhost.program import MapShape

if TYPE_CHECKING:
    from bpfhost.tenant import Commands


class Map(MutableMapping[bytes, bytes]):
    """A map that a descriptor names: `m[key]`, `m[key] = value`, `del m[key]`, and iteration over its keys in the host's order.

    A missing key raises KeyError; any other refusal raises Refused with the host's reply. Each operation asks the host, and so does each
    step of an iteration: it sees changes made meanwhile, and it starts again from the first key if the last key was deleted.
    """

    def __init__(self, tenant: Commands[Any], descriptor: int, shape: MapShape) -> None:
        """Names a map of this shape by the tenant's descriptor."""
        self.tenant = tenant
        self.descriptor = descriptor
        self.shape = shape
        # The keys in the order of the last iteration.
        self._walked: list[bytes] = []

    def __repr__(self) -> str:
        return f"<Map {self.shape.word(self.descriptor)} of {self.tenant!r}>"

    def _right_size(self, key: bytes) -> bytes:
        """The key, if it has the map's key size. Raises ValueError with both sizes if it has not."""
        if len(key) != self.shape.key_size:
            raise ValueError(f"this map has keys of {self.shape.key_size} bytes, and not of {len(key)}")
        return key

    def __getitem__(self, key: bytes) -> bytes:
        self._right_size(key)
        with _KeyErrors(key):
            return self.tenant.map_lookup_elem(self.descriptor, key)

    def __setitem__(self, key: bytes, value: bytes) -> None:
        # The host gets key and value as one piece of bytes, so it can't see where one ends and the other begins.
        if len(key) != self.shape.key_size or len(value) != self.shape.value_size:
            wanted = f"keys of {self.shape.key_size} bytes and values of {self.shape.value_size}"
            raise ValueError(f"this map has {wanted}, and not of {len(key)} and {len(value)}")
        self.tenant.map_update_elem(self.descriptor, key, value)

    def __delitem__(self, key: bytes) -> None:
        self._right_size(key)
        with _KeyErrors(key):
            self.tenant.map_delete_elem(self.descriptor, key)

    def __iter__(self) -> Iterator[bytes]:
        key = self.tenant.map_get_next_key(self.descriptor)
        while key is not None:
            yield key
            key = self.tenant.map_get_next_key(self.descriptor, key)

    def __len__(self) -> int:
        return self.shape.max_entries if self.shape.map_type == MapType.ARRAY else len(self._walk())

    def _walk(self) -> list[bytes]:
        """All keys, in order.

        Each step asks for the key after the one before. The keys of the last iteration are asked for many at a time: as long as they still
        follow each other, no frame waits for the reply to the one before.
        """
        if self.shape.map_type == MapType.ARRAY:
            return [index.to_bytes(4, "little") for index in range(self.shape.max_entries)]
        keys = self._still_so()
        before = keys[-1] if keys else b""
        while (key := self.tenant.map_get_next_key(self.descriptor, before)) is not None:
            keys.append(key)
            before = key
        self._walked = list(keys)
        return keys

    def _still_so(self) -> list[bytes]:
        """The keys of the last iteration, up to the first that no longer follows the one before."""
        guessed = self._walked
        asked = (frames.map_get_next_key(self.tenant.number, self.descriptor, key) for key in [b"", *guessed[:-1]])
        found: list[bytes] = []
        if not guessed:
            return found
        replies = [reply.payload for reply in self.tenant.host.ask_all(asked)]
        for key, told in zip(guessed, replies):
            if key != told:
                break
            found.append(key)
        return found

    def entries(self) -> list[tuple[bytes, bytes]]:
        """All keys with their values, in order; the lookups are sent many at once.

        A key that is deleted meanwhile is left out.
        """
        keys = self._walk()
        asked = (frames.map_lookup_elem(self.tenant.number, self.descriptor, key) for key in keys)
        replies = self.tenant.host.ask_all(asked)
        return [(key, reply.payload) for key, reply in zip(keys, replies) if reply.status != -Errno.ENOENT and reply.done() == 0]

    def close(self) -> None:
        """Closes the descriptor. A program that was loaded with the map keeps it."""
        self.tenant.close(self.descriptor)


class _KeyErrors:
    """Turns a refusal for a missing key into a KeyError."""

    def __init__(self, key: bytes) -> None:
        self._key = key

    def __enter__(self) -> None:
        pass

    def __exit__(self, _kind: type[BaseException] | None, error: BaseException | None, _trace: object) -> None:
        if isinstance(error, Refused) and error.has(Errno.ENOENT):
            raise KeyError(self._key) from None
