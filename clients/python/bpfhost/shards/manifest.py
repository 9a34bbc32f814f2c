"""Snapshots in Redis: the frames that make a tenant's state, in pieces, and a manifest that names them.

A manifest is small, and is changed in one step; its pieces are written before it, and dropped after it. Its checksum covers its contents,
except the names of pieces, and a digest of all frames: a snapshot that is damaged or not whole is refused.
"""

from __future__ import annotations

import hashlib
import json
from dataclasses import asdict, dataclass, replace
from pathlib import Path

from bpfhost.program import Program
from bpfhost.shards.errors import SnapshotDamaged

VERSION = 1
PIECE, _LARGEST = 1 << 18, 1 << 32
_DIGITS = 16


@dataclass(frozen=True)
class Manifest:
    """A snapshot: the entry after which the state was read, the build of bpfhost that had it, its pieces by their names, and checksums."""

    place: str
    build: str
    name: str = ""
    size: int = 0
    digest: str = hashlib.sha256().hexdigest()
    version: int = VERSION
    checksum: str = ""

    def _sum(self) -> str:
        said = {**asdict(self), "checksum": "", "name": ""}
        return hashlib.sha256(json.dumps(said, sort_keys=True).encode()).hexdigest()

    def summed(self) -> Manifest:
        """The same, with its checksum."""
        return replace(self, checksum=self._sum())

    def at(self, place: bytes) -> Manifest:
        """The same frames, as the snapshot at another entry."""
        return replace(self, place=place.decode()).summed()

    def to_bytes(self) -> bytes:
        """Its bytes as Redis keeps them."""
        return json.dumps(asdict(self), sort_keys=True).encode()

    @classmethod
    def read(cls, kept: bytes) -> Manifest:
        """Reads a manifest; raises SnapshotDamaged if the bytes are none, are of another version, or differ from what was written."""
        try:
            found = cls(**json.loads(kept))
            is_whole = found.checksum == found._sum() and isinstance(found.size, int) and 0 <= found.size <= _LARGEST
        except (ValueError, TypeError, RecursionError):
            raise SnapshotDamaged("what a snapshot says of itself is damaged") from None
        if not is_whole:
            raise SnapshotDamaged("what a snapshot says of itself has a wrong checksum")
        if found.version != VERSION:
            raise SnapshotDamaged(f"a snapshot is of version {found.version}, and this build knows {VERSION}")
        return found

    def names(self) -> list[str]:
        """The names of its pieces."""
        return [f"{self.name}:{at}" for at in range((self.size + PIECE - 1) // PIECE)]


def build_of(program: Program) -> str:
    """A name of the program's bytes, the same for the same build of bpfhost; empty if they can't be read."""
    try:
        return hashlib.sha256(Path(program).read_bytes()).hexdigest()[:_DIGITS]
    except OSError:
        return ""
