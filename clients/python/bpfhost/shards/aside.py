"""What is set aside until an operator decides: an entry that ends the host, or a state that this build can't restore.

Only that tenant waits for it. Its customer gets an error, and all other customers go on.
"""

from __future__ import annotations

import json
from dataclasses import asdict, dataclass

# An entry that ends the host is tried so often.
MOST_TRIES = 3
SKIP, RETRY = "skip", "retry"
# Kinds: an entry without a reply; replies that differ from earlier ones; a state that can't be restored; a state that is lost.
ENTRY, DIFFERS, STATE, LOST = "entry", "differs", "state", "lost"


@dataclass(frozen=True)
class Aside:
    """What is set aside of a tenant: its kind, the first entry that waits for it, and the reason as a sentence."""

    kind: str
    entry: str
    why: str

    def to_bytes(self) -> bytes:
        """Its bytes as Redis keeps them."""
        return json.dumps(asdict(self), sort_keys=True).encode()

    @classmethod
    def read(cls, kept: bytes) -> Aside:
        """Reads these bytes."""
        return cls(**json.loads(kept))
