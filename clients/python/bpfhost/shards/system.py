"""What shards use of the machine, besides the event loop: a clock, connections, hosts and unique names.

All of the package uses a `System`, so that tests can replace it by a deterministic one.
"""

from __future__ import annotations

import time
import uuid
from collections.abc import Callable, Coroutine
from typing import Any, TypeVar

from bpfhost.host import Host
from bpfhost.program import Program
from bpfhost.shards.link import RedisLink

Answer = TypeVar("Answer")
# Work in an event loop.
Work = Coroutine[Any, Any, Answer]


class System:
    """This machine. Its clock is monotonic, and no other machine's."""

    now: Callable[[], float] = time.monotonic

    def link(self, kind: type[RedisLink], words: dict[str, Any]) -> RedisLink:
        return kind(**words)

    def host(self, program: Program, tenants: int) -> Host:
        host = Host(program, tenants)
        host.widen()
        return host

    def fresh(self) -> str:
        """A name that was never returned before."""
        return uuid.uuid4().hex


MACHINE = System()
