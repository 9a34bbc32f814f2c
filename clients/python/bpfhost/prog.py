"""A tenant's program, by its descriptor."""

from __future__ import annotations

from collections.abc import Iterable, Iterator
from typing import TYPE_CHECKING

from bpfhost.frames import NO_CONTEXT, Context
from bpfhost.inspection import Cost, Log
from bpfhost.packets import Packets
from bpfhost.program import verifier_log

if TYPE_CHECKING:
    from bpfhost.maps import Map
    from bpfhost.tenant import Tenant


class Prog(int):
    """A loaded program. It is an int, its descriptor, and can be used as one.

    `run_cnt` and `run_time_ns` have bpftool's names: the runs that were made through this object, and the nanoseconds that the caller
    waited for them, frames and replies included.
    """

    tenant: Tenant
    name: str
    slots: bytes | None
    run_cnt: int
    run_time_ns: int

    @classmethod
    def of(cls, tenant: Tenant, descriptor: int, name: str = "", slots: bytes | None = None) -> Prog:
        """Names the program of a tenant's descriptor, with a name of the caller's choice, and the slots that were loaded, if they are known."""
        prog = cls(descriptor)
        prog.tenant, prog.name, prog.slots, prog.run_cnt, prog.run_time_ns = tenant, name, slots, 0, 0
        return prog

    @property
    def descriptor(self) -> int:
        """Only the descriptor."""
        return int(self)

    def run(self, packet: bytes = b"", context: Context = NO_CONTEXT) -> int:
        """Runs the program on a packet and returns its result."""
        return self.tenant.prog_test_run(self, packet, context)

    def runs(self, pieces: Iterable[Packets], context: Context = NO_CONTEXT) -> Iterator[tuple[int, ...]]:
        """Runs the program on many packets and returns the results in order (`TestRuns`)."""
        return self.tenant.prog_test_runs(self, pieces, context)

    def cost(self, maps: Iterable[Map] = ()) -> Cost | None:
        """What the program costs, given the maps that it loads: the program `verifier_log` finds it, as the host has no command for it.

        None without `verifier_log`, without the slots, and without one of the maps, since a program without them is rejected.
        """
        if self.slots is None:
            return None
        shapes = {each.descriptor: each.shape for each in maps}
        text = verifier_log(self.tenant.host.program, self.slots, shapes)
        return None if text is None else Log(text, is_accepted=True).cost()

    def count(self, runs: int, nanoseconds: int) -> None:
        """Adds runs, and the time that they took."""
        self.run_cnt += runs
        self.run_time_ns += nanoseconds

    def close(self) -> None:
        """Closes the descriptor."""
        self.tenant.close(self)

    def __repr__(self) -> str:
        runs = f"{self.run_cnt:,} runs in {self.run_time_ns / 1e6:,.3f} ms"
        return f"<Prog {int(self)}{f' {self.name}' if self.name else ''}: {runs}, of {self.tenant!r}>"
