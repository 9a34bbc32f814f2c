"""Translates classic programs to programs of this host with the same result on every packet.

clients/python/FILTERS.md has the table by code.
"""

from __future__ import annotations

from collections.abc import Callable, Iterator, Sequence
from dataclasses import dataclass

from bpfhost.classic.checking import check
from bpfhost.classic.errors import ClassicError
from bpfhost.classic.failures import with_failures_tested_late
from bpfhost.classic.folding import with_sums_folded
from bpfhost.classic.instructions import Instruction
from bpfhost.classic.lengths import with_short_packets_ended, without_known_lengths
from bpfhost.classic.merging import with_kind_and_header_merged
from bpfhost.classic.moving import with_tests_moved
from bpfhost.classic.semantics import Meaning
from bpfhost.classic.splitting import with_unaligned_tests_split
from bpfhost.classic.stack import MOST_HEADERS
from bpfhost.classic.steps import Graph, Headers, LoadHeader
from bpfhost.classic.unfolding import Plan, unfolded
from bpfhost.classic.writing import written_slots
from bpfhost.numbers import MOST_SLOTS, SLOT_SIZE

# One call copies at most so many bytes to the stack; bytes farther on are copied by a separate call, for the packets that need them.
_MOST_BY_CALL = 40
# The sizes of the pieces in which the host copies bytes (crates/bpf_helpers/src/copying.rt), and for more than 32 bytes the C library.
_PIECES = (32, 16, 8, 4, 2, 1)
_PLAIN = Plan()
# What happens to a graph before its slots are written: each step has the same program in another form.
_STEPS: tuple[Callable[[Graph], Graph], ...] = (
    with_tests_moved,
    with_kind_and_header_merged,
    with_sums_folded,
    with_unaligned_tests_split,
    with_short_packets_ended,
    without_known_lengths,
    with_failures_tested_late,
)


@dataclass(frozen=True)
class Translation:
    """The slots of a program, and whether they read headers from the stack.

    `lines` has the slots at which others of the classic instructions begin, each with the instruction's number; -1 is the end that a load
    out of the packet leads to. A packet of which only the first `reach` bytes are there has the same result as the whole packet; if this is
    None, the result depends on the packet's length.
    """

    slots: bytes
    lines: tuple[tuple[int, int], ...]
    is_fast: bool
    reach: int | None

    @property
    def count(self) -> int:
        """How many slots there are."""
        return len(self.slots) // SLOT_SIZE


def translate(instructions: Sequence[Instruction], meaning: Meaning = Meaning(), *, fast: bool = True) -> Translation:
    """The program with the same result on every packet; raises ClassicError if there is none.

    The kernel's checks come first. With `fast` one call copies the packet's headers to the stack, if the program has room for that in
    addition to the path for shorter packets; without it each load is a call.
    """
    check(instructions)
    count = 0
    for plan in _plans(instructions, meaning) if fast else iter((_PLAIN,)):
        graph = unfolded(instructions, plan, meaning)
        if graph is None:
            continue
        for step in _STEPS:
            graph = step(graph)
        written = written_slots(graph)
        if written.slots is not None:
            return Translation(written.slots, written.lines, plan != _PLAIN, written.reach)
        count = written.count
    raise ClassicError(f"its {len(instructions):,} instructions take {count:,} slots, and {MOST_SLOTS:,} are the most")


def _plans(instructions: Sequence[Instruction], meaning: Meaning) -> Iterator[Plan]:
    """Plans of headers on the stack, the one with the most slots first, and the one without headers last."""
    all_loads = unfolded(instructions, Plan((Headers(0, MOST_HEADERS),), has_usual=True), meaning)
    headers = _headers(all_loads) if all_loads else ()
    if headers:
        yield Plan(headers, has_usual=True)
        if len(headers) > 1:
            yield Plan(headers[:1], has_usual=True)
        yield Plan(headers[:1])
    yield _PLAIN


def _headers(graph: Graph) -> tuple[Headers, ...]:
    """The bytes that loads need, in groups of bytes that are close together. For only one load, its own call is as good."""
    found: list[Headers] = []
    loads = sorted({(step.offset, step.size) for step in graph.steps.values() if isinstance(step, LoadHeader)})
    while loads:
        first = loads[0][0]
        close = [(offset, size) for offset, size in loads if offset + size <= first + _MOST_BY_CALL]
        if len(close) > 1:
            found.append(_copied(close))
        loads = [each for each in loads if each not in close]
    return tuple(found)


def _copied(loads: Sequence[tuple[int, int]]) -> Headers:
    """The bytes that one call copies for these loads: some before them too, if a load would else wait.

    The host copies up to 32 bytes as two pieces of one size, the second of which ends with the last byte. A processor forwards what it has just
    stored to a load quickly if one store has all bytes of the load, so no load should begin before the second piece and end in it.
    """
    first, end = min(offset for offset, _ in loads), max(offset + size for offset, size in loads)
    for begin in range(first, max(end - _MOST_BY_CALL, 0) - 1, -1):
        border = end - _piece(end - begin)
        if not any(offset < border < offset + size for offset, size in loads):
            return Headers(begin, end - begin)
    return Headers(first, end - first)


def _piece(count: int) -> int:
    """The size of both pieces in which the host copies so many bytes."""
    return next(size for size in _PIECES if size <= count)
