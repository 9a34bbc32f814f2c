"""Runs filters on every packet of a capture, each for one or more tenants, and counts the results."""

from __future__ import annotations

import enum
from collections import Counter
from collections.abc import Callable, Iterable, Iterator, Mapping, Sequence
from dataclasses import dataclass, field, replace
from itertools import compress
from typing import TYPE_CHECKING

from bpfhost.errors import BpfhostError, CaptureError
from bpfhost.packets import Packets
from bpfhost.runs import TestRuns
from bpfhost.stopping import Stopping

if TYPE_CHECKING:
    from bpfhost.captures import Capture, Piece
    from bpfhost.captures.writer import CaptureWriter

Results = tuple[int, ...]
Accept = Callable[["Piece", Results], None]


class Short(enum.Enum):
    """How to run a packet of which the capture has fewer bytes than there were on the wire.

    PAD: the bytes that the capture has, followed by zeros up to the length on the wire, so that `skb->len` is that length. AS_IS: only the
    bytes that the capture has; `skb->len` is their number.
    """

    PAD = "pad"
    AS_IS = "as-is"


class Long(enum.Enum):
    """What to do with a packet of more than 65,536 bytes, which no test run takes: run its first 65,536 bytes, or skip it."""

    CUT = "cut"
    SKIP = "skip"


@dataclass(frozen=True)
class Treatment:
    """How to run packets that are too long, or not as they were on the wire.

    If there is a `link_type`, a packet of another one is a fault of the capture. If there is a `longest`, only so many bytes of each packet
    are run and kept: with the snapshot length of the capture, these are the bytes that libpcap reads.
    """

    short: Short = Short.AS_IS
    long: Long = Long.CUT
    link_type: int | None = None
    longest: int | None = None


@dataclass
class Counts:
    """What a filter returned for packets. A result is how many bytes of the packet to keep; 0 drops it."""

    packets: int = 0
    bytes_kept: int = 0
    results: Counter[int] = field(default_factory=Counter)

    def add(self, packets: Packets, results: Results) -> None:
        """Counts the results of packets."""
        self.packets += len(results)
        lengths, found = packets.lengths, _counted(results)
        if min(filter(None, found), default=0) >= packets.longest:
            # What is kept is kept in full, as by most filters.
            self.bytes_kept += sum(lengths if 0 not in found else compress(lengths, results))
        else:
            self.bytes_kept += sum([result if result < length else length for result, length in zip(results, lengths)])
        self.results.update(found)

    @property
    def accepted(self) -> int:
        """How many packets are kept, in whole or in part."""
        return self.packets - self.results[0]


def _counted(results: Results) -> Mapping[int, int]:
    """How often there is each result."""
    is_one = results and results.count(results[0]) == len(results)
    return {results[0]: len(results)} if is_one else Counter(results)


@dataclass
class Outcome:
    """What filters returned for the packets of a capture: `counts` has an entry for each filter.

    `short` counts packets of which the capture has fewer bytes than there were on the wire, and `long` those of more than 65,536 bytes;
    `skipped` of these were not run, and do not count as packets. `fault` says what is wrong with the capture after these packets, and
    `signal` is the signal that ended the run. `seconds` is the processor time that the host took for the runs, or 0 if the system does not
    have it, and `link_types` has the packets' link types in order of appearance.
    """

    counts: list[Counts] = field(default_factory=lambda: [Counts()])
    link_types: list[int] = field(default_factory=list)
    seconds: float = 0.0
    short: int = 0
    long: int = 0
    skipped: int = 0
    fault: CaptureError | None = None
    signal: int | None = None

    @property
    def packets(self) -> int:
        """How many packets were run."""
        return self.counts[0].packets

    @property
    def bytes_kept(self) -> int:
        """How many bytes the first filter keeps."""
        return self.counts[0].bytes_kept

    @property
    def results(self) -> Counter[int]:
        """How many packets have each result of the first filter."""
        return self.counts[0].results

    @property
    def accepted(self) -> int:
        """How many packets the first filter keeps, in whole or in part."""
        return self.counts[0].accepted


class TenantsDiffer(BpfhostError):
    """Two tenants with the same program, maps and packets got different replies."""


def accept_none(_piece: Piece, _results: Results) -> None:
    """An `Accept` that ignores the packets that are kept."""


def accept_to(writer: CaptureWriter) -> Accept:
    """An `Accept` that writes each packet that is kept, cut to the length that the filter returned."""

    def accept(piece: Piece, results: Results) -> None:
        writer.write_all(piece, results)

    return accept


class _Clock:
    """The timestamp of a packet: milliseconds since the first packet, modulo 2^32; 0 for packets that are older than the first."""

    def __init__(self) -> None:
        self._first: int | None = None

    def milliseconds(self, piece: Piece) -> Sequence[int]:
        """The timestamps of the packets of a piece."""
        stamps = [piece.stamp(at) for at in range(len(piece))]
        times = [stamp.seconds * 1_000_000_000 + stamp.nanoseconds for stamp in stamps]
        if self._first is None and times:
            self._first = times[0]
        return [max(0, at - (self._first or 0)) // 1_000_000 % (1 << 32) for at in times]


class Timed(enum.Enum):
    """The number of each packet for the word of the context that runs have one for: its time, or its length on the wire."""

    TIME = "time"
    WIRE = "wire"

    def numbers(self) -> Callable[[Piece], Sequence[int]]:
        """A function that gives these numbers, for the pieces of one capture in order."""
        return _Clock().milliseconds if self is Timed.TIME else _wires


def _wires(piece: Piece) -> Sequence[int]:
    return piece.wires


@dataclass(frozen=True)
class Loaded:
    """A filter that is loaded for one or more tenants, with the runs of each.

    `timed` is the number in the word that runs have for each packet, if they have one. With `reach`, the filter is known to have the same
    result for a packet of which only so many first bytes are there.
    """

    runs: Sequence[TestRuns]
    timed: Timed = Timed.TIME
    reach: int | None = None


@dataclass(frozen=True)
class _Turn:
    """A piece of a capture, its packets as they are run, and the runs of one tenant: that of this number of the filter of this number.

    `sent` has what the host gets of the packets: the bytes that may decide a result.
    """

    piece: Piece
    packets: Packets
    sent: Packets
    filter: int
    tenant: int
    runs: TestRuns
    numbers: Sequence[int] | None
    short: int

    def first(self, many: int) -> _Turn:
        """The same turn with the first of its packets, up to a number."""
        if many >= len(self.packets):
            return self
        piece = self.piece.first(many)
        return replace(self, piece=piece, packets=self.packets.first(many), short=piece.shorts() if self.short else 0)


class Filters:
    """Filters of one host, each loaded for its own tenants. Each tenant runs its filter on every packet."""

    def __init__(self, filters: Sequence[Loaded], treatment: Treatment = Treatment()) -> None:
        """Takes the filters in the order of their counts."""
        self._filters = list(filters)
        self._host = filters[0].runs[0].host
        self._treatment = treatment
        self._most = min(runs.most for each in filters for runs in each.runs)
        reaches = [each.reach for each in filters if each.reach is not None]
        self._reach = max(reaches) if len(reaches) == len(filters) else None

    def run(
        self,
        capture: Capture,
        limit: int | None = None,
        accept: Accept = accept_none,
        advanced: Callable[[Outcome], None] = lambda _: None,
        stopping: Stopping | None = None,
        pieces: Iterator[Piece] | None = None,
        most_kept: int | None = None,
    ) -> Outcome:
        """Runs the filters on the packets of a capture, up to a limit; `pieces` has them if the capture has begun to give them.

        With `most_kept`, which is for one filter, the run ends after so many packets that it keeps: later ones may have been run, and do
        not count. `accept` gets each piece with the results of the first filter, and `advanced` the counts after each piece. If the
        capture is wrong at some packet, or if `stopping` is asked to end the run, the outcome has the packets before that. Raises
        TenantsDiffer if two tenants of a filter get different replies, and ValueError if there are several filters with `most_kept`.
        """
        if most_kept is not None and len(self._filters) > 1:
            raise ValueError("there are several filters, and the number of kept packets is that of one")
        outcome = Outcome([Counts() for _ in self._filters])
        stopping = stopping or Stopping()
        capture.reach = self._reach
        before, left = self._host.processor_time(), most_kept
        found = stopping.items(pieces or capture.pieces(self._most))
        for turn, results in self._results(self._pieces(capture, found, limit, outcome)):
            if left == 0:
                break
            if left is not None:
                end = _end_of(results, left)
                left -= end - results[:end].count(0)
                turn, results = turn.first(end), results[:end]
            self._count(turn, results, outcome)
            if turn.filter == 0:
                accept(turn.piece, results)
            if turn.filter == len(self._filters) - 1:
                outcome.seconds = self._host.processor_time() - before
                advanced(outcome)
        outcome.seconds = self._host.processor_time() - before
        outcome.signal = stopping.signal
        if left == 0:
            # A fault after the last packet was only read ahead.
            outcome.fault = None
        return outcome

    @staticmethod
    def _count(turn: _Turn, results: Results, outcome: Outcome) -> None:
        outcome.counts[turn.filter].add(turn.packets, results)
        if turn.filter == 0:
            outcome.short += turn.short
            outcome.long += turn.piece.whole is not None
        if results and turn.piece.link_type not in outcome.link_types:
            outcome.link_types.append(turn.piece.link_type)

    def _pieces(self, capture: Capture, found: Iterator[Piece], limit: int | None, outcome: Outcome) -> Iterator[Piece]:
        """The pieces of a capture up to a limit or up to a fault, which is noted in the outcome."""
        left = limit
        try:
            for whole in found:
                self._demand_link_type(capture, whole)
                if self._treatment.longest is not None:
                    whole = whole.within(self._treatment.longest)
                if self._is_skipped(whole, outcome):
                    continue
                for piece in whole.split(self._most):
                    if left is not None:
                        piece = piece.first(left)
                        left -= len(piece)
                    # An empty piece, after a while without packets, delivers the results that are still to come.
                    yield piece
                    if left == 0:
                        return
        except CaptureError as error:
            outcome.fault = error

    def _demand_link_type(self, capture: Capture, piece: Piece) -> None:
        """Raises CaptureError for packets of another link type than the filters are for."""
        of = self._treatment.link_type
        if of is not None and len(piece) and piece.link_type != of:
            raise capture.error(f"a filter is for one link type, and behind {of} there are packets of {piece.link_type}")

    def _is_skipped(self, piece: Piece, outcome: Outcome) -> bool:
        """Whether a piece is a single packet that is too long and skipped."""
        is_skipped = piece.whole is not None and self._treatment.long is Long.SKIP
        outcome.skipped += is_skipped
        outcome.long += is_skipped
        return is_skipped

    def _packets(self, piece: Piece) -> tuple[Packets, int]:
        """The packets as they are run, and how many are short."""
        short = 0 if piece.wires is piece.lengths else piece.shorts()
        return piece.padded() if short and self._treatment.short is Short.PAD else piece, short

    def _results(self, pieces: Iterable[Piece]) -> Iterator[tuple[_Turn, Results]]:
        """Each piece with its results of each filter, which must be the same for all tenants of the filter."""
        first: Results = ()
        for turn, results in self._host.pipelined(_send, _receive, self._turns(pieces)):
            if turn.tenant == 0:
                first = results
                yield turn, results
            elif results != first:
                raise TenantsDiffer(f"tenant {turn.tenant} gets another reply than tenant 0")

    def _turns(self, pieces: Iterable[Piece]) -> Iterator[_Turn]:
        numbers_of = [each.timed.numbers() if each.runs[0].timed else None for each in self._filters]
        for piece in pieces:
            packets, short = self._packets(piece)
            sent = packets if self._reach is None else piece.beginnings(self._reach)
            for number, each in enumerate(self._filters):
                find = numbers_of[number]
                numbers = find(piece) if find else None
                yield from (_Turn(piece, packets, sent, number, tenant, runs, numbers, short) for tenant, runs in enumerate(each.runs))


class Filter(Filters):
    """One filter, loaded for one or more tenants of a host, as of an object. Each tenant runs it on every packet."""

    def __init__(self, runs: Sequence[TestRuns], treatment: Treatment = Treatment()) -> None:
        """Takes the runs of each tenant, from tenant 0 on; if they have a word for it, it gets each packet's time in milliseconds."""
        super().__init__([Loaded(runs)], treatment)


def _end_of(results: Results, many: int) -> int:
    """How many results there are up to the one that keeps the last of so many packets, or all of them."""
    kept = [at for at, result in enumerate(results) if result]
    return len(results) if len(kept) < many else kept[many - 1] + 1


def _send(turn: _Turn) -> None:
    turn.runs.send(turn.sent, turn.numbers)


def _receive(turn: _Turn) -> tuple[_Turn, Results]:
    return turn, turn.runs.receive(turn.sent)
