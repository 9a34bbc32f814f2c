"""The results of filters as tcpdump has them, as a table, JSON or CSV."""

from __future__ import annotations

from collections.abc import Sequence
from dataclasses import dataclass
from typing import TYPE_CHECKING, TextIO

from bpfhost.command.live import told_time
from bpfhost.command.subjects import Source

if TYPE_CHECKING:
    from bpfhost.classic import ClassicProgram
    from bpfhost.filtering import Counts, Outcome


@dataclass(frozen=True)
class FilterReport:
    """What a report says about filters besides their counts; `tenants` is how many tenants run each of them."""

    capture: str
    link_type: int
    sources: Sequence[Source]
    programs: Sequence[ClassicProgram]
    tenants: int

    def write_table(self, outcome: Outcome, output: TextIO) -> None:
        """Writes the counts as a table with a line for each filter."""
        packets = outcome.packets
        tenants = f", by each of {self.tenants} tenants, with the same results" if self.tenants > 1 else ""
        print(f"{self.capture}: {packets:,} packets{tenants}", file=output)
        print(told_time(outcome), file=output)
        print(file=output)
        rows = [("tenant", "kept", "bytes kept", "filter")]
        for at, (program, counts) in enumerate(zip(self.programs, outcome.counts)):
            name = program.name.removeprefix("the expression ")
            rows.append((self._tenants(at), f"{counts.accepted:,}", f"{counts.bytes_kept:,}", name))
        widths = [max(len(row[column]) for row in rows) for column in range(3)]
        for row in rows:
            print("  ".join([*(cell.rjust(width) for cell, width in zip(row, widths)), row[3]]), file=output)

    def _tenants(self, at: int) -> str:
        """The tenants of the filter of this number."""
        first = at * self.tenants
        return str(first) if self.tenants == 1 else f"{first}-{first + self.tenants - 1}"

    def write_json(self, outcome: Outcome, output: TextIO) -> None:
        """Writes the counts as one JSON object."""
        import json

        told = {
            "capture": self.capture,
            "link_type": self.link_type,
            "tenants": self.tenants,
            "filters": [self._entry(at, counts) for at, counts in enumerate(outcome.counts)],
            "fault": str(outcome.fault) if outcome.fault else None,
        }
        json.dump(told, output, indent=2)
        print(file=output)

    def write_csv(self, outcome: Outcome, output: TextIO) -> None:
        """Writes the counts as CSV, with a line for each filter."""
        import csv

        entries = [self._entry(at, counts) for at, counts in enumerate(outcome.counts)]
        writer = csv.DictWriter(output, list(entries[0]), lineterminator="\n")
        writer.writeheader()
        writer.writerows(entries)

    def _entry(self, at: int, counts: Counts) -> dict[str, object]:
        """The counts of a filter, with its expression and the file that it was read from, if it has one."""
        return {
            "filter": self.programs[at].expression,
            "file": self.sources[at].file,
            "tenant": at * self.tenants,
            "packets": counts.packets,
            "accepted": counts.accepted,
            "bytes_kept": counts.bytes_kept,
        }
