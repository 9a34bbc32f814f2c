"""The results of a run, as tables, JSON or CSV."""

from __future__ import annotations

import csv
import json
from collections.abc import Iterator
from dataclasses import dataclass
from typing import TYPE_CHECKING, Literal, TextIO

from bpfhost.command.live import microseconds, told_time
from bpfhost.command.words import first_number, number_at
from bpfhost.errors import InputError, MissingPackage
from bpfhost.filtering import Outcome
from bpfhost.loading import LoadedProgram
from bpfhost.numbers import MapType
from bpfhost.objects import ObjectFile, ObjectMap

if TYPE_CHECKING:
    from rich.table import Table

# The table has this many results, the most frequent ones; JSON has all.
_MOST_RESULTS = 10
# The width of a table that does not go to a terminal: as wide as it needs to be.
_WIDE = 10_000


@dataclass(frozen=True)
class ShownMap:
    """A map with its keys and values after the last packet."""

    declared: ObjectMap
    entries: list[tuple[bytes, bytes]]


@dataclass(frozen=True)
class Order:
    """Which entries the table of a map has: all in their order, or a number of those with the greatest values in a field."""

    top: int | None = None
    by: str | None = None

    def of(self, object_file: ObjectFile, shown: ShownMap) -> list[tuple[bytes, bytes]]:
        """The entries to print; for a map that does not have the field, the first ones in their order."""
        entries = shown.entries
        if self.top is None and self.by is None:
            return entries
        numbers = [self._number(object_file, shown.declared, key, value) for key, value in entries]
        if all(number is not None for number in numbers):
            ranks = sorted(range(len(entries)), key=lambda at: -(numbers[at] or 0))
            entries = [entries[at] for at in ranks]
        return entries[: self.top]

    def told(self, are_some: bool) -> str:
        """What a table says about its order."""
        if self.top is None or not are_some:
            return ""
        return f"; the first {self.top:,}{f' by {self.by}' if self.by else ''}"

    def _number(self, object_file: ObjectFile, declared: ObjectMap, key: bytes, value: bytes) -> float | None:
        plain = _plain(object_file, declared.value_type, value)
        if self.by is None:
            return first_number(plain)
        found = number_at(plain, self.by)
        return number_at(_plain(object_file, declared.key_type, key), self.by) if found is None else found


@dataclass(frozen=True)
class Report:
    """The report on a run."""

    object_file: ObjectFile
    section: str
    program: str
    capture: str
    tenants: int
    outcome: Outcome
    maps: list[ShownMap]
    order: Order = Order()

    @classmethod
    def of(
        cls, object_file: ObjectFile, loaded: LoadedProgram, capture: str, tenants: int, outcome: Outcome, order: Order = Order()
    ) -> Report:
        """The report on a run, with the contents of the maps now."""
        maps = [ShownMap(each.declared, each.map.entries()) for each in loaded.maps]
        return cls(object_file, loaded.program.section, loaded.program.name, capture, tenants, outcome, maps, order)


# JSON.


def write_json(report: Report, output: TextIO) -> None:
    """Writes the report as one JSON object."""
    outcome = report.outcome
    told = {
        "object": report.object_file.path,
        "section": report.section,
        "program": report.program,
        "capture": report.capture,
        "link_types": outcome.link_types,
        "tenants": report.tenants,
        "packets": outcome.packets,
        "accepted": outcome.accepted,
        "bytes_kept": outcome.bytes_kept,
        "results": {str(result): count for result, count in sorted(outcome.results.items())},
        "microseconds_per_packet": microseconds(outcome),
        "maps": {each.declared.name: _plain_map(report.object_file, each) for each in report.maps},
        "short": outcome.short,
        "long": outcome.long,
        "skipped": outcome.skipped,
        "fault": str(outcome.fault) if outcome.fault else None,
        "signal": outcome.signal,
    }
    json.dump(told, output, indent=2)
    print(file=output)


def _plain_map(object_file: ObjectFile, shown: ShownMap) -> dict[str, object]:
    declared = shown.declared
    is_array = declared.map_type == MapType.ARRAY
    entries = [
        {
            "key": int.from_bytes(key, "little") if is_array else _plain(object_file, declared.key_type, key),
            "value": _plain(object_file, declared.value_type, value),
        }
        for key, value in shown.entries
    ]
    return {
        "type": declared.map_type.name.lower(),
        "key_size": declared.key_size,
        "value_size": declared.value_size,
        "max_entries": declared.max_entries,
        "entries": entries,
    }


def _plain(object_file: ObjectFile, type_id: int | None, data: bytes) -> object:
    if object_file.types is None or type_id is None:
        return data.hex()
    return object_file.types.plain(type_id, data)


# CSV.


def write_csv(report: Report, name: str, output: TextIO) -> None:
    """Writes the entries of one map as CSV, with a column for each field. Raises InputError if there is no such map."""
    demand_map(report.object_file, name)
    shown = next(each for each in report.maps if each.declared.name == name)
    entries = [dict(_columns("key", key) + _columns("value", value)) for key, value in _told_entries(report, shown)]
    columns = list(dict.fromkeys(column for entry in entries for column in entry)) or ["key", "value"]
    writer = csv.DictWriter(output, columns, lineterminator="\n")
    writer.writeheader()
    writer.writerows(entries)


def demand_map(object_file: ObjectFile, name: str) -> None:
    """Raises InputError if the object has no map of this name."""
    names = [declared.name for declared in object_file.maps]
    if name not in names:
        raise InputError(f"{object_file.path}: there is no map {name} to write as CSV: its maps are {', '.join(names) or 'none'}")


def _told_entries(report: Report, shown: ShownMap) -> Iterator[tuple[object, object]]:
    declared, object_file = shown.declared, report.object_file
    for key, value in report.order.of(object_file, shown):
        is_array = declared.map_type == MapType.ARRAY
        name = int.from_bytes(key, "little") if is_array else _texts(object_file, declared.key_type, key)
        yield name, _texts(object_file, declared.value_type, value)


def _texts(object_file: ObjectFile, type_id: int | None, data: bytes) -> object:
    if object_file.types is None or type_id is None:
        return data.hex()
    return object_file.types.texts(type_id, data)


def _columns(name: str, value: object) -> list[tuple[str, object]]:
    """A value as cells with the names of columns, as `value.packets` or `key.ports.0`."""
    if isinstance(value, dict):
        return [cell for field, inner in value.items() for cell in _columns(f"{name}.{field}", inner)]
    if isinstance(value, list):
        return [cell for at, inner in enumerate(value) for cell in _columns(f"{name}.{at}", inner)]
    return [(name, value)]


# Tables.


def write_tables(report: Report, output: TextIO) -> None:
    """Writes the report as tables. Raises MissingPackage without rich."""
    try:
        from rich.console import Console
    except ModuleNotFoundError as error:
        raise MissingPackage("rich", "python3-rich") from error
    # If no terminal sets a width, a table is as wide as it needs to be, and lines end without spaces.
    is_terminal = output.isatty()
    console = Console(markup=False, emoji=False, highlight=False, width=None if is_terminal else _WIDE)
    with console.capture() as captured:
        for part in _parts(report):
            console.print(part)
    written = captured.get()
    output.write(written if is_terminal else "".join(f"{line.rstrip()}\n" for line in written.splitlines()))


def _parts(report: Report) -> Iterator[str | Table]:
    tenants = f", by each of {report.tenants} tenants, with the same results" if report.tenants > 1 else ""
    yield f"{report.program} of {report.object_file.path} on {report.capture}{tenants}"
    yield _counts(report.outcome)
    yield told_time(report.outcome)
    yield ""
    yield _results(report.outcome)
    for shown in report.maps:
        yield ""
        yield from _map_parts(report, shown)


def _table(*columns: tuple[str, Literal["left", "right"]], has_header: bool = True) -> Table:
    from rich.table import Table

    table = Table(box=None, show_header=has_header, header_style="bold", padding=(0, 2, 0, 0))
    for name, side in columns:
        table.add_column(name, justify=side, overflow="fold")
    return table


def _counts(outcome: Outcome) -> Table:
    table = _table(("", "left"), ("", "right"), has_header=False)
    table.add_row("packets", f"{outcome.packets:,}")
    table.add_row("accepted", f"{outcome.accepted:,}")
    table.add_row("bytes kept", f"{outcome.bytes_kept:,}")
    return table


def _results(outcome: Outcome) -> Table:
    table = _table(("result", "right"), ("packets", "right"))
    # Of equally frequent results, the lower one comes first.
    frequent = sorted(outcome.results.items(), key=lambda item: (-item[1], item[0]))
    for result, count in frequent[:_MOST_RESULTS]:
        table.add_row(_result(result), f"{count:,}")
    others = frequent[_MOST_RESULTS:]
    if others:
        table.add_row(f"{len(others):,} others", f"{sum(count for _, count in others):,}")
    return table


def _result(result: int) -> str:
    """A result, which has 32 bits; that of `return -1` with its signed value, too."""
    return f"{result:,} ({result - (1 << 32)})" if result >> 31 else f"{result:,}"


def _map_parts(report: Report, shown: ShownMap) -> Iterator[str | Table]:
    object_file, declared = report.object_file, shown.declared
    is_array = declared.map_type == MapType.ARRAY
    # An array has all its elements, and most were often never written.
    entries = [entry for entry in report.order.of(object_file, shown) if not is_array or declared.max_entries == 1 or any(entry[1])]
    yield _map_title(declared, len(shown.entries), len(entries)) + report.order.told(len(entries) < len(shown.entries))
    if not entries:
        return
    table = _table(("key", "left"), ("value", "left"))
    for key, value in entries:
        name = str(int.from_bytes(key, "little")) if is_array else _shown(object_file, declared.key_type, key)
        table.add_row(name, _shown(object_file, declared.value_type, value))
    yield table


def _map_title(declared: ObjectMap, there: int, listed: int) -> str:
    if declared.map_type == MapType.HASH:
        return f"{declared.name}, a hash map: {there:,} of {declared.max_entries:,} keys"
    if declared.max_entries == 1:
        return f"{declared.name}, an array of one element"
    zero = f"; the {there - listed:,} others are zero or not shown" if there > listed else ""
    return f"{declared.name}, an array: {listed:,} of {there:,} elements{zero}"


def _shown(object_file: ObjectFile, type_id: int | None, data: bytes) -> str:
    if object_file.types is None or type_id is None:
        return data.hex()
    return object_file.types.show(type_id, data)
