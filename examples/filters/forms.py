#!/usr/bin/env python3
"""Compiles the filters of this folder in many ways, lowers them, and runs them. usage: forms.py BPFHOST [--write]

It compares the results with table.md, or writes that page with --write. A filter is compiled by each installed clang, with each of -O1, -O2
and -Os and for each BPF processor that the compiler knows; those of the folder rewritten with -O2 for one processor. What is accepted runs on
two captures, as incoming and as outgoing packets: as it was compiled, lowered, and in topological order if it needs no lowering. All forms of
a filter have to return the same and to leave the same in their maps. If a compiler is missing, its columns are not checked, and a notice is
printed.
"""

from __future__ import annotations

import functools
import hashlib
import json
import os
import shutil
import subprocess
import sys
import tempfile
from collections.abc import Iterable, Iterator, Mapping, Sequence
from concurrent.futures import ProcessPoolExecutor
from dataclasses import dataclass, field
from pathlib import Path

HERE = Path(__file__).resolve().parent
INCLUDE = HERE.parents[1] / "clients/c/include"
sys.path.insert(0, str(HERE.parents[1] / "clients/python"))

from bpfhost import Context, Host, verify  # noqa: E402
from bpfhost.captures import open_capture  # noqa: E402
from bpfhost.loading import LoadedProgram, first_descriptors, load_program, lowered_program, shapes_of  # noqa: E402
from bpfhost.lowering import Lowered, LoweringError, as_is, lower  # noqa: E402
from bpfhost.objects import Form, ObjectError, ObjectFile, ObjectProgram, load_object  # noqa: E402
from bpfhost.runs import TestRuns  # noqa: E402

TABLE = HERE / "table.md"
COMPILERS = ("14", "19")
LEVELS = ("-O1", "-O2", "-Os")
PROCESSORS = ("v1", "v2", "v3", "v4")
# The constants of linux/if_packet.h for an incoming and an outgoing packet.
CONTEXTS = (Context(pkt_type=0), Context(pkt_type=4))
STEPS = ("maps", "calls", "packet", "fetch", "exchange", "compare", "loops", "order", "scratch", "index", "equal", "known", "zeros", "copies")
# Filters in this folder have instructions or habits that the host does not have. Each compiler compiles them in one way, for a processor with
# atomic operations that fetch.
REWRITTEN = HERE / "rewritten"
PASSED, DIFFERS = 0, 1


@dataclass
class Tally:
    """The counts for one filter and one compiler: programs in all, those accepted as compiled, and those lowered."""

    programs: int = 0
    compiled: int = 0
    lowered: int = 0
    slots: int = 0
    steps: set[str] = field(default_factory=set)
    faults: list[str] = field(default_factory=list)

    def cells(self) -> tuple[str, str, str, str]:
        """The compiler's cells of the table."""
        needed = ", ".join(step for step in STEPS if step in self.steps) or "nothing"
        return f"{self.compiled}/{self.programs}", f"{self.lowered}/{self.programs}", needed, str(self.slots)


@dataclass
class Filter:
    """The outcome for a filter: a tally for each compiler, and the results of its forms."""

    name: str
    tallies: dict[str, Tally]
    kept: int
    faults: list[str]


@functools.cache
def clang(version: str) -> str | None:
    """The compiler of a version, if it is installed and compiles for BPF."""
    found = shutil.which(f"clang-{version}")
    if found is None:
        return None
    targets = subprocess.run([found, "--print-targets"], capture_output=True, text=True, check=False).stdout
    return found if " bpf " in targets else None


@functools.cache
def processors(version: str) -> tuple[str, ...]:
    """The processors that a compiler knows."""
    words = [clang(version) or "clang", "-target", "bpf", "-c", "-x", "c", "-", "-o", os.devnull]
    ended = {each: subprocess.run([*words, f"-mcpu={each}"], input=b"", capture_output=True, check=False) for each in PROCESSORS}
    return tuple(each for each in PROCESSORS if ended[each].returncode == 0)


def compiled(source: Path, version: str, scratch: Path) -> Iterator[Path]:
    """The objects that a compiler makes of a source."""
    is_one = source.parent == REWRITTEN
    for level in ("-O2",) if is_one else LEVELS:
        for processor in ("v3",) if is_one else processors(version):
            made = scratch / f"{source.stem}{level}-{version}-{processor}.o"
            words = [clang(version) or "clang", level, "-g", "-Wall", "-Wno-unused-function", "-target", "bpf", f"-I{INCLUDE}", f"-mcpu={processor}"]
            ended = subprocess.run([*words, "-c", source.name, "-o", str(made)], capture_output=True, text=True, check=False, cwd=source.parent)
            if ended.returncode or ended.stderr:
                sys.exit(f"filters: {made.name}: {ended.stderr}")
            yield made


def forms_of(bpfhost: str, made: Path, tally: Tally) -> Iterator[tuple[ObjectFile, Lowered]]:
    """The forms of an object's program that are accepted, each with its object."""
    tally.programs += 1
    try:
        plain = load_object(made, Form.AS_IS)
        if lowered_program(bpfhost, plain, plain.programs[0]).refused is None:
            tally.compiled += 1
            yield plain, as_is(plain.programs[0])
    except ObjectError:
        pass
    try:
        found = load_object(made)
        lowered = lowered_program(bpfhost, found, found.programs[0])
    except (ObjectError, LoweringError) as error:
        tally.faults.append(f"{made.name}: {error}")
        return
    if lowered.refused is not None:
        tally.faults.append(f"{made.name} is refused at slot {lowered.refused[0]} for reason {lowered.refused[1]}")
        return
    tally.lowered += 1
    tally.slots = max(tally.slots, len(lowered.program.slots) // 8)
    tally.steps |= {*lowered.steps, *(["maps"] if found.changes else [])}
    yield found, lowered
    yield found, ordered(bpfhost, found)


def ordered(bpfhost: str, found: ObjectFile) -> Lowered:
    """The program in another form, even if it is accepted as it is."""
    program = found.programs[0]

    def ask(form: ObjectProgram) -> tuple[int, int] | None:
        return (0, 2) if form is program else verify(bpfhost, form.linked(first_descriptors(found)), shapes_of(found)).refused

    return lower(found, program, ask)


def answers(host: Host, found: ObjectFile, form: Lowered, captures: Sequence[Path]) -> tuple[str, int]:
    """The results of a form on all packets and the contents of its maps, as one number, and how many packets it keeps."""
    tenant = host.tenant()
    loaded = load_program(tenant, found, form)
    results: list[int] = []
    for path in captures:
        for context in CONTEXTS:
            runs = TestRuns(host, tenant.number, loaded.descriptor, context)
            with open_capture(path) as capture:
                for few in runs.results(capture.pieces(runs.most)):
                    results += few
    told = json.dumps([results, left(found, loaded)], sort_keys=True)
    tenant.close(loaded.descriptor)
    for each in loaded.maps:
        tenant.close(each.map.descriptor)
    return hashlib.sha256(told.encode()).hexdigest(), sum(1 for result in results if result)


def left(found: ObjectFile, loaded: LoadedProgram) -> Mapping[str, object]:
    """The contents of the maps, by their names; variables by their names too, as compilers put them into their sections in any order."""
    assert found.types is not None
    values: dict[str, object] = {}
    for each in loaded.maps:
        declared = each.declared
        if declared.name.startswith(".rodata"):
            continue
        types, of_value = found.types, declared.value_type
        entries = each.map.entries()
        shown = [[key.hex(), value.hex() if of_value is None else types.plain(of_value, value)] for key, value in entries]
        if declared.initial is not None and shown and isinstance(shown[0][1], dict):
            values |= shown[0][1]
        else:
            values[declared.name] = shown
    return values


def tried(job: tuple[str, str, tuple[str, ...]]) -> Filter:
    """The outcome for one filter."""
    bpfhost, name, captures = job
    tallies = {version: Tally() for version in COMPILERS if clang(version)}
    told: dict[str, list[str]] = {}
    seen: dict[tuple[bytes, str], str] = {}
    kept = 0
    with tempfile.TemporaryDirectory() as scratch, Host(bpfhost) as host:
        for version, tally in tallies.items():
            for made in compiled(source_of(name), version, Path(scratch)):
                for found, form in forms_of(bpfhost, made, tally):
                    key = form.program.slots, str(found.maps)
                    if key not in seen:
                        seen[key], kept = answers(host, found, form, [Path(each) for each in captures])
                    told.setdefault(seen[key], []).append(f"{made.name} {', '.join(form.steps) or 'as compiled'}")
    faults = [fault for tally in tallies.values() for fault in tally.faults]
    if len(told) > 1:
        first, *others = told.values()
        faults += [f"{few[0]} returns something else than {first[0]}" for few in others]
    return Filter(name, tallies, kept, faults)


def source_of(name: str) -> Path:
    """The source of a filter."""
    path = HERE / f"{name}.c"
    return path if path.exists() else REWRITTEN / path.name


def about(name: str) -> str:
    """What a filter does: the first sentence of its source."""
    comment = source_of(name).read_text().partition("*/")[0].removeprefix("/*")
    text = " ".join(line.strip().removeprefix("*").strip() for line in comment.splitlines())
    first = text.split(". ")[0].rstrip(".")
    return first.partition(": ")[0] if len(first) > 90 else first


def rows(found: Sequence[Filter]) -> list[list[str]]:
    """The table's rows; a missing compiler has empty cells."""
    return [[f"`{each.name}`", about(each.name), f"{each.kept:,}", *cells_of(each)] for each in found]


def cells_of(found: Filter) -> list[str]:
    """The cells of all compilers."""
    empty = [""] * len(CELLS)
    return [cell for version in COMPILERS for cell in (found.tallies[version].cells() if version in found.tallies else empty)]


CELLS = ("As compiled", "Lowered", "Needs", "Slots")
HEAD = ("Filter", "Does", "Keeps", *(f"{cell}, clang {version}" for version in COMPILERS for cell in CELLS))


def page(table: Iterable[Sequence[str]], totals: Mapping[str, Tally]) -> str:
    """The page."""
    lines = [f"| {' | '.join(row)} |" for row in (HEAD, ["---"] * len(HEAD), *table)]
    told = [
        f"Of {each.programs} programs by clang {version}, {each.compiled} are accepted as compiled and {each.lowered} lowered."
        for version, each in totals.items()
    ]
    return "\n".join(["# What each filter needs", "", *told, "", *lines, ""])


def total(found: Sequence[Filter]) -> dict[str, Tally]:
    """The sums of all filters, by compiler."""
    sums: dict[str, Tally] = {}
    for each in found:
        for version, tally in each.tallies.items():
            of_all = sums.setdefault(version, Tally())
            of_all.programs += tally.programs
            of_all.compiled += tally.compiled
            of_all.lowered += tally.lowered
    return sums


def compared(found: Sequence[Filter]) -> list[str]:
    """The differences between the page and the results, in the columns of the installed compilers."""
    has = {version: clang(version) is not None for version in COMPILERS}
    columns = [True] * 3 + [has[version] for version in COMPILERS for _ in CELLS]
    written = [line for line in (TABLE.read_text() if TABLE.exists() else "").splitlines() if line.startswith("| `")]
    stand = {cells[0]: cells for cells in ([cell.strip() for cell in line.strip("|").split("|")] for line in written)}
    wrong = []
    for row in rows(found):
        before = stand.pop(row[0], [""] * len(row))
        if any(is_there and old != new for is_there, old, new in zip(columns, before, row)):
            wrong.append(f"table.md says of {row[0]}: {' | '.join(before)}; and now it is {' | '.join(row)}")
    return [*wrong, *(f"table.md has {name}, which there is not" for name in stand)]


def found_of(bpfhost: str) -> list[Filter]:
    """The outcomes for all filters, each in a process of its own."""
    names = sorted(path.stem for folder in (HERE, REWRITTEN) for path in folder.glob("*.c"))
    with tempfile.TemporaryDirectory() as scratch:
        traffic = Path(scratch) / "traffic.pcap"
        subprocess.run([sys.executable, str(HERE / "make_traffic.py"), str(traffic)], check=True)
        captures = (str(traffic), str(HERE.parent / "capture/sample.pcap"))
        with ProcessPoolExecutor(os.cpu_count()) as pool:
            return list(pool.map(tried, [(bpfhost, name, captures) for name in names]))


def main(words: Sequence[str]) -> int:
    """Tests all filters; the status is 1 if forms differ, a program is rejected, or the page is wrong."""
    if not words or words[1:] not in ([], ["--write"]):
        sys.exit("usage: forms.py BPFHOST [--write]")
    missing = [version for version in COMPILERS if clang(version) is None]
    print("".join(f"filters: left out is clang {version}, which is missing\n" for version in missing), end="")
    found = found_of(str(Path(words[0]).resolve())) if len(missing) < len(COMPILERS) else []
    faults = [f"{each.name}: {fault}" for each in found for fault in each.faults]
    if words[1:] and not missing:
        TABLE.write_text(page(rows(found), total(found)))
    faults += compared(found) if found else []
    if not missing and not faults and TABLE.read_text() != page(rows(found), total(found)):
        faults.append("table.md has other sums or other words than these")
    print("".join(f"filters: {fault}\n" for fault in faults), end="")
    for version, sums in total(found).items():
        told = f"of {sums.programs} programs by clang {version}, {sums.compiled} are accepted as compiled and {sums.lowered} lowered"
        print(f"filters: {told}")
    return DIFFERS if faults else PASSED


if __name__ == "__main__":
    sys.exit(main(sys.argv[1:]))
