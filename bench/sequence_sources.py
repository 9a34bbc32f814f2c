"""The programs in which sequences are counted: filters in C as clang compiles them, and expressions of tcpdump."""

from __future__ import annotations

import os
import shutil
import sys
import tempfile
from collections.abc import Iterator
from concurrent.futures import ThreadPoolExecutor
from pathlib import Path

from compiled import SOURCES, built, has_bpf, program_of

TOP = Path(__file__).resolve().parent.parent
sys.path.insert(0, str(TOP / "clients/python"))

from bpfhost.classic import ClassicProgram  # noqa: E402

COMPILERS = ("clang-14", "clang-19")
PROCESSORS = ("v1", "v2", "v3", "v4")
# The different programs that are made of one source, as slots.
Source = set[bytes]


def compilers() -> Iterator[tuple[str, str]]:
    """The clangs that are here, each with each processor of BPF that it knows. A notice is printed for a clang that is not."""
    for name in COMPILERS:
        clang = shutil.which(name) or ""
        with tempfile.TemporaryDirectory() as folder:
            known = [processor for processor in PROCESSORS if has_bpf(clang, Path(folder), f"-mcpu={processor}")]
        if not known:
            print(f"no {name} with the target bpf: what it compiles is not counted")
        yield from ((clang, processor) for processor in known)


def of_filters(bpfhost: str) -> list[Source]:
    """Each filter of examples/filters, compiled with -O2, in the form that is loaded."""
    ways = list(compilers())
    paths = sorted(SOURCES.glob("*.c"))

    def programs(path: Path) -> Source:
        found = set()
        for clang, processor in ways:
            with tempfile.TemporaryDirectory() as folder:
                program = program_of(built(clang, bpfhost, path, Path(folder), f"-mcpu={processor}"))
                found.add(b"".join(program.slots))
        return found

    with ThreadPoolExecutor(os.cpu_count()) as pool:
        return list(pool.map(programs, paths))


def of_expressions() -> list[Source]:
    """Each expression of expressions.txt, as the Python client translates it."""
    lines = (TOP / "bench/expressions.txt").read_text().splitlines()
    return [{ClassicProgram.of_expression(line).translated().slots} for line in lines if not line.startswith("#")]
