"""Filters of examples/filters that clang compiles and the Python client lowers, as programs of the benchmark."""

from __future__ import annotations

import functools
import importlib.util
import json
import os
import shutil
import subprocess
import sys
from collections.abc import Iterator
from concurrent.futures import ThreadPoolExecutor
from dataclasses import replace
from pathlib import Path
from types import ModuleType

from programs import WORDS, Program
from streams import before_runs, run

_TOP = Path(__file__).resolve().parent.parent
SOURCES = _TOP / "examples" / "filters"
_KINDS = {"hash": 1, "array": 2}
# `protocol` of __sk_buff is the fourth word of a frame's context: the type of the Ethernet header, in network byte order.
_PROTOCOL, _TYPE = 3, slice(12, 14)
_FIRST = 3
# Runs by whose mean the instructions of a run are counted: what some filters execute depends on what the runs before have left.
_COUNTED = 1000


def compiled(bpfhost: str, counting: str, folder: Path, only: str = "") -> dict[str, Program]:
    """The filters with this word in their names, built in this folder, each with a packet and the number of instructions that a run
    executes. None if there is no clang for BPF, and then a notice is printed.

    `counting` is plain.c built with -DCOUNT.
    """
    clang = shutil.which(os.environ.get("CLANG", "clang")) or ""
    if not has_bpf(clang, folder):
        print("no clang with the target bpf: the filters that it compiles are left out")
        return {}
    names = [path.stem for path in sorted(SOURCES.glob("*.c")) if only in path.name]
    with ThreadPoolExecutor(os.cpu_count()) as pool:
        built_files = dict(zip(names, pool.map(lambda name: built(clang, bpfhost, SOURCES / f"{name}.c", folder), names)))
    traffic = _module(SOURCES / "make_traffic.py")
    chosen, made = _packets(traffic), list(traffic.packets())
    programs = {}
    for name, path in built_files.items():
        packets = [chosen[name]] if name in chosen else made
        programs[f"{name}.c"] = _on_longest(counting, program_of(path), packets)
    return programs


def has_bpf(clang: str, folder: Path, *words: str) -> bool:
    """Whether this compiler makes code for BPF, with these words."""
    command = [clang, "-target", "bpf", *words, "-x", "c", "-c", "-", "-o", str(folder / "none.o")]
    return bool(clang) and subprocess.run(command, input=b"", capture_output=True, check=False).returncode == 0


def built(clang: str, bpfhost: str, source: Path, folder: Path, *words: str) -> Path:
    """The file of a built program (clients/python, "Built programs") in this folder, compiled with these words."""
    compiled_file, made = folder / f"{source.stem}.o", folder / f"{source.stem}.json"
    subprocess.run([clang, "-O2", "-g", "-target", "bpf", f"-I{_TOP}/clients/c/include", *words, "-c", str(source), "-o", str(compiled_file)], check=True)
    build = [_python(), "-m", "bpfhost", "build", str(compiled_file), "-o", str(made)]
    environment = {**os.environ, "PYTHONPATH": str(_TOP / "clients" / "python"), "BPFHOST": os.path.abspath(bpfhost)}
    done = subprocess.run(build, env=environment, stderr=subprocess.PIPE, text=True, check=False)
    if done.returncode:
        sys.exit(f"{source.name}: {done.stderr.strip()}")
    return made


def program_of(built_file: Path) -> Program:
    """The program with its maps at the first descriptors, and the values that variables have at first."""
    found = json.loads(built_file.read_text())
    slots = [bytes.fromhex(text) for text in found["slots"]]
    for number, each in enumerate(found["maps"]):
        for at in each["slots"]:
            slots[at] = slots[at][:4] + (_FIRST + number).to_bytes(4, "little") + slots[at][8:]
    maps = [(_KINDS[each["type"]], each["key_size"], each["value_size"], each["max_entries"]) for each in found["maps"]]
    values = {number: bytes.fromhex(each["initial"]) for number, each in enumerate(found["maps"]) if each["initial"]}
    return Program(slots, maps=maps, values={number: value for number, value in values.items() if any(value)})


def _packets(traffic: ModuleType) -> dict[str, bytes]:
    """Packets for some filters that these read as a whole."""
    hello, question = traffic.hello("www.example.com"), traffic.question("www.example.com", 28)
    return {
        "flow_count": traffic.ipv4(6, traffic.tcp(40_001, 443, bytes(100))),
        "tcp_flags": traffic.ipv4(6, traffic.tcp(40_001, 443, bytes(100), traffic.SYN, bytes(8))),
        "ip_checksum": traffic.ipv4(6, traffic.tcp(40_001, 443, bytes(100))),
        "dns_types": traffic.ipv4(17, traffic.udp(53_000, 53, question)),
        "tls_sni": traffic.ipv4(6, traffic.tcp(44_000, 443, hello)),
    }


def _on_longest(counting: str, program: Program, packets: list[bytes]) -> Program:
    """The program on that of the packets for which it executes the most instructions, when it runs on it again; of several the shortest."""
    cases = [replace(program, packet=packet, context=list(_context(packet))) for packet in packets]
    counts = _counts(counting, program, [case for case in cases for _ in range(2)])[1::2]
    longest = min((case for case, count in zip(cases, counts) if count == max(counts)), key=lambda case: len(case.packet))
    again = _counts(counting, longest, [longest] * (_COUNTED + 1))[1:]
    return replace(longest, executed=round(sum(again) / _COUNTED))


def _counts(counting: str, program: Program, cases: list[Program]) -> list[int]:
    """How many instructions each of these runs executes, on the maps that the one before leaves."""
    stream = before_runs(program) + b"".join(map(run, cases))
    done = subprocess.run([counting], input=stream, stdout=subprocess.PIPE, check=True)
    return [int(line) for line in done.stdout.split()]


def _module(path: Path) -> ModuleType:
    spec = importlib.util.spec_from_file_location(path.stem, path)
    assert spec is not None and spec.loader is not None
    module = importlib.util.module_from_spec(spec)
    spec.loader.exec_module(module)
    return module


@functools.cache
def _python() -> str:
    """The Python that has the client's packages."""
    found = subprocess.run([_TOP / "clients" / "python" / "find-python", "elftools"], stdout=subprocess.PIPE, text=True, check=False)
    if found.returncode:
        sys.exit("no Python 3.11 with pyelftools (Debian: python3-pyelftools), by which the client reads what clang compiles")
    return found.stdout.strip()


def _context(packet: bytes) -> Iterator[int]:
    for number, word in enumerate(WORDS):
        yield int.from_bytes(packet[_TYPE], "little") if number == _PROTOCOL else word
