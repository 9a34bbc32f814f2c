#!/usr/bin/env python3
"""Filters written in C, run on a capture by the command of clients/python. usage: example.py BPFHOST [CLANG]

With a clang, it compiles the objects from the C, and without it uses those of this folder. If tcpdump is installed, it compares which
packets tcpdump keeps by the same rule, and how many packets it finds of each flow.
"""

from __future__ import annotations

import json
import os
import shutil
import subprocess
import sys
import tempfile
from pathlib import Path
from typing import Any

HERE = Path(__file__).resolve().parent
PACKAGE = HERE.parents[1] / "clients/python"
NAMES = ("flows", "counter", "refused")
# How clang compiles a filter.
WORDS = ("-O2", "-g", "-fdebug-compilation-dir=.", "-target", "bpf", f"-I{os.path.relpath(HERE.parents[1] / 'clients/c/include', HERE)}")
# The version of clang that made the objects of this folder; another one may compile the same C to other objects.
CLANG_OF_OBJECTS = "version 14."
# What flows.c keeps, as an expression of pcap-filter(7).
KEPT = "tcp or udp or (vlan and (tcp or udp))"
# Bytes of a capture's header, which differs in its snapshot length.
HEADER = 24


def called(*words: object, cwd: Path = HERE) -> bytes:
    """The output of a program; the example exits if it fails."""
    ended = subprocess.run([str(word) for word in words], capture_output=True, check=False, cwd=cwd)
    if ended.returncode:
        sys.exit(f"capture: {words[0]} failed: {ended.stderr.decode(errors='replace').strip()}")
    return ended.stdout


def command(scratch: Path, *words: str) -> subprocess.CompletedProcess[str]:
    """Runs the command in the folder of the objects."""
    environment = {**os.environ, "PYTHONPATH": str(PACKAGE), "PYTHONDONTWRITEBYTECODE": "1", "VERIFIER_LOG": ""}
    calls = [sys.executable, "-m", "bpfhost", *words]
    return subprocess.run(calls, capture_output=True, check=False, text=True, cwd=scratch, env=environment)


def show(scratch: Path, *words: str) -> None:
    """Prints the command and its output, without the time, which differs in each run, a verifier's log, and a notice on the program."""
    ended = command(scratch, *words)
    print(f"$ python3 -m bpfhost {' '.join(words)}")
    print("".join(line for line in ended.stdout.splitlines(True) if not line.startswith("time a packet")), end="")
    print(next((line for line in ended.stderr.splitlines() if not line.endswith(" is built without proofs")), ""))
    if ended.returncode:
        print(f"(status {ended.returncode})")


def make_objects(scratch: Path, clang: str | None) -> None:
    """Puts the objects and the capture into a folder."""
    for name in NAMES:
        if clang is None:
            shutil.copy(HERE / f"{name}.o", scratch)
        else:
            called(clang, *WORDS, "-c", f"{name}.c", "-o", scratch / f"{name}.o")
    shutil.copy(HERE / "sample.pcap", scratch)
    if clang is not None and CLANG_OF_OBJECTS in called(clang, "--version").decode():
        compare_objects(scratch)


def compare_objects(scratch: Path) -> None:
    """The objects of this folder have the programs that clang compiles from the C, with the same lines."""
    for name in NAMES:
        texts = [command(folder, "dis", f"{name}.o").stdout for folder in (HERE, scratch)]
        if not texts[0] or texts[0] != texts[1]:
            sys.exit(f"capture: {name}.o is not what clang makes of {name}.c")


def compare_capture(scratch: Path) -> None:
    """The capture is the one that the script makes."""
    called(sys.executable, HERE / "make_capture.py", scratch / "made.pcap")
    if (scratch / "made.pcap").read_bytes() != (HERE / "sample.pcap").read_bytes():
        sys.exit("capture: sample.pcap is not what make_capture.py makes")


def compare_kept(scratch: Path) -> None:
    """tcpdump keeps the same packets, byte for byte."""
    command(scratch, "run", "flows.o", "sample.pcap", "--accepted", "kept.pcap")
    called("tcpdump", "-r", "sample.pcap", "-w", "kept_by_tcpdump.pcap", KEPT, cwd=scratch)
    ours, theirs = ((scratch / name).read_bytes()[HEADER:] for name in ("kept.pcap", "kept_by_tcpdump.pcap"))
    if not ours or ours != theirs:
        sys.exit(f"capture: tcpdump keeps other packets by {KEPT}")


def compare_flows(scratch: Path) -> None:
    """tcpdump finds as many packets of each of the busiest flows."""
    report = json.loads(command(scratch, "run", "flows.o", "sample.pcap", "--json").stdout)
    entries = report["maps"]["busiest"]["entries"]
    for entry in entries:
        rule = rule_of(entry["key"])
        found = called("tcpdump", "-nn", "-t", "-q", "-r", "sample.pcap", f"{rule} or (vlan and {rule})", cwd=scratch)
        if len(found.splitlines()) != entry["value"]["packets"]:
            sys.exit(f"capture: tcpdump finds {len(found.splitlines())} packets, and not {entry['value']['packets']}, by {rule}")
    if len(entries) != 10:
        sys.exit(f"capture: there are {len(entries)} busiest flows, and not ten")


def rule_of(flow: dict[str, Any]) -> str:
    """A flow as an expression of pcap-filter(7)."""
    source, destination = (".".join(map(str, flow[side])) for side in ("source", "destination"))
    protocol = str(flow["protocol"]).lower()
    hosts = f"src host {source} and dst host {destination}"
    return f"(ip and {hosts} and {protocol} src port {flow['source_port']} and {protocol} dst port {flow['destination_port']})"


def main() -> None:
    """Prints the runs, and compares them with tcpdump's."""
    if len(sys.argv) not in (2, 3):
        sys.exit("usage: example.py BPFHOST [CLANG]")
    os.environ["BPFHOST"] = str(Path(sys.argv[1]).resolve())
    with tempfile.TemporaryDirectory() as folder:
        scratch = Path(folder)
        make_objects(scratch, sys.argv[2] if len(sys.argv) == 3 else None)
        compare_capture(scratch)
        show(scratch, "run", "flows.o", "sample.pcap")
        show(scratch, "run", "counter.o", "sample.pcap", "--tenants", "3", "--limit", "200", "--accepted", "first_bytes.pcap")
        show(scratch, "run", "refused.o", "sample.pcap")
        if shutil.which("tcpdump"):
            compare_kept(scratch)
            compare_flows(scratch)


main()
