#!/usr/bin/env python3
"""Counts machine instructions of each command of the bench `embed`, by a frame of one's own with bpfhost_ask and by one call, and of other calls.

usage: embed_counts.py PROGRAM
"""

import subprocess
import sys

from measure import Count, counter

FEW, MANY = 500, 2500


def instructions(count: Count, program: str, name: str, way: str) -> float:
    """Those of one command: the difference between many and few of them."""
    counted = [count([program, "--repeat", name, way, str(times)], subprocess.DEVNULL) for times in (FEW, MANY)]
    if None in counted:
        sys.exit(f"embed: the machine instructions of {name} can't be counted")
    few, many = (float(number or 0) for number in counted)
    return (many - few) / (MANY - FEW)


def main() -> None:
    program = sys.argv[1]
    tool, count = counter()
    if count is None:
        print("machine instructions: neither perf nor valgrind counts here")
        return
    print(f"machine instructions a command by a frame of one's own, and by one call ({tool})")
    print(f"{'':22}{'frame':>8}{'one call':>19}")
    for line in subprocess.run([program, "--list"], capture_output=True, text=True, check=True).stdout.splitlines():
        name, frame = line.split("\t")
        by_call = instructions(count, program, name, "call")
        if not frame:
            print(f"{name:22}{by_call:18,.0f}", flush=True)
            continue
        by_frame = instructions(count, program, name, frame)
        print(f"{name:22}{by_frame:8,.0f}{by_call:10,.0f}{by_call / by_frame:9.3f}", flush=True)


if __name__ == "__main__":
    main()
