#!/usr/bin/env python3
"""The processor time of lowering: of the filters of examples/filters, next to another package of the client, and of 4,000 slots next to 1,000.

usage: bench/lowering.py [--bpfhost PATH] [--before PACKAGE] [--rounds N]

PACKAGE is the folder clients/python of another tree, and both packages lower the same objects in turns; without it, only this one does. The
verdicts of the host are asked for once, and their time is not counted. Each number is the least of all rounds.
"""

from __future__ import annotations

import argparse
import json
import os
import shutil
import subprocess
import sys
import tempfile
import time
from collections.abc import Callable
from pathlib import Path

HERE = Path(__file__).resolve().parents[1]
FILTERS, INCLUDE = HERE.parents[1] / "examples/filters", HERE.parents[1] / "clients/c/include"
# How often a worker lowers all filters for one number, and how often each of the long programs is lowered, of which the least counts.
PASSES, LONG_PASSES = 3, 12


def worker(bpfhost: str, objects: list[str]) -> None:
    """Lowers objects, and writes the processor time in seconds for each line of standard input; run with one package in PYTHONPATH."""
    from bpfhost.loading import first_descriptors, shapes_of
    from bpfhost.lowering import lower
    from bpfhost.objects import ObjectFile, ObjectProgram, load_object
    from bpfhost.program import verify

    verdicts: dict[tuple[str, bytes], tuple[int, int] | None] = {}

    def asking(found: ObjectFile) -> Callable[[ObjectProgram], tuple[int, int] | None]:
        def ask(form: ObjectProgram) -> tuple[int, int] | None:
            slots = form.linked(first_descriptors(found))
            key = found.path, slots
            if key not in verdicts:
                verdicts[key] = verify(bpfhost, slots, shapes_of(found)).refused
            return verdicts[key]

        return ask

    read = [load_object(path) for path in objects]
    for found in read:
        lower(found, found.programs[0], asking(found))
    for _line in sys.stdin:
        begin = time.process_time()
        for found in read * PASSES:
            lower(found, found.programs[0], asking(found))
        print((time.process_time() - begin) / PASSES, flush=True)


def straight(bpfhost: str, slots: int) -> float:
    """The processor time of lowering a program of so many slots, with a jump backward, branches and a loop."""
    from bpfhost import assemble
    from bpfhost.lowering import lower
    from bpfhost.objects import ObjectFile, ObjectProgram

    turns = (slots - 8) // 8
    step = "r0 += r6\nr0 ^= 5\nif r0 == 9 goto end\nr0 += 1\n"
    text = f"r6 = *(u32 *)(r1 + 0)\nr0 = 1\n{step * turns}goto far\nend:\nexit\nfar:\n{step * (turns - 2)}goto end\n"
    program = ObjectProgram("socket", "f", assemble(bpfhost, text), (), ())
    found = ObjectFile("f.o", (program,), (), None)
    first: list[tuple[int, int] | None] = [(0, 2)]

    def ask(form: ObjectProgram) -> tuple[int, int] | None:
        return first[0] if form is program else None

    best = float("inf")
    for _ in range(LONG_PASSES):
        begin = time.process_time()
        lower(found, program, ask)
        best = min(best, time.process_time() - begin)
    return best


def compiled(folder: Path) -> list[str]:
    """The forty filters, each by the first clang that there is, with -O2."""
    clang = next((path for path in map(shutil.which, ("clang-14", "clang", "clang-19")) if path), None)
    if clang is None:
        sys.exit("there is no clang")
    made = []
    for source in sorted(FILTERS.glob("*.c")):
        path = folder / f"{source.stem}.o"
        words = [clang, "-O2", "-g", "-target", "bpf", f"-I{INCLUDE}", "-c", source.name, "-o", str(path)]
        subprocess.run(words, check=True, cwd=FILTERS, stderr=subprocess.DEVNULL)
        made.append(str(path))
    return made


def compared(bpfhost: str, packages: dict[str, Path], rounds: int, objects: list[str]) -> dict[str, float]:
    """The least time of each package over all rounds; in a round each package has its turn."""
    words = [sys.executable, __file__, "--worker", bpfhost, json.dumps(objects)]
    workers = {
        name: subprocess.Popen(words, stdin=subprocess.PIPE, stdout=subprocess.PIPE, text=True, env={**os.environ, "PYTHONPATH": str(package)})
        for name, package in packages.items()
    }
    best = dict.fromkeys(packages, float("inf"))
    for _ in range(rounds):
        for name, each in workers.items():
            assert each.stdin and each.stdout
            each.stdin.write("\n")
            each.stdin.flush()
            best[name] = min(best[name], float(each.stdout.readline()))
    for each in workers.values():
        each.communicate()
    return best


def main() -> None:
    """Prints both comparisons."""
    if sys.argv[1:2] == ["--worker"]:
        worker(sys.argv[2], json.loads(sys.argv[3]))
        return
    sys.path.insert(0, str(HERE))
    from bpfhost.program import find_program

    parser = argparse.ArgumentParser(description=__doc__, formatter_class=argparse.RawDescriptionHelpFormatter)
    parser.add_argument("--bpfhost", metavar="PATH")
    parser.add_argument("--before", metavar="PACKAGE", type=Path)
    parser.add_argument("--rounds", metavar="N", type=int, default=10)
    said = parser.parse_args()
    bpfhost = find_program(said.bpfhost)
    packages = {"now": HERE, **({"before": said.before.resolve()} if said.before else {})}
    with tempfile.TemporaryDirectory() as folder:
        best = compared(bpfhost, packages, said.rounds, compiled(Path(folder)))
    for name, seconds in best.items():
        print(f"forty filters, {name}: {1000 * seconds:.1f} ms")
    if "before" in best:
        print(f"ratio: {best['now'] / best['before']:.2f}")
    short, long = straight(bpfhost, 1000), straight(bpfhost, 4000)
    print(f"1,000 slots: {1000 * short:.1f} ms, 4,000 slots: {1000 * long:.1f} ms, ratio: {long / short:.2f}")


if __name__ == "__main__":
    main()
