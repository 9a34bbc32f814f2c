#!/usr/bin/env python3
"""Makes the pages of this folder by `report`, and compares them with those that are here. usage: make.py BPFHOST [--write]

The status is 1 if one differs. It needs clang 14, which compiled the filters, and the program verifier_log; if one is missing, nothing is
compared, and a notice is printed.
"""

from __future__ import annotations

import difflib
import os
import shutil
import subprocess
import sys
import tempfile
from collections.abc import Sequence
from pathlib import Path

HERE = Path(__file__).resolve().parent
PACKAGE, INCLUDE = HERE.parents[1] / "clients/python", HERE.parents[1] / "clients/c/include"
sys.path.insert(0, str(PACKAGE))

from bpfhost.program import find_verifier_log  # noqa: E402

CLANG = "clang-14"
CAPTURE = "../capture/sample.pcap"
# The pages: their sources, and the arguments after the object.
PAGES = {"checksum.html": ("../filters/ip_checksum.c", (CAPTURE,)), "refused.html": ("refused.c", ())}
SAME, DIFFERS = 0, 1


def missing(bpfhost: str) -> str | None:
    """What is missing to make the pages."""
    if shutil.which(CLANG) is None:
        return CLANG
    return "the program verifier_log" if find_verifier_log(bpfhost) is None else None


def made(bpfhost: str, name: str, folder: Path) -> str:
    """A page, made in a folder with the object."""
    source, words = PAGES[name]
    built, output = folder / f"{Path(source).stem}.o", folder / name
    compile_words = [CLANG, "-O2", "-g", "-fdebug-compilation-dir=.", "-target", "bpf", f"-I{INCLUDE}", "-c", source, "-o", str(built)]
    subprocess.run(compile_words, check=True, cwd=HERE)
    call = [sys.executable, "-m", "bpfhost", "report", "--bpfhost", bpfhost, str(built), *words, "-o", str(output)]
    ended = subprocess.run(call, check=False, cwd=HERE, env={**os.environ, "PYTHONPATH": str(PACKAGE)}, capture_output=True, text=True)
    if not output.exists():
        sys.exit(f"reports: {name}: {ended.stderr}")
    return output.read_text().replace(f"{folder}/", "")


def main(words: Sequence[str]) -> int:
    """Writes or compares the pages."""
    if not words or words[1:] not in ([], ["--write"]):
        sys.exit("usage: make.py BPFHOST [--write]")
    bpfhost = str(Path(words[0]).resolve())
    lacks = missing(bpfhost)
    if lacks is not None:
        print(f"reports: the pages are not made, as there is no {lacks}")
        return SAME
    status = SAME
    with tempfile.TemporaryDirectory() as scratch:
        for name in PAGES:
            page, path = made(bpfhost, name, Path(scratch)), HERE / name
            if words[1:]:
                path.write_text(page)
            elif page != path.read_text():
                sys.stdout.writelines(difflib.unified_diff(path.read_text().splitlines(True), page.splitlines(True), name, f"{name}, made now"))
                status = DIFFERS
    if status == SAME:
        print(f"reports: {' and '.join(PAGES)} are what report writes")
    return status


if __name__ == "__main__":
    sys.exit(main(sys.argv[1:]))
