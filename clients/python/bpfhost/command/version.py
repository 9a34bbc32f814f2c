"""`--version`: the client's version, and the program and the library that it uses."""

from __future__ import annotations

import argparse
import os
import sys

from bpfhost.errors import HostError
from bpfhost.program import find_program, is_unproved


def version() -> str:
    """The client's version, the program's path and kind, and those of the library, if the variable BPFHOST_LIBRARY names one."""
    from bpfhost import __version__

    try:
        told = _kind(find_program())
    except HostError as error:
        told = str(error)
    lines = [f"bpfhost, the client in Python, {__version__}", f"bpfhost, the program: {told}"]
    library = os.environ.get("BPFHOST_LIBRARY", "")
    if os.path.isfile(library):
        lines.append(f"bpfhost, the library: {_kind(library)}")
    return "\n".join(lines)


def _kind(path: str) -> str:
    """The path of a program or of a library, and whether it is proved."""
    if is_unproved(path):
        return f"{path} is built without proofs, by tools/quick-build"
    return f"{path}, built with its proofs (it has no mark of tools/quick-build)"


def program_of(said: argparse.Namespace) -> str:
    """The program that the arguments name, or that is found; prints a notice, once, for one that is built without proofs."""
    program = find_program(said.bpfhost)
    if is_unproved(program):
        print(f"bpfhost: {program} is built without proofs", file=sys.stderr)
    return program
