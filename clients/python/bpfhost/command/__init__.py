# PYTHON_ARGCOMPLETE_OK
"""The command `python3 -m bpfhost`: runs objects and filters on captures, checks them, and reads and writes programs and frames as text.

Its status is 0 for success; 1 for an input that is rejected: a file, a program, a frame; 2 for wrong arguments; 3 if the host does not
start or ends, or if a package is missing. Each error is one sentence on standard error.
"""

from __future__ import annotations

from collections.abc import Sequence

from bpfhost.command.arguments import parse
from bpfhost.telling import status_of


def main(words: Sequence[str] | None = None) -> int:
    """Runs the command with these arguments, or those of the process, and returns its status."""
    said = parse(words)
    return status_of("bpfhost", lambda: int(said.run(said)))
