"""`check`: the verdict on each program of an object, with the verifier's log."""

from __future__ import annotations

import argparse

from bpfhost.command.objects import read_object
from bpfhost.command.version import program_of
from bpfhost.errors import HostError, SourceRefused


def run(said: argparse.Namespace) -> int:
    """Verifies each program separately, with the maps of the object; the status is 1 if one is rejected."""
    program, object_file = program_of(said), read_object(said, said.object)
    from bpfhost.loading import choose_program, graph_of, log_of, lowered_program, refused_at
    from bpfhost.lowering import LoweringError

    if not object_file.programs:
        choose_program(object_file)
    status = 0
    for each in object_file.programs:
        name = f"{each.name} in section {each.section}"
        try:
            lowered = lowered_program(program, object_file, each)
        except LoweringError as error:
            print(f"{name} is refused: {error}")
            status = 1
            continue
        if said.dot:
            print(graph_of(program, object_file, lowered) or _no_graph(), end="")
            continue
        refused: SourceRefused | None = refused_at(program, object_file, lowered, *lowered.refused) if lowered.refused else None
        verdict = f"refused: {refused}" if refused else f"accepted{' in another form' if lowered.changes else ''}"
        print(f"{name} is {verdict}")
        print("".join(f"- {change}\n" for change in lowered.changes), end="")
        print((refused.log if refused else log_of(program, object_file, lowered)) or "", end="")
        status = 1 if refused else status
    return status


def _no_graph() -> str:
    raise HostError("graphs need the program verifier_log: name it by the variable VERIFIER_LOG")
