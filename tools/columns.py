"""Lines of definitions and contracts above 100 columns, and of proofs above 160; of the latter 5 in 100 may be above 120. A `use` has at
most 160."""

from __future__ import annotations

import re
from collections.abc import Mapping

MOST = 100
# Of proofs: the most columns of a line, those of most lines, and how many of a hundred may have more.
MOST_OF_PROOFS, OF_MOST, ABOVE = 160, 120, 5
USE = re.compile(r"\s*(?:pub |ghost )?use ")
# The first line of a clause of a contract: up to its closing brace its lines are counted.
CLAUSE = re.compile(r"\s*(?:requires|ensures|invariant|decreases)\b")
MOST_OF_USE = 160


def too_wide(name: str, text: str, most: int = MOST) -> list[str]:
    """The faults of a file of definitions or proofs: its lines that are too long."""
    return wide_uses(name, text) + [
        f"{name}:{number}: {len(line)} columns, and {most} are the most: a line for each premise, or a name for what repeats"
        for number, line in enumerate(text.splitlines(), 1) if len(line) > most and not USE.match(line)]


def wide_contracts(name: str, text: str) -> list[str]:
    """The faults of a file of code: lines of contracts that are too long."""
    faults, open_braces = [], 0
    for number, line in enumerate(text.splitlines(), 1):
        if open_braces or CLAUSE.match(line):
            open_braces += line.count("{") - line.count("}")
            if len(line) > MOST:
                faults.append(f"{name}:{number}: {len(line)} columns, and a contract has {MOST} at most")
    return faults


def wide_uses(name: str, text: str) -> list[str]:
    """The lines of a file that import too many names at once."""
    return [f"{name}:{number}: {len(line)} columns, and a `use` has {MOST_OF_USE} at most: several of the same path"
            for number, line in enumerate(text.splitlines(), 1) if len(line) > MOST_OF_USE and USE.match(line)]


def too_wide_proofs(texts: Mapping[str, str]) -> list[str]:
    """The faults of all files of proofs, by their names: lines that are too long, and too many long ones."""
    lines = [line for text in texts.values() for line in text.splitlines() if not USE.match(line)]
    above = sum(len(line) > OF_MOST for line in lines)
    many = [f"proofs: {above} of {len(lines)} lines have more than {OF_MOST} columns, and {ABOVE} of a hundred are the most"]
    return [fault for name, text in texts.items() for fault in too_wide(name, text, MOST_OF_PROOFS)] + many * (100 * above > ABOVE * len(lines))
